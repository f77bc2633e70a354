// BY(engine, call, ..): the call of asl.h by the engine to which `engine` points, or, where that is NULL, without one.
#define BY(engine, call, ...) ((engine) ? call##_by(*(engine), __VA_ARGS__) : call(__VA_ARGS__))
