"""The CRC-64 of the .xz format by others: checksums by three, and tables by two of them."""

import ctypes

import crcmod
from crccheck.crc import Crc, Crc64Xz

POLYNOMIAL = 0x42F0_E1EB_A9EA_3693
ONES = 0xFFFF_FFFF_FFFF_FFFF

liblzma = ctypes.CDLL("liblzma.so.5").lzma_crc64
liblzma.restype = ctypes.c_uint64
liblzma.argtypes = [ctypes.c_char_p, ctypes.c_size_t, ctypes.c_uint64]

# crcmod wants the highest bit, which the others leave out
crcmod_polynomial = 1 << 64 | POLYNOMIAL

CHECKSUMS = {
    "liblzma": lambda data: liblzma(data, len(data), 0),
    "crcmod": crcmod.mkCrcFun(crcmod_polynomial, initCrc=0, rev=True, xorOut=ONES),
    "crccheck": Crc64Xz.calc,
}

# The register alone: it begins at 0, and is not inverted at the end.
REGISTERS = {
    "crcmod": crcmod.mkCrcFun(crcmod_polynomial, initCrc=0, rev=True, xorOut=0),
    "crccheck": Crc(64, POLYNOMIAL, reflect_input=True, reflect_output=True).calc,
}


def tables():
    """Eight tables of 256 numbers in one list, by name of who made it. Number 256 * k + b is the byte b after 8 * k + 8
    steps of one bit: the register that b leaves, run on over k bytes of zeros."""
    made = {
        name: [register(bytes([b]) + bytes(k)) for k in range(8) for b in range(256)]
        for name, register in REGISTERS.items()
    }
    # the table that crcmod itself works with is the first of the eight
    own = crcmod.Crc(crcmod_polynomial, initCrc=0, rev=True, xorOut=0).table
    return made | {"crcmod's own table": [*own, *made["crcmod"][256:]]}
