"""Published checksums of the CRC-64 of the .xz format, each beside its bytes."""

RISING = bytes(range(256))

PUBLISHED = [
    # the check value of CRC-64/XZ in the catalogue of CRC algorithms (reveng), and in the test of liblzma
    (0x995D_C9BB_DF19_39FA, b"123456789"),
    # those that the program of crates/cases prints, on which xz, 7-Zip, crcmod and crccheck agree
    (0x1FAD_A173_6467_3F59, bytes(1)),
    (0xC95A_F861_7CD5_330C, bytes(32)),
    (0xE95D_CE9E_FAA0_9ACF, b"\xff" * 32),
    (0x7FE5_71A5_8708_4D10, RISING[:32]),
    (0x7241_4B2F_65DB_3AB0, RISING),
    (0xA94A_1402_87C3_29EA, RISING * 4096),
    # the test of hash/crc64 of Go (crc64_test.go), whose ECMA is this CRC-64
    (0x0000_0000_0000_0000, b""),
    (0x3302_8477_2E65_2B05, b"a"),
    (0xBC65_7320_0E84_B046, b"ab"),
    (0x2CD8_094A_1A27_7627, b"abc"),
    (0x3C9D_2859_6E59_60BA, b"abcd"),
    (0x040B_DF58_FB08_95F2, b"abcde"),
    (0xD08E_9F85_45A7_00F4, b"abcdef"),
    (0xEC20_A3A8_CC71_0E66, b"abcdefg"),
    (0x67B4_F30A_647A_0C59, b"abcdefgh"),
    (0x9966_F6C8_9D56_EF8E, b"abcdefghi"),
    (0x3209_3A2E_CD57_73F4, b"abcdefghij"),
    (0x8A08_2522_3EA6_D221, b"Discard medicine more than two years old."),
    (0x8562_C0AC_2AB9_A00D, b"He who has a shady past knows that nice guys finish last."),
    (0x3EE2_A39C_083F_38B4, b"I wouldn't marry him with a ten foot pole."),
    (0x1F60_3830_353E_518A, b"Free! Free!/A trip/to Mars/for 900/empty jars/Burma Shave"),
    (0x02FD_681D_7B24_21FD, b"The days of the digital watch are numbered.  -Tom Stoppard"),
    (0x790E_F2B1_6A74_5A41, b"Nepal premier won't resign."),
    (0x3EF8_F06D_ACCD_CDDF, b"For every action there is an equal and opposite government program."),
    (0x049E_41B2_660B_106D, b"His money is twice tainted: 'taint yours and 'taint mine."),
    (
        0x561C_C0CF_A235_AC68,
        b"There is no reason for any individual to have a "
        b"computer in their home. -Ken Olsen, 1977",
    ),
    (0xD4FE_9EF0_82E6_9F59, b"It's a tiny change to the code and not completely disgusting. - Bob Manchek"),
    (0xE3B5_E46C_D8D6_3A4D, b"size:  a.out:  bad magic"),
    (0x865A_AF6B_94F2_A051, b"The major problem is with sendmail.  -Mark Horton"),
    (0x7ECA_10D2_F813_6EB4, b"Give me a rock, paper and scissors and I will move the world.  CCFestoon"),
    (0xD7DD_118C_98E9_8727, b"If the enemy is within range, then so are you."),
    (0x70FB_33C1_19C2_9318, b"It's well we cannot hear the screams/That we create in others' dreams."),
    (0x57C8_91E3_9A97_D9B7, b"You remind me of a TV show, but that's all right: I watch it anyway."),
    (0xA1F4_6BA2_0AD0_6EB7, b"C is as portable as Stonehedge!!"),
    (
        0x7AD2_5FAF_A171_0407,
        b"Even if I could be Shakespeare, I think I should "
        b"still choose to be Faraday. - A. Huxley",
    ),
    (
        0x73CE_F166_6185_C13F,
        b"The fugacity of a constituent in a mixture of gases at a given temperature "
        b"is proportional to its mole fraction.  Lewis-Randall Rule",
    ),
    (0xB418_58F7_3C38_9602, b"How can you write a big system without C++?  -Paul Glick"),
    (0x27DB_187F_C15B_BC72, b"This is a test of the emergency broadcast system."),
]
