"""Refusals 2 and 3: the header and the length."""
from .row import CASE_1, PASSES, check, filling, refused, script
from .shapes import FULL_PROP, FULL_TERM, LARGEST, ands, pairs

BAD_HEADER, BAD_COUNT = refused(2, 0), refused(3, 0)

MARKS = [
    *(check("byte %d of the mark is 0x%02x" % (at, value), script(CASE_1, "set byte %d %d" % (at, value)),
            BAD_HEADER, "the mark is N, D, T and a zero byte")
      for at, value in ((0, 0), (0, 0x4F), (1, 0), (1, 0x45), (2, 0), (2, 0x55), (3, 1), (3, 0x20), (3, 0xFF))),
    check("the mark in small letters", script(CASE_1, "set byte 0 0x6e", "set byte 1 0x64", "set byte 2 0x74"),
          BAD_HEADER, "the mark is in capitals"),
    filling("a filling's mark", script("filling sorry", "set byte 1 0"), BAD_HEADER, "a filling has the same header"),
]

VERSIONS = [
    *(check("version %d" % version, script(CASE_1, "set header version %d" % version),
            BAD_HEADER, "the version is 1, both its bytes")
      for version in (0, 2, 256, 257, 32769, 65535)),
    filling("a filling's version", script("filling sorry", "set header version 2"), BAD_HEADER, "a filling has the same header"),
]

ZEROS = [
    *(check("byte %d of the header is %d" % (at, value), script(CASE_1, "set byte %d %d" % (at, value)),
            BAD_HEADER, "bytes 12 to 15 are zero")
      for at in range(12, 16) for value in (1, 128)),
    filling("a filling's zero bytes", script("filling sorry", "set byte 15 1"), BAD_HEADER, "a filling has the same header"),
]

SHORT = [
    check("nothing at all", "", BAD_HEADER, "under 16 bytes"),
    filling("nothing at all, as a filling", "", BAD_HEADER, "under 16 bytes"),
    check("one zero byte", "bytes 0", BAD_HEADER, "under 16 bytes"),
    check("the mark alone", "bytes 0x4e 0x44 0x54 0", BAD_HEADER, "under 16 bytes"),
    check("15 bytes of a good header", script("header props 0 terms 1 expected 65535", "drop 1"), BAD_HEADER, "under 16 bytes"),
    check("16 zero bytes", "bytes" + " 0" * 16, BAD_HEADER, "long enough, but without the mark"),
    check("a header and no more", "header terms 1 expected 65535", BAD_COUNT, "a good header, but a record is missing"),
]

COUNTS = [
    check("no terms", "header", BAD_COUNT, "there are 1 to 512 terms, and 16 bytes would be the right length"),
    filling("no terms, as a filling", "header expected 65535", BAD_COUNT, "there are 1 to 512 terms"),
    check("no terms but a proposition", script("header props 1", "prop True"), BAD_COUNT, "there are 1 to 512 terms"),
    check("one term and no proposition, as a check", "filling sorry", refused(5, 0),
          "the counts are good; the expected field can't be in range"),
    filling("one term and no proposition", "filling sorry", PASSES, "0 propositions and 1 term are the smallest counts"),
    check("512 terms", "check %s : T" % FULL_TERM, PASSES, "512 is the limit"),
    check("513 terms", "check %s : T" % pairs(257), BAD_COUNT, "512 is the limit; the length is right"),
    check("1,024 propositions", "check sorry : %s" % FULL_PROP, PASSES, "1,024 is the limit"),
    check("1,025 propositions", "check sorry : %s" % ands(513), BAD_COUNT, "1,024 is the limit; the length is right"),
    check("both limits at once", LARGEST, PASSES, "the largest table there is; it is 11 high and 10 deep"),
    check("513 terms and 1,025 propositions", "check %s : %s" % (pairs(257), ands(513)), BAD_COUNT, "both counts are over"),
    check("1,024 propositions and 513 terms", "check %s : %s" % (pairs(257), FULL_PROP), BAD_COUNT, "one count is over"),
    check("1,025 propositions and 512 terms", "check %s : %s" % (FULL_TERM, ands(513)), BAD_COUNT, "one count is over"),
    filling("512 terms in a filling", "filling %s" % FULL_TERM, PASSES, "512 is the limit"),
    filling("513 terms in a filling", "filling %s" % pairs(257), BAD_COUNT, "512 is the limit"),
    filling("1,024 propositions in a filling", "filling (unit : [%s])" % FULL_PROP, PASSES, "1,024 is the limit"),
    filling("1,025 propositions in a filling", "filling (unit : [%s])" % ands(513), BAD_COUNT, "1,024 is the limit"),
    check("65,535 terms", script(CASE_1, "set header terms 65535"), BAD_COUNT, "over the limit, and over the length"),
    check("65,535 propositions", script(CASE_1, "set header props 65535"), BAD_COUNT, "over the limit, and over the length"),
    check("65,535 of both", script(CASE_1, "set header props 65535 terms 65535"), BAD_COUNT,
          "over the limits; the length due is over 16 bits and must not wrap round"),
    check("a length due that is right in 16 bits only", script(CASE_1, "set header terms 4098"), BAD_COUNT,
          "4,098 terms are due 65,536 bytes more than there are"),
    check("256 propositions", "check sorry : all x:D. %s" % ands(128), PASSES, "the count's high byte stands second"),
    check("256 terms", "check (%s : @D) : T" % pairs(128), PASSES, "the count's high byte stands second"),
    check("3 propositions with the bytes of the count swapped", script(CASE_1, "set header props 768"), BAD_COUNT,
          "numbers are little-endian"),
]

LENGTHS = [
    check("one byte short", script(CASE_1, "drop 1"), BAD_COUNT, "the length is 16+16P+16T exactly"),
    check("one byte long", script(CASE_1, "bytes 0"), BAD_COUNT, "the length is 16+16P+16T exactly"),
    check("a record short", script(CASE_1, "drop 16"), BAD_COUNT, "the length is 16+16P+16T exactly"),
    check("a record long", script(CASE_1, "term Unit"), BAD_COUNT, "the length is 16+16P+16T exactly"),
    check("a term counted too many", script(CASE_1, "set header terms 3"), BAD_COUNT, "the length is 16+16P+16T exactly"),
    check("a term counted too few", script(CASE_1, "set header terms 1"), BAD_COUNT, "the length is 16+16P+16T exactly"),
    check("a proposition counted too many", script(CASE_1, "set header props 4"), BAD_COUNT, "the length is 16+16P+16T exactly"),
    check("a proposition counted too few", script(CASE_1, "set header props 2"), BAD_COUNT, "the length is 16+16P+16T exactly"),
    filling("a filling one byte short", script("filling sorry", "drop 1"), BAD_COUNT, "the length is 16+16P+16T exactly"),
    filling("a filling one byte long", script("filling sorry", "bytes 0"), BAD_COUNT, "the length is 16+16P+16T exactly"),
    check("the largest table one byte short", script(LARGEST, "drop 1"), BAD_COUNT,
          "the length is 16+16P+16T exactly"),
    check("the largest table one byte long", script(LARGEST, "bytes 0"), BAD_COUNT,
          "the length is 16+16P+16T exactly"),
    check("65,536 bytes long", script(CASE_1, "bytes" + " 0" * 65536), BAD_COUNT,
          "the length is more than 16 bits can count, and must not wrap round"),
    check("a term counted as a proposition", script(CASE_1, "set header props 4 terms 1"), refused(4, 3),
          "the length is right; read as an Impl, the function's link is a parameter"),
    check("a proposition counted as a term", script(CASE_1, "set header props 2 terms 3"), refused(5, 0),
          "the length is right and an Impl reads as a Function; the expected field is out of range"),
]

ROWS = [*MARKS, *VERSIONS, *ZEROS, *SHORT, *COUNTS, *LENGTHS]
