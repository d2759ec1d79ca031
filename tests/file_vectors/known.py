"""Files that stand elsewhere: P1 to P8, the worked readings, and the edges of the conversions."""

import gen

READINGS = (
    # (call, what, answer, hexadecimal)
    (1, "an unknown version alone", 3, "0000000102"),
    (1, "the version alone", 5, "0000000101"),
    (1, "the limit cut", 5, "0000000401ffffff"),
    (1, "a limit out of range and no more", 4, "0000000501fffffffe"),
    (1, "a limit and no more", 5, "0000000501ffffffff"),
    (1, "name 0 with child 0", 5, "0000001c01000000050001017800010000000000000000000001000000000000"),
    (1, "pair 1=1", 6, "0000002a010000000500010178000100000000000000000000000000000100000100000002000001000100010000"),
    (1, "pair 1=0", 6, "0000002a010000000500010178000100000000000000000000000000000100000100000002000001000100000000"),
    (1, "a pair with one wire twice, the other never (D2)", 7,
     "0000002e01000000050001017800010000000000000000000000000000010000010000000202000000000001000000010000"),
    (1, "empty tables of no limit", 0, "0000000d01ffffffff0000000000000000"),
    (65, "free 0 1, link 0 = 1", 0,
     "0000003241ffffffff000201780179000100000000000000000000000000000100000100000002020000000000010001000000000001"),
    (65, "free 0; 0 = 1, 2 = x(1), 2 = y()", 0,
     "0000005241ffffffff00020178017900010000000000000000000000000000010000010000000301000000000300000000000100000201"
     "00000000000000000000000100000100000201000100000000000000000000"),
)


def all_vectors(c):
    given = set()
    for case in gen.examples():
        if case.data not in given:
            given.add(case.data)
            c.flat("example " + case.label, 0, case.data)
    for call, what, expected, digits in READINGS:
        c.add(call, "reading: " + what, expected, bytes.fromhex(digits))
    for conversion, label, data, _ in gen.conversions():
        c.tree("conversion, %s: %s" % (conversion, label), 0, data)
    for case in gen.sharp():
        if len(case.data) <= 2000 and ("flat: sharp " + case.label) not in c.names:
            c.flat("sharp " + case.label, 0, case.data)
