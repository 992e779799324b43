"""Cases of what each kernel tells of a tip on a sheet against a line, and where
it makes a tip.
"""

import random

from generate_tips import MOST_XY, MOST_Z, on_segment

SPRING_SIZE = (12, 10)

# The vertices of the spring sheet that the cases name.
SPRING_AT = {0: (0, 0), 4: (3, 3), 5: (9, 3), 6: (9, 7), 7: (3, 7)}

# The largest number of a point.
MOST = 65535

NO_NUMBER = "no such number"
UNFIT = "ok unfit side 0 on no"


def fit(side, on):
    return f"ok fit side {side} on {on}"


def tell(s, tip, size, a, b, expected=None):
    """A tip of two numbers is whole, one of three is rational."""
    kernel = "whole" if len(tip) == 2 else "rational"
    return s.do(" ".join(map(str, (kernel, *tip, *size, *a, *b))), expected)


def against(s, tip, frm, to, expected):
    """A tip of the spring sheet, against a line between two vertices."""
    tell(s, tip, SPRING_SIZE, SPRING_AT[frm], SPRING_AT[to], expected)


def spring_tips(s):
    s.note("tips of the spring sheet: left of 4->5, and right of 5->4")
    against(s, (6, 5), 4, 5, fit(1, "yes"))
    against(s, (6, 5), 5, 4, fit(-1, "yes"))
    against(s, (18, 15, 3), 4, 5, fit(1, "yes"))
    against(s, (6, 2), 4, 5, fit(-1, "yes"))
    s.note("on 5->6 at its end, on 0->4 within it, on 4->5 beyond its end")
    against(s, (9, 7), 5, 6, fit(0, "yes"))
    against(s, (1, 1), 0, 4, fit(0, "yes"))
    against(s, (11, 3), 4, 5, fit(0, "yes"))
    s.note("fit, and off the sheet: left of 4->5; on 4->5; above the sheet")
    against(s, (13, 5), 4, 5, fit(1, "no"))
    against(s, (13, 3), 4, 5, fit(0, "no"))
    against(s, (6, 11), 5, 6, fit(1, "no"))
    s.note("(9/3, 14/3) is on 7->4; a part beside it on each side")
    against(s, (9, 14, 3), 7, 4, fit(0, "yes"))
    against(s, (10, 14, 3), 7, 4, fit(1, "yes"))
    against(s, (8, 14, 3), 7, 4, fit(-1, "yes"))


def fit_limits(s):
    size, a, b = (MOST, MOST), (0, 0), (1, 0)
    s.note("Z of 0, 1, 1,048,575, 1,048,576, the largest")
    for z, expected in ((0, UNFIT), (1, fit(1, "yes")), (MOST_Z, fit(1, "yes")),
                        (MOST_Z + 1, UNFIT), (2**32 - 1, UNFIT)):
        tell(s, (5, 7, z), size, a, b, expected)
    s.note("a tip at (0, 0): fit with Z of 1, not with Z of 0")
    tell(s, (0, 0, 1), size, a, b, fit(0, "yes"))
    tell(s, (0, 0, 0), size, a, b, UNFIT)
    s.note("X and Y of 8,589,934,591, of one more, and the largest")
    for z, on in ((1, "no"), (MOST_Z, "yes")):
        tell(s, (MOST_XY, 0, z), size, a, b, fit(0, on))
        tell(s, (0, MOST_XY, z), size, a, b, fit(1, on))
        tell(s, (MOST_XY, MOST_XY, z), size, (0, 0), (1, 1), fit(0, on))
        for bad in (MOST_XY + 1, 2**64 - 1):
            tell(s, (bad, 0, z), size, a, b, UNFIT)
            tell(s, (0, bad, z), size, a, b, UNFIT)
            tell(s, (bad, bad, z), size, (0, 0), (1, 1), UNFIT)


def borders(s):
    a, b = (0, 0), (0, 10)  # the left border: tips right of it have side -1
    s.note("whole tips on each border of a sheet 12 x 10, and past it")
    for tip, side, on in (((0, 5), 0, "yes"), ((5, 0), -1, "yes"),
                          ((12, 5), -1, "yes"), ((13, 5), -1, "no"),
                          ((5, 10), -1, "yes"), ((5, 11), -1, "no"),
                          ((0, 0), 0, "yes"), ((12, 10), -1, "yes"),
                          ((13, 11), -1, "no"), ((0, 11), 0, "no")):
        tell(s, tip, SPRING_SIZE, a, b, fit(side, on))
    for z in (1, 3, 8191, MOST_Z):
        s.note(f"the same in parts of Z = {z}: on each border, one part past it")
        w, h = 12 * z, 10 * z
        for tip, side, on in (((0, z, z), 0, "yes"), ((1, 0, z), -1, "yes"),
                              ((w, z, z), -1, "yes"), ((w + 1, z, z), -1, "no"),
                              ((z, h, z), -1, "yes"), ((z, h + 1, z), -1, "no"),
                              ((w, h, z), -1, "yes"), ((0, h + 1, z), 0, "no"),
                              ((w - 1, h - 1, z), -1, "yes")):
            tell(s, tip, SPRING_SIZE, a, b, fit(side, on))
    s.note("a sheet of no width or height has its borders on it")
    tell(s, (0, 0), (0, 0), a, b, fit(0, "yes"))
    tell(s, (1, 0), (0, 0), a, b, fit(-1, "no"))
    tell(s, (0, 1, MOST_Z), (0, 0), a, b, fit(0, "no"))
    s.note("the largest sheet, whole tips and rational ones in its far corner")
    tell(s, (MOST, MOST), (MOST, MOST), a, b, fit(-1, "yes"))
    tell(s, (MOST, MOST), (MOST, MOST - 1), a, b, fit(-1, "no"))
    tell(s, (MOST, MOST), (MOST - 1, MOST), a, b, fit(-1, "no"))
    tell(s, (MOST * 131072, MOST * 131072, 131072), (MOST, MOST), a, b, fit(-1, "yes"))
    tell(s, (MOST * 131072 + 1, 0, 131072), (MOST, MOST), a, b, fit(-1, "no"))
    tell(s, (0, MOST * 131072 + 1, 131072), (MOST, MOST), a, b, fit(0, "no"))


def lines_without_length(s):
    s.note("a == b: every tip is on the line; not every one is on the sheet")
    for tip, on in (((6, 5), "yes"), ((13, 5), "no"), ((3, 3), "yes"),
                    ((18, 15, 3), "yes"), ((37, 15, 3), "no")):
        tell(s, tip, SPRING_SIZE, (3, 3), (3, 3), fit(0, on))
    tell(s, (MOST_XY, 0, MOST_Z), (MOST, MOST), (0, MOST), (0, MOST), fit(0, "yes"))


def large_determinants(s):
    corner = (MOST, MOST)
    s.note("the largest determinants of whole tips, +- 65,535 * 65,535")
    tell(s, (0, MOST), corner, (0, 0), (MOST, 0), fit(1, "yes"))
    tell(s, (0, MOST), corner, (MOST, 0), (0, 0), fit(-1, "yes"))
    tell(s, (MOST, 0), corner, (0, 0), (0, MOST), fit(-1, "yes"))
    tell(s, (MOST, 0), corner, (0, MOST), (0, 0), fit(1, "yes"))
    tell(s, (0, 0), corner, (MOST, 0), (0, MOST), fit(1, "yes"))
    tell(s, (0, 0), corner, (0, MOST), (MOST, 0), fit(-1, "yes"))
    s.note("a determinant of +- 1 between points of the largest size")
    tell(s, (MOST, MOST), corner, (0, 0), (MOST - 1, MOST - 1), fit(0, "yes"))
    tell(s, (MOST - 1, MOST - 1), corner, (0, 0), (MOST, MOST), fit(0, "yes"))
    # 65533 * 65535 - 65534 * 65534 = -1
    tell(s, (MOST - 1, MOST - 2), corner, (0, 0), (MOST, MOST - 1), fit(-1, "yes"))
    tell(s, (MOST - 1, MOST - 2), corner, (MOST, MOST - 1), (0, 0), fit(1, "yes"))
    s.note("rational tips: a near 0, X and Y large")
    for z in (1, MOST_Z):
        on = "no" if z == 1 else "yes"
        tell(s, (0, MOST_XY, z), corner, (0, 0), (MOST, 0), fit(1, on))
        tell(s, (0, MOST_XY, z), corner, (MOST, 0), (0, 0), fit(-1, on))
        tell(s, (MOST_XY, 0, z), corner, (0, 0), (0, MOST), fit(-1, on))
        tell(s, (MOST_XY, 0, z), corner, (0, MOST), (0, 0), fit(1, on))
    s.note("rational tips near 0, a large: the largest of all, 2^52 nearly")
    for x, y in ((0, 0), (1, 0), (0, 1)):
        tip = (x, y, MOST_Z)
        tell(s, tip, corner, (MOST, 0), (MOST, MOST), fit(1, "yes"))
        tell(s, tip, corner, (MOST, MOST), (MOST, 0), fit(-1, "yes"))
        tell(s, tip, corner, (0, MOST), (MOST, MOST), fit(-1, "yes"))
        tell(s, tip, corner, (MOST, MOST), (0, MOST), fit(1, "yes"))
    s.note("both products count: halves of the largest, then unlike ones")
    tell(s, (0, 0, MOST_Z), corner, (MOST, 32767), (0, MOST), fit(1, "yes"))
    tell(s, (0, 0, MOST_Z), corner, (32767, MOST), (MOST, 0), fit(-1, "yes"))
    tell(s, (0, MOST_XY, 1), corner, (MOST, 0), (0, MOST), fit(-1, "no"))
    tell(s, (0, MOST_XY, 1), corner, (0, MOST), (MOST, 0), fit(1, "no"))
    tell(s, (MOST_XY, 0, MOST_Z), corner, (0, MOST), (MOST, 0), fit(-1, "yes"))
    tell(s, (MOST_XY, 0, MOST_Z), corner, (MOST, 0), (0, MOST), fit(1, "yes"))


def beside_a_line(s):
    for z in (1000003, 999983, MOST_Z):
        s.note(f"one part of Z = {z} beside the diagonal, and on it")
        for x in (z, 4095 * z, 8190 * z + 1):
            for dy in (-1, 0, 1):
                tip = (x, x + dy, z)
                tell(s, tip, (8191, 8191), (0, 0), (8191, 8191), fit(dy, "yes"))
                tell(s, tip, (8191, 8191), (8191, 8191), (0, 0), fit(-dy, "yes"))
    s.note("one part below 4->5 of the spring sheet, on it, one part above")
    z = 1000003
    for dy, side in ((-1, -1), (0, 0), (1, 1)):
        against(s, (6 * z + 1, 3 * z + dy, z), 4, 5, fit(side, "yes"))
        against(s, (6 * z + 1, 3 * z + dy, z), 5, 4, fit(-side, "yes"))
    s.note("determinants +- 1: the line (0, 0) to (8191, 8190), Z = 1,000,003")
    # x = 8191 k + 1 and y = 8190 k + 1 give D = 8191 y - 8190 x = 1;
    # x = 8191 k - 1 and y = 8190 k - 1 give D = -1.
    for k in (1, 122, 1000000):
        for d in (-1, 0, 1):
            tip = (8191 * k + d, 8190 * k + d, z)
            tell(s, tip, (8191, 8191), (0, 0), (8191, 8190), fit(d, "yes"))


def makes(s):
    s.note("a tip is made where both coordinates are at most 8,191")
    for x, y in ((0, 0), (6, 5), (8191, 0), (0, 8191), (8191, 8191)):
        s.do(f"make whole {x} {y}", f"ok {x} {y}")
        s.do(f"make rational {x} {y}", f"ok {x} {y} 1")
    for x, y in ((8192, 0), (0, 8192), (8192, 8191), (8191, 8192),
                 (8192, 8192), (MOST, MOST)):
        s.do(f"make whole {x} {y}", "ok none")
        s.do(f"make rational {x} {y}", "ok none")


def large_numbers(s):
    s.note("numbers above their type, and the largest of it")
    good = ["6", "5", "12", "10", "3", "3", "9", "3"]
    for i in range(8):
        words = good[:i] + ["65536"] + good[i + 1:]
        s.do("whole " + " ".join(words), NO_NUMBER)
    for i in range(2, 8):
        words = good[:2] + ["1"] + good[2:i] + ["65536"] + good[i + 1:]
        s.do("rational " + " ".join(words), NO_NUMBER)
    s.do("rational 65536 5 1 12 10 3 3 9 3", fit(1, "no"))
    s.do("rational 18446744073709551616 5 1 12 10 3 3 9 3", NO_NUMBER)
    s.do("rational 6 18446744073709551616 1 12 10 3 3 9 3", NO_NUMBER)
    s.do("rational 6 5 4294967296 12 10 3 3 9 3", NO_NUMBER)
    s.do("rational 18446744073709551615 5 1 12 10 3 3 9 3", UNFIT)
    s.do("rational 6 5 4294967295 12 10 3 3 9 3", UNFIT)
    s.do("whole" + " 65535" * 8, fit(0, "yes"))
    for kernel in ("whole", "rational"):
        s.do(f"make {kernel} 65536 6", NO_NUMBER)
        s.do(f"make {kernel} 6 65536", NO_NUMBER)


def bad_words(s):
    s.note("words that are no numbers")
    for bad in ("x", "-1", "-0", "1.5", "0x6", "6,", "1e1", "+", "++6", "six"):
        s.do(f"whole {bad} 5 12 10 3 3 9 3", NO_NUMBER)
        s.do(f"whole 6 5 12 10 3 3 9 {bad}", NO_NUMBER)
        s.do(f"rational 6 5 {bad} 12 10 3 3 9 3", NO_NUMBER)
        s.do(f"make whole 6 {bad}", NO_NUMBER)
        s.do(f"make rational {bad} 5", NO_NUMBER)
    s.note("a number may have zeros or a plus sign in front")
    s.do("whole 006 +5 12 10 3 3 9 3", fit(1, "yes"))
    s.note("too few words")
    for count in range(8):
        s.do("whole" + " 1" * count, NO_NUMBER)
    for count in range(9):
        s.do("rational" + " 1" * count, NO_NUMBER)
    for kernel in ("whole", "rational"):
        s.do(f"make {kernel}", NO_NUMBER)
        s.do(f"make {kernel} 6", NO_NUMBER)
    s.note("kernels that there are not; the program goes on")
    for words in ("", " integer 6 5", " 6 5", " Whole 6 5"):
        s.do(f"make{words}", "no such kernel")
    against(s, (6, 5), 4, 5, fit(1, "yes"))


def random_tips(s):
    s.note("tips at random, in six sizes by turns; every third is on its line")
    draw = random.Random(20260)
    # The largest coordinate and the largest Z; the last are not always fit.
    sizes = [(12, 5), (255, 255), (8191, 1000), (8191, MOST_Z), (MOST, MOST_Z),
             (MOST, 2 * MOST_Z)]
    for i in range(300):
        most, most_z = sizes[i // 3 % len(sizes)]
        a, b, size = [tuple(draw.randint(0, most) for _ in range(2)) for _ in range(3)]
        if i % 3 == 0:
            # So that X and Y, which are at most Z times a coordinate, are fit.
            tip = on_segment(draw, a, b, min(most_z, MOST_Z, MOST_XY // max(*a, *b, 1)))
            told = tell(s, tip, size, a, b)
            assert told.startswith("ok fit side 0 "), told
        elif i % 3 == 1:
            tell(s, (draw.randint(0, most), draw.randint(0, most)), size, a, b)
        else:
            z = draw.randint(1, most_z)
            tip = [draw.randint(0, min(most * z, 2 * MOST_XY)) for _ in range(2)]
            tell(s, (*tip, z), size, a, b)


def tips_cases(s):
    for part in (spring_tips, fit_limits, borders, lines_without_length,
                 large_determinants, beside_a_line, makes, large_numbers,
                 bad_words, random_tips):
        part(s)
