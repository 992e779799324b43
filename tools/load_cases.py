"""Cases of the turn load, of wording and of wipe, for tools/turns_cases.py.

Of the changed bytes and of most lines on tables the reference stands alone; all
other outcomes named here were found by hand.
"""

from sheets import SPRING, SPRING_FIELDS, file, largest, number
from turns_script import KINDS, NOTHING, at, cut, spring

LEAST = {"points": 1028, "edges": 6154, "loops": 2050, "live": 2050}


def first_cases(s):
    s.note("a new board is an empty Draft")
    s.do("stage", "ok Draft")
    s.tables(NOTHING)
    s.note("bytes 128 0: a last group 0 of two; the board stays empty")
    s.refused(bytes([128, 0]), 2, 0)
    s.tables(NOTHING)
    s.note("the empty file")
    s.refused(b"", 1, 0)
    s.wording(b"", 1, 0, 0, "refused 1 1 0")
    s.note("the spring file")
    s.load(SPRING, "ok")
    s.tables()
    s.do("stage", "ok Draft")


def first_wordings(s):
    s.note("its wordings: face 0 at byte 46; the others have numeral 0")
    s.wording(SPRING, 3, 0, 0, "ok 46 spring")
    for loop in range(1, 5):
        s.wording(SPRING, 3, loop, 0, "ok none")
    s.note("no wording past the loop count, of a vertex, of an edge")
    for answer in ((3, 5, 0), (3, 65535, 0), (1, 0, 0), (1, 14, 0), (2, 0, 4)):
        s.wording(SPRING, *answer, "ok none")
    s.note("the wording call refuses as load does, whatever the answer")
    for answer in ((3, 0, 0), (1, 4, 0), (2, 4, 5), (3, 9, 0)):
        s.wording(SPRING + b"\0", *answer, "refused 11 1 52")
    s.wording(SPRING[:-1], 3, 0, 0, "refused 1 1 51")
    s.wording(spring("H", [128, 0]), 3, 0, 0, "refused 2 1 2")


def wipes(s):
    s.note("wording left the tables alone; wipe empties the Draft, twice")
    s.tables()
    for _ in range(2):
        s.do("wipe", "ok")
        s.tables(NOTHING)
    s.do("stage", "ok Draft")
    s.note("wording needs no loaded sheet")
    s.wording(SPRING, 3, 0, 0, "ok 46 spring")
    s.note("load again, and once more over itself")
    s.load(SPRING, "ok")
    s.load(SPRING, "ok")
    s.tables()


def ends(s):
    s.note("1: every beginning of the spring file, at its length")
    for length in range(len(SPRING)):
        s.refused(SPRING[:length], 1, length)
    s.note("1: cut after one group, and after two, in a field of every kind")
    for name in KINDS:
        s.refused(cut(name, 128), 1, at(name) + 1)
        s.refused(cut(name, 255, 128), 1, at(name) + 2)


def bad_numbers(s):
    for name in KINDS:
        s.note(f"2: {name} with last group 0 of two, of three; third of 128")
        s.refused(spring(name, [129, 0]), 2, at(name))
        s.refused(spring(name, [129, 128, 0]), 2, at(name))
        s.refused(cut(name, 129, 128, 128), 2, at(name))
    s.note("2: a third group of 255; it does not matter what follows")
    s.refused(bytes([255, 255, 255]), 2, 0)
    s.refused(bytes([255, 255, 255, 255, 0]), 2, 0)
    s.note("a middle group 0 is well formed: W = 16,384, so 4")
    s.refused(cut("W", 128, 128, 1), 4, 1)


def heading(s):
    s.note("3: editions 0, 2, 127, 128, 16,384")
    for edition in (0, 2, 127, 128, 16384):
        s.refused(spring("edition", edition), 3, 0)
    for name in ("W", "H"):
        s.note(f"4: {name} of 0, 1, 8,192, 16,384, the largest number")
        for size in (0, 1, 8192, 16384, 2097151):
            s.refused(spring(name, size), 4, at(name))
    s.note("5: 1,025 inner vertices, and more")
    for n in (1025, 16384, 2097151):
        s.refused(spring("n", n), 5, at("n"))
    s.note("5: 2,051 loops, and more")
    for loops in (2051, 16384, 2097151):
        s.refused(spring("loops", loops), 5, at("loops"))
    s.note("5: 256 labels, and more")
    for labels in (256, 16384, 2097151):
        s.refused(spring("labels", labels), 5, at("labels"))


def vertices(s):
    for v in (4, 7):
        x, y = f"x{v}", f"y{v}"
        s.note(f"6: vertex {v}: x of 0, W, W + 1, 300; y of 0, H, H + 1, 300")
        for bad in (0, 12, 13, 300):
            s.refused(spring(x, bad), 6, at(x))
        for bad in (0, 10, 11, 300):
            s.refused(spring(y, bad), 6, at(x))
        s.note("x of 1 and W - 1, y of 1 and H - 1 are inside")
        for name, good in ((x, 1), (x, 11), (y, 1), (y, 9)):
            s.load(spring(name, good), "ok")
        s.tables()
    s.note("6 at a bad x whose y is missing, cut, malformed, bad too")
    for rest in ([], [128], [128, 0], [128, 128, 128], [0], [10]):
        s.refused(cut("x5", 0, *rest), 6, at("x5"))
        s.refused(cut("x5", 12, *rest), 6, at("x5"))
    s.note("good x: y missing 1, cut 1, malformed 2 at y, bad 6 at x")
    s.refused(cut("x5", 9), 1, 7)
    s.refused(cut("x5", 9, 128), 1, 8)
    s.refused(cut("x5", 9, 128, 0), 2, 7)
    s.refused(cut("x5", 9, 128, 128, 128), 2, 7)
    s.refused(cut("x5", 9, 0), 6, 6)
    s.refused(cut("x5", 9, 138, 1), 6, 6)
    s.note("x of two bytes, y at H: 6 at the first byte of x")
    s.refused(file(200, 10, [(150, 10)], [], []), 6, 5)


def loops(s):
    for i in (0, 4):
        s.note(f"9: loop {i} with numeral 256, 257, 16,384; 255 is good")
        for bad in (256, 257, 16384):
            s.refused(spring(f"numeral{i}", bad), 9, at(f"numeral{i}"))
        s.load(spring(f"numeral{i}", 255), "ok")
        s.tables()
        s.note(f"7: loop {i} with k of 0, 1, 2, n + 5, 128, 6,130")
        for bad in (0, 1, 2, 9, 128, 6130):
            s.refused(spring(f"k{i}", bad), 7, at(f"k{i}"))
        s.note(f"8: loop {i}, first and last corner n + 4, 127, 128, 16,384")
        for j in (0, 3):
            for bad in (8, 127, 128, 16384):
                name = f"corner{i}.{j}"
                s.refused(spring(name, bad), 8, at(name))
    s.note("with n = 0: k of 5 is 7, corner 4 is 8, k of 4 = n + 4 is good")
    s.refused(file(2, 2, [], [(0, [0, 1, 2, 3, 0])], []), 7, 6)
    s.refused(file(2, 2, [], [(0, [0, 1, 2, 4])], []), 8, 10)
    s.load(file(2, 2, [], [(0, [0, 1, 2, 3])], []), "ok")
    s.tables()


def corner_limit(s):
    # 76 loops of 80 = n + 4 corners are 6,080; 70 more make 6,150.
    inner = [(1 + v % 9, 1 + v // 9) for v in range(76)]
    big = list(range(80))
    full = [(7, big)] * 76 + [(8, big[:70])]
    kept = file(10, 10, inner, full, [])
    place = len(kept) - 1  # of the label count, or of one loop more
    k_place = place - 71  # of the last loop's k, with 70 corners after it

    def last_k(before, k):
        """A file that ends with the k of the loop after these."""
        data = file(10, 10, inner, before + [(0, [])], [])
        return data[:-2] + bytes([k])

    s.note("6,150 corners in all, most loops of k = n + 4")
    s.load(kept, "ok")
    s.tables()
    s.note("5 at the k that passes 6,150, though n + 4 would allow it")
    s.refused(last_k(full[:-1], 71), 5, k_place)
    s.note("5 before 7 where that k is n + 5 as well")
    s.refused(last_k(full[:-1], 81), 5, k_place)
    s.note("5 before 7 where k is 1 after 6,150; k of 0 passes no limit: 7")
    s.refused(last_k(full, 1), 5, place + 1)
    s.refused(last_k(full, 0), 7, place + 1)
    s.note("first loop: k of 6,150 is 7, of 6,151 is 5, of 16,384 is 5")
    for k, refusal in ((6150, 7), (6151, 5), (16384, 5)):
        s.refused(spring("k0", k), refusal, at("k0"))
    s.note("last loop: 16 corners before it, so 6,134 is 7 and 6,135 is 5")
    s.refused(spring("k4", 6134), 7, at("k4"))
    s.refused(spring("k4", 6135), 5, at("k4"))


def labels(s):
    s.note("9: label numeral 0, 256, 16,384")
    for bad in (0, 256, 16384):
        s.refused(spring("label0", bad), 9, at("label0"))
    two = cut("labels", 2, 14, 1, 65)  # one label done, the next at byte 47
    s.note("9: a numeral labelled twice, at the second; also as the third")
    s.refused(two + bytes([14, 1, 66]), 9, 47)
    s.refused(cut("labels", 3, 14, 1, 65, 9, 1, 66, 14, 1, 67), 9, 50)
    s.refused(cut("labels", 3, 255, 1, 1, 65, 9, 1, 66, 255, 1, 1, 67), 9, 51)
    s.note("10: length 0, 64, 128, 16,384")
    for bad in (0, 64, 128, 16384):
        s.refused(spring("length0", bad), 10, at("length0"))
    s.note("10: first, third and last byte of the wording out of range")
    for i in (0, 2, 5):
        for bad in (0, 31, 127, 128, 255):
            data = bytearray(SPRING)
            data[46 + i] = bad
            s.refused(bytes(data), 10, 46 + i)


def ends_and_rest(s):
    s.note("1: the wording cut after 0, 1, 5 bytes")
    for length in (46, 47, 51):
        s.refused(SPRING[:length], 1, length)
    s.note("11: one byte left, of any kind; several; a label too many")
    for byte in (0, 65, 128, 255):
        s.refused(SPRING + bytes([byte]), 11, 52)
    s.refused(SPRING + bytes([128, 0]), 11, 52)
    s.refused(SPRING + SPRING, 11, 52)
    s.refused(spring("labels", 0), 11, 44)
    s.refused(cut("labels", 0, 0), 11, 44)
    two = cut("labels", 2, 14, 1, 65)
    s.note("labels in any order, of numerals that no loop bears; or none")
    s.load(two + bytes([9, 2, 66, 67]), "ok")
    s.wording(two + bytes([9, 2, 66, 67]), 3, 0, 0, "ok 46 A")
    s.wording(cut("labels", 1, 13, 1, 65), 3, 0, 0, "ok none")
    s.wording(cut("labels", 0), 3, 0, 0, "ok none")


def pairs_at_one_byte(s):
    s.note("2 before the range: a malformed 0 where 0 is out of range")
    for name in ("edition", "W", "H", "x4", "y4", "k0", "label0", "length0"):
        s.refused(spring(name, [128, 0]), 2, at(name))
    s.note("2 before the range: a malformed 16,383, over every limit")
    for name in KINDS:
        s.refused(cut(name, 255, 255, 0), 2, at(name))
    s.note("1 against 2: cut before the fault shows, and just after")
    s.refused(bytes([128]), 1, 1)
    s.refused(bytes([128, 128]), 1, 2)
    s.refused(bytes([128, 128, 128]), 2, 0)
    s.refused(bytes([128, 128, 0]), 2, 0)
    s.note("1 against the range: a number cut off has none yet; a whole one has")
    s.refused(cut("W", 128), 1, 2)
    s.refused(cut("W", 0), 4, 1)


# A value out of range in every field that has a range, with its refusal.
FAULTS = [("edition", 2, 3), ("W", 1, 4), ("H", 8192, 4), ("n", 1025, 5),
          ("x4", 12, 6), ("loops", 2051, 5), ("numeral0", 256, 9),
          ("k0", 2, 7), ("corner0.0", 8, 8), ("labels", 256, 5),
          ("label0", 0, 9), ("length0", 64, 10), ("wording0", 31, 10)]


def pairs_in_reading_order(s):
    s.note("two faults, one right after the other: the earlier one is told")
    for (name, value, refusal), (_, second, _) in zip(FAULTS, FAULTS[1:]):
        data = cut(name) + number(value) + number(second)
        s.refused(data, refusal, at(name))
    s.note("a fault in a field, and the file ends right after it")
    for name, value, refusal in FAULTS:
        s.refused(cut(name) + number(value), refusal, at(name))
    s.note("a fault in a field, and bytes left at the end")
    for name, value, refusal in FAULTS[:-1]:
        s.refused(spring(name, value) + b"\0", refusal, at(name))


def pairs_of_labels(s):
    s.note("7 before 8 and 9; 8 before 10; 9 before 10")
    s.refused(cut("k0", 2, 8, 8, 128, 2), 7, at("k0"))
    s.refused(spring("corner4.3", 8)[:-1] + b"\x1f", 8, at("corner4.3"))
    s.refused(cut("label0", 0, 0), 9, at("label0"))
    s.refused(cut("labels", 2, 14, 1, 65, 14, 0), 9, 47)
    s.note("10 at the length before a bad byte, and before the file's end")
    s.refused(cut("length0", 64, 31), 10, at("length0"))
    s.refused(cut("length0", 0), 10, at("length0"))
    s.note("10 at a bad wording byte though the wording is cut: before 1")
    s.refused(cut("length0", 63, 65, 66, 127), 10, 48)
    s.refused(cut("length0", 63, 65, 127, 66), 10, 47)
    s.refused(cut("length0", 63, 65, 66, 67), 1, 49)
    s.note("10 at the first of two bad bytes; 10 before 11")
    s.refused(cut("wording0", 31, 127, 65, 65, 65, 65), 10, 46)
    s.refused(cut("wording0", 65, 65, 65, 65, 65, 127, 0), 10, 51)
    s.note("1 against 11: a label count too high, too low")
    s.refused(spring("labels", 2), 1, 52)
    s.refused(spring("labels", 0), 11, 44)
    s.note("a wording shorter than its bytes: 11; longer: 1")
    s.refused(spring("length0", 5), 11, 51)
    s.refused(spring("length0", 7), 1, 52)


def changed_bytes(s):
    s.note("the spring file with one byte changed; tables after each granted")
    names = [name for name, data in SPRING_FIELDS for _ in data]
    for place, name in enumerate(names):
        others = [v for v in (0, 127, 128, 255) if v != SPRING[place]]
        s.note(f"byte {place} ({name}) as " + ", ".join(map(str, others)))
        for value in others:
            data = bytearray(SPRING)
            data[place] = value
            if s.load(bytes(data)) == "ok":
                s.tables()


def kept_limits(s):
    s.note("W = H = 8,191 and W = H = 2; no loops at all is readable")
    s.load(file(8191, 8191, [(8190, 8190), (1, 1)], [], []), "ok")
    s.tables()
    s.load(file(2, 2, [], [], []), "ok")
    s.tables()
    s.note("W and H need not be equal: 2 by 8,191, a vertex at (1, 8,190)")
    s.load(file(2, 8191, [(1, 8190)], [(1, [0, 1, 2])], []), "ok")
    s.tables()
    s.note("a readable sheet that makes no sense: one point, one corner thrice")
    s.load(file(3, 3, [(1, 1), (1, 1)], [(2, [5, 5, 5])], []), "ok")
    s.tables()
    s.note("numerals 255, wordings of 63 bytes and of 1, bytes 32 and 126")
    edge = file(2, 2, [], [(255, [0, 1, 2, 3]), (1, [3, 2, 1]), (0, [0, 1, 2])],
                [(255, b" " * 31 + b"~" * 32), (1, b"~")])
    s.load(edge, "ok")
    s.tables()
    s.wording(edge, 3, 0, 0, "ok 26 " + " " * 31 + "~" * 32)
    s.wording(edge, 3, 1, 0, "ok 91 ~")
    s.wording(edge, 3, 2, 0, "ok none")


def largest_file(s):
    s.note("the largest legal file: 39,260 bytes; then two of its wordings")
    large = largest()
    assert len(large) == 39260
    s.load(large, "ok")
    s.tables()
    s.wording(large, 3, 0, 0)
    s.wording(large, 3, 2049, 0)


def kept_sheets(s):
    s.note("a refused load leaves the earlier sheet, here the largest")
    s.refused(b"", 1, 0)
    s.refused(SPRING[:51], 1, 51)
    s.refused(SPRING + b"\0", 11, 52)
    s.tables()
    s.note("a granted one replaces it whole; then the same with the spring")
    s.load(SPRING, "ok")
    s.tables()
    other = file(2, 2, [], [(9, [0, 1, 2, 3])], [(9, b"plate")])
    s.refused(other[:-1], 1, len(other) - 1)
    s.refused(other[:-1] + b"\x7f", 10, len(other) - 1)
    s.tables()
    s.load(other, "ok")
    s.tables()
    s.note("refused after a wipe: still empty")
    s.do("wipe", "ok")
    s.refused(SPRING + b"\0", 11, 52)
    s.tables(NOTHING)


def short_tables(s):
    for name in ("points", "edges", "loops", "live"):
        least = LEAST[name]
        s.note(f"12: {name} one too short, or of 0 entries, for any file")
        s.do(f"short {name} 0", "ok")
        s.load(SPRING, "refused 12 1 0")
        s.do(f"short {name} {least - 1}", "ok")
        for data in (SPRING, b"", bytes([128, 0])):
            s.load(data, "refused 12 1 0")
        s.tables(NOTHING)
        s.note("wording and wipe take no notice of it")
        s.wording(SPRING, 3, 0, 0, "ok 46 spring")
        s.do("wipe", "ok")
        s.do("stage", "ok Draft")
        s.note(f"{name} of the least size, and longer")
        for length in (least, least + 1):
            s.do(f"short {name} {length}", "ok")
            s.load(SPRING, "ok")
            s.tables()
    s.note("load is not lent the strokes: they may be of any length")
    for length in (3076, 0, 3077):
        s.do(f"short strokes {length}", "ok")
        s.load(SPRING, "ok")
        s.refused(bytes([128, 0]), 2, 0)
        s.tables()


def load_cases(s):
    for part in (first_cases, first_wordings, wipes, ends, bad_numbers, heading, vertices, loops,
                 corner_limit, labels, ends_and_rest, pairs_at_one_byte, pairs_in_reading_order,
                 pairs_of_labels, changed_bytes, kept_limits, largest_file, kept_sheets,
                 short_tables):
        part(s)
