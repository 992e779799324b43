"""Cases of a check after the caller has altered a table of the spring sheet.

The spring sheet is 12 by 10 and has the vertices 0 to 7, five loops of four
corners, 20 corners in all and the outside edges at 20 to 23. Each outcome
named here was found by hand.
"""

from sheets import SPRING, sheet

# What the spring sheet has in the entries that are altered here.
TRUE = {"points": ["0 0", "12 0", "12 10", "0 10", "3 3", "9 3", "9 7", "3 7"],
        "edges": ["4 5", "5 6", "6 7", "7 4", "0 1", "1 5", "5 4", "4 0",
                  "1 2", "2 6", "6 5", "5 1", "2 3", "3 7", "7 6", "6 2",
                  "3 0", "0 4", "4 7", "7 3", "1 0", "2 1", "3 2", "0 3"],
        "loops": ["14 0 4", "0 4 4", "0 8 4", "0 12 4", "0 16 4"]}


def alter(s, name, entry, numbers):
    s.alter(f"{name} {entry} {numbers}")


def repair(s, name, entry):
    alter(s, name, entry, TRUE[name][entry])


def tell(s, name, entry, numbers, place):
    """An entry altered alone: 27 at this place; then the entry is repaired."""
    alter(s, name, entry, numbers)
    s.check(f"refused 27 2 {place}")
    repair(s, name, entry)


def sound(s):
    """The spring sheet is whole again."""
    s.check("ok")
    s.do("wipe", "ok")
    s.load(SPRING, "ok")


def command(s):
    s.note("alter: the last entry of a table, and past it; other names")
    for name, least, numbers in (("points", 1028, "1 1"), ("edges", 6154, "1 1"),
                                 ("loops", 2050, "1 1 1"), ("live", 2050, "1")):
        s.do(f"short {name} {least}", "ok")
        s.alter(f"{name} {least - 1} {numbers}")
        s.alter(f"{name} {least} {numbers}", "no such entry")
        s.alter(f"{name} 65535 {numbers}", "no such entry")
        s.alter(f"{name} 65536 {numbers}", "no such entry")
        s.do(f"short {name} {least + 1}", "ok")
        s.alter(f"{name} {least} {numbers}")
        s.do(f"short {name} 0", "ok")
        s.alter(f"{name} 0 {numbers}", "no such entry")
        s.do(f"short {name} 1", "ok")
        s.alter(f"{name} 0 {numbers}")
        s.alter(f"{name} 1 {numbers}", "no such entry")
    s.alter("strokes 0 1 1", "no such table")
    s.alter("answers 0 1 1 1", "no such table")
    s.note("numbers of 16 bits alone; a word that is none changes nothing")
    s.do("short live 2050", "ok")
    s.load(SPRING, "ok")
    s.tables()
    before = s.outcomes[-1]
    for bad in ("65536", "-1", "x", "1.5", "18446744073709551616"):
        for line in (f"points {bad} 1 1", f"points 4 {bad} 1", f"points 4 1 {bad}",
                     f"edges 4 {bad} 1", f"edges 4 1 {bad}", f"loops 0 {bad} 0 4",
                     f"loops 0 14 {bad} 4", f"loops 0 14 0 {bad}", f"live 0 {bad}"):
            s.alter(line, "no such entry")
    s.tables(before)
    s.check("ok")


def past_counts(s):
    s.note("an empty Draft: 28, altered or not; load writes over it")
    s.do("wipe", "ok")
    for line in ("points 0 9 9", "edges 23 7 7", "loops 0 999 9 9", "live 0 5"):
        s.alter(line)
    s.check("refused 28 2 0")
    s.load(SPRING, "ok")
    s.tables()
    s.note("entries past the counts, and live nodes, do not matter")
    for line in ("points 8 0 0", "points 1027 65535 65535", "edges 24 9 9",
                 "edges 6153 65535 65535", "loops 5 999 9 9",
                 "loops 2049 65535 65535 65535", "live 0 65535", "live 2049 1"):
        s.alter(line)
    sound(s)
    s.note("in a checked sheet 28 comes before 27")
    s.check("ok")
    alter(s, "points", 0, "1 1")
    s.check("refused 28 2 0")
    s.load(SPRING, "refused 28 1 0")
    s.do("wipe", "ok")
    s.note("12 comes before 27")
    s.do("short strokes 3076", "ok")
    s.load(SPRING, "ok")
    alter(s, "points", 0, "1 1")
    s.check("refused 12 2 0")
    s.do("short strokes 3077", "ok")
    s.load(SPRING, "ok")


def points(s):
    s.note("27: a corner of the sheet that is not there, x or y")
    for entry, bad in ((0, ("1 0", "0 1", "12 0", "65535 0", "3 3")),
                       (1, ("11 0", "13 0", "12 1", "0 12", "0 0")),
                       (2, ("11 10", "12 9", "10 12", "12 11", "9 7")),
                       (3, ("1 10", "0 9", "0 11", "10 0", "0 65535"))):
        for numbers in bad:
            tell(s, "points", entry, numbers, entry)
    s.note("27: inner vertices on the border and outside it")
    for entry in (4, 5, 7):
        for numbers in ("0 3", "12 3", "3 0", "3 10", "13 3", "3 11", "10 12",
                        "65535 3", "3 65535", "0 0", "12 10"):
            tell(s, "points", entry, numbers, entry)
    s.note("27: the first of several points, a corner before an inner vertex")
    for entry in (7, 6, 5, 4, 3, 2, 1, 0):
        alter(s, "points", entry, "12 12")
        s.check(f"refused 27 2 {entry}")
    for entry in range(8):
        s.check(f"refused 27 2 {entry}")
        repair(s, "points", entry)
    sound(s)


def loops(s):
    s.note("27: numerals over 255; 255 is good, and so is another")
    for entry in (0, 2, 4):
        _, start, k = TRUE["loops"][entry].split()
        for numeral in (256, 65535):
            tell(s, "loops", entry, f"{numeral} {start} {k}", entry)
        alter(s, "loops", entry, f"255 {start} {k}")
    s.check("ok")
    s.do("wipe", "ok")
    s.load(SPRING, "ok")
    s.note("27: starts that are not the sum of the corners before")
    for entry, bad in ((0, (1, 4, 20, 65535)), (1, (0, 3, 5, 8)), (4, (0, 15, 17, 20))):
        for start in bad:
            tell(s, "loops", entry, f"7 {start} 4", entry)
    s.note("27: fewer than 3 corners, more than n + 4 = 8")
    for entry in (0, 1, 4):
        start = 4 * entry
        for k in (0, 1, 2, 9, 65535):
            tell(s, "loops", entry, f"7 {start} {k}", entry)
    s.note("27 at the next loop, whose start is not the new sum")
    for entry in (0, 1, 2):
        for k in (3, 5, 8):
            tell(s, "loops", entry, f"7 {4 * entry} {k}", entry + 1)
    tell(s, "loops", 3, "0 12 3", 4)
    tell(s, "loops", 3, "0 12 8", 4)
    s.note("27: past the corners of the board, 20, at the last loop or before it")
    for k in (5, 8):
        tell(s, "loops", 4, f"0 16 {k}", 4)
    for entry, numbers in enumerate(("14 0 6", "0 6 7", "0 13 8")):
        alter(s, "loops", entry, numbers)
    s.check("refused 27 2 2")
    s.note("27 at the loop count: fewer than 20 corners together")
    for entry in range(3):
        repair(s, "loops", entry)
    tell(s, "loops", 4, "0 16 3", 5)
    for entry in range(5):
        alter(s, "loops", entry, f"0 {3 * entry} 3")
    s.check("refused 27 2 5")
    s.note("27: the first of several loops")
    for entry in (4, 3, 2, 1, 0):
        alter(s, "loops", entry, "256 0 0")
        s.check(f"refused 27 2 {entry}")
    for entry in range(5):
        repair(s, "loops", entry)
    sound(s)
    s.note("27: a board without corners, and what it had past its counts")
    s.load(sheet(2, 2, [], []), "ok")
    s.check("refused 13 2 0")
    s.alter("edges 0 0 1")
    s.check("refused 27 2 0")
    s.load(SPRING, "ok")


def ends(entry):
    """Where the edge of this entry begins and ends in the spring sheet."""
    return TRUE["edges"][entry].split()


def edges(s):
    for bad in (8, 9, 65535):
        s.note(f"27: {bad} is no vertex; told where the edge before leads elsewhere")
        for entry, place in ((0, 0), (1, 0), (5, 4), (16, 16), (19, 18)):
            tell(s, "edges", entry, f"{bad} {ends(entry)[1]}", place)
        s.note("told where it begins an edge, if the edge before leads to it")
        for entry in (0, 1, 5, 16, 19):
            before = entry + 3 if entry % 4 == 0 else entry - 1
            alter(s, "edges", before, f"{ends(before)[0]} {bad}")
            tell(s, "edges", entry, f"{bad} {ends(entry)[1]}", entry)
            repair(s, "edges", before)
    s.note("27: an end that is not where the next edge of the loop begins")
    for entry in (0, 1, 2, 3, 4, 7, 8, 18, 19):
        start = ends(entry)[0]
        for bad in (2 if entry == 7 else 0, 8, 65535):
            tell(s, "edges", entry, f"{start} {bad}", entry)
    s.note("27: a beginning changed: told at the edge before it, at a loop's last")
    for entry, place in ((1, 0), (3, 2), (5, 4), (19, 18), (0, 3), (4, 7), (16, 19)):
        to = TRUE["edges"][entry].split()[1]
        tell(s, "edges", entry, f"2 {to}", place)
    s.note("27: the last edge of a loop leads into the next loop")
    tell(s, "edges", 3, "7 0", 3)
    s.note("27: an outside edge turned, another one, out of its order")
    for entry, bad in ((20, ("0 1", "1 2", "1 3", "2 0", "1 65535", "2 1")),
                       (21, ("1 2", "2 0", "1 0")), (22, ("2 3", "3 1", "8 2")),
                       (23, ("3 0", "0 2", "1 3", "0 4", "1 0"))):
        for numbers in bad:
            tell(s, "edges", entry, numbers, entry)
    s.note("27: the first of several edges")
    for entry in (23, 20, 18, 3, 1):
        alter(s, "edges", entry, "2 2")
        s.check(f"refused 27 2 {entry if entry > 18 else entry - 1}")
    for entry in (1, 3, 18, 20, 23):
        repair(s, "edges", entry)
    sound(s)


def order(s):
    s.note("points before loops before edges, whatever the entries")
    alter(s, "edges", 0, "8 8")
    s.check("refused 27 2 0")
    alter(s, "loops", 4, "0 16 3")
    s.check("refused 27 2 5")
    alter(s, "loops", 3, "256 12 4")
    s.check("refused 27 2 3")
    alter(s, "points", 7, "0 7")
    s.check("refused 27 2 7")
    repair(s, "points", 7)
    s.check("refused 27 2 3")
    repair(s, "loops", 3)
    s.check("refused 27 2 5")
    repair(s, "loops", 4)
    s.check("refused 27 2 0")
    repair(s, "edges", 0)
    s.note("27 before 13: a sheet that lacks a loop, and then an altered point")
    lacks = sheet(12, 10, [(3, 3)], [[0, 1, 4], [1, 2, 4], [2, 3, 4]])
    s.breaks(lacks, 13, 0)
    alter(s, "points", 2, "12 9")
    s.check("refused 27 2 2")
    repair(s, "points", 2)
    s.check("refused 13 2 0")
    s.note("27 before 14 to 20, here of vertices 4 and 5 at one point")
    s.load(SPRING, "ok")
    alter(s, "points", 4, "9 3")
    s.check("refused 14 2 5")
    alter(s, "edges", 23, "3 0")
    s.check("refused 27 2 23")
    s.note("loops that keep the sums: the edges no longer close")
    s.load(SPRING, "ok")
    alter(s, "loops", 0, "14 0 3")
    alter(s, "loops", 1, "0 3 5")
    s.check("refused 27 2 2")
    alter(s, "edges", 2, "6 4")
    s.check("refused 27 2 3")
    s.note("a load writes the tables anew")
    s.load(SPRING, "ok")
    sound(s)


def rename(s, start, corners):
    """Other corners for a whole loop."""
    for j, (a, b) in enumerate(zip(corners, corners[1:] + corners[:1])):
        alter(s, "edges", start + j, f"{a} {b}")


def other_sheets(s):
    s.note("a vertex moved within the sheet: the rules see the new drawing")
    for numbers, outcome in (("1 1", "ok"), ("8 6", "ok"), ("9 3", "refused 14 2 5"),
                             ("11 5", "refused 19 2 3"), ("9 5", "refused 19 2 1"),
                             ("3 3", "ok")):
        alter(s, "points", 4, numbers)
        s.check(outcome)
        s.tables()
        if outcome == "ok":
            s.do("wipe", "ok")
            s.load(SPRING, "ok")
    s.note("a loop renamed: from another corner on; turned; a corner twice")
    rename(s, 0, [6, 7, 4, 5])
    sound(s)
    rename(s, 0, [7, 6, 5, 4])
    s.check("refused 16 2 6")
    rename(s, 0, [4, 5, 6, 4])
    s.check("refused 15 2 0")
    rename(s, 0, [4, 5, 6, 7])
    rename(s, 16, [3, 3, 3, 3])
    s.check("refused 15 2 4")
    rename(s, 16, [0, 4, 7, 3])
    sound(s)
    s.note("two loops that change places with their edges and numerals")
    rename(s, 0, [3, 0, 4, 7])
    rename(s, 16, [4, 5, 6, 7])
    alter(s, "loops", 0, "0 0 4")
    alter(s, "loops", 4, "14 16 4")
    s.tables()
    sound(s)
    s.note("a loop of three and one of five: 4 to 5 has no reverse; then kept")
    alter(s, "loops", 0, "14 0 3")
    alter(s, "loops", 1, "0 3 5")
    rename(s, 0, [4, 5, 6])
    rename(s, 3, [0, 1, 5, 7, 4])
    s.check("refused 17 2 0")
    rename(s, 0, [5, 6, 7])
    sound(s)
    s.note("a vertex moved to the other side of an edge, and onto it")
    s.load(sheet(8, 8, [(2, 6)], [[0, 1, 2, 3], [0, 2, 4], [4, 2, 0]]), "ok")
    s.check("refused 20 2 2")
    s.alter("points 4 6 2")
    s.check("refused 20 2 1")
    s.alter("points 4 4 4")
    s.check("refused 19 2 5")
    s.load(SPRING, "ok")
    sound(s)


def altered_cases(s):
    for part in (command, past_counts, points, loops, edges, order, other_sheets):
        part(s)
