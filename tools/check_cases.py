"""Cases of the turn check, for tools/turns_cases.py: stages, tables, good sheets.

Each outcome named here was found by hand.
"""

from sheets import (AROUND, QUAD, SPRING, eight, grid, largest, like_spring, row,
                    sheet, spiral)
from turns_script import NOTHING


def first_checks(s):
    s.note("check of an empty Draft")
    s.do("short live 2050", "ok")
    s.check("refused 28 2 0")
    s.do("stage", "ok Draft")
    s.tables(NOTHING)
    s.note("the spring sheet keeps the rules; check leaves its tables alone")
    s.load(SPRING, "ok")
    s.tables()
    loaded = s.outcomes[-1]
    s.check("ok")
    s.do("stage", "ok Checked")
    s.tables(loaded)
    s.note("a checked sheet is not loaded over nor checked again")
    s.load(SPRING, "refused 28 1 0")
    s.load(b"", "refused 28 1 0")
    s.check("refused 28 2 0")
    s.wording(SPRING, 3, 0, 0, "ok 46 spring")
    s.do("stage", "ok Checked")
    s.tables(loaded)
    s.note("a wipe makes an empty Draft of it")
    s.do("wipe", "ok")
    s.do("stage", "ok Draft")
    s.tables(NOTHING)
    s.check("refused 28 2 0")
    s.note("wiped before it is checked: empty as well")
    s.load(SPRING, "ok")
    s.do("wipe", "ok")
    s.check("refused 28 2 0")
    s.note("refused by load: still empty")
    s.refused(SPRING[:-1], 1, 51)
    s.check("refused 28 2 0")


def after_refused(s):
    s.note("its first loop reversed: 5 to 4 again at 6; checked once more")
    s.breaks(like_spring([QUAD[::-1]] + AROUND[1:]), 16, 6)
    s.do("stage", "ok Draft")
    s.tables()
    broken = s.outcomes[-1]
    s.check("refused 16 2 6")
    s.tables(broken)
    s.note("a refused load leaves it loaded, a granted one replaces it")
    s.refused(SPRING + b"\0", 11, 52)
    s.check("refused 16 2 6")
    s.passes(SPRING)


def kept(s):
    s.note("no inner vertices: one loop, two triangles either way, any size")
    for size in ((2, 2), (2, 8191), (8191, 2), (8191, 8191)):
        s.passes(sheet(*size, [], [[0, 1, 2, 3]]))
    s.passes(sheet(2, 2, [], [[2, 3, 0, 1]]))
    s.passes(sheet(2, 2, [], [[0, 1, 2], [0, 2, 3]]))
    s.passes(sheet(2, 2, [], [[1, 2, 3], [3, 0, 1]]))
    s.note("one inner vertex: in the middle, next to every corner")
    fan = [[0, 1, 4], [1, 2, 4], [2, 3, 4], [3, 0, 4]]
    s.passes(sheet(2, 2, [(1, 1)], fan))
    for at in ((1, 1), (8190, 1), (8190, 8190), (1, 8190)):
        s.passes(sheet(8191, 8191, [at], fan))
    s.note("a loop with a corner that turns right")
    s.passes(eight([(3, 3)], [[0, 1, 4], [1, 2, 3, 4], [3, 0, 4]]))
    s.passes(eight([(6, 6)], [[0, 1, 4], [1, 2, 3, 4], [3, 0, 4]]))
    s.note("on a straight line: three, fifteen corners of a loop; all slanted")
    s.passes(row(8, 8, [(2, 4), (4, 4), (6, 4)]))
    s.passes(row(22, 10, [(v, 5) for v in range(4, 19)]))
    s.passes(row(22, 22, [(v, v) for v in range(4, 19)]))
    s.note("1,024 inner vertices on a line, and up and down like a saw")
    s.passes(row(8191, 3, [(7 * i, 1) for i in range(1, 1025)]))
    s.passes(row(8191, 8191, [(7 * i, 1 + 8189 * (i % 2))
                              for i in range(1, 1025)]))
    s.note("a spiral of one turn, of 16")
    s.passes(spiral(1))
    s.passes(spiral(16))


def grids(s):
    s.note("1,024 inner vertices, their squares")
    s.passes(grid(32, False))
    s.note("in triangles: 2,050 loops of 6,150 corners")
    s.load(grid(32, True), "ok")
    s.tables()
    s.note("its last loop turned: its first edge is listed already")
    # The last loop goes from 3 down the first column's last two vertices.
    last, above = 4 + 31 * 32, 4 + 30 * 32
    turned = [(last, above), (above, 3), (3, last)]
    for i, (a, b) in enumerate(turned):
        s.alter(f"edges {6147 + i} {a} {b}")
    s.check("refused 16 2 6147")
    right = [(3, above), (above, last), (last, 3)]
    for i, (a, b) in enumerate(right):
        s.alter(f"edges {6147 + i} {a} {b}")
    s.note("its last vertex (7875, 7875) on the one before it, then back")
    s.alter("points 1027 7625 7875")
    s.check("refused 14 2 1027")
    s.alter("points 1027 7875 7875")
    s.check("ok")
    s.do("wipe", "ok")
    s.note("the largest file repeats its corners after 900 of them")
    s.breaks(largest(), 16, 900)


def order(s):
    s.note("12: a table too short for check, whatever the board holds")
    for name, least in (("points", 1028), ("edges", 6154), ("loops", 2050)):
        for length in (0, least - 1):
            s.do(f"short {name} {length}", "ok")
            s.check("refused 12 2 0")
            s.load(SPRING, "refused 12 1 0")
            s.check("refused 12 2 0")
        for length in (least, least + 1):
            s.do(f"short {name} {length}", "ok")
            s.check("refused 28 2 0")
            s.load(SPRING, "ok")
            s.check("ok")
    s.note("12: the strokes, of which load takes no notice")
    for length in (3076, 0):
        s.do(f"short strokes {length}", "ok")
        s.check("refused 12 2 0")
        s.load(SPRING, "ok")
        s.check("refused 12 2 0")
        s.breaks(sheet(2, 2, [], []), 12, 0)
        s.do("wipe", "ok")
        s.check("refused 12 2 0")
    for length in (3077, 3078):
        s.do(f"short strokes {length}", "ok")
        s.check("refused 28 2 0")
        s.passes(SPRING)
    s.note("check is not lent the live nodes")
    for length in (0, 2049):
        s.do(f"short live {length}", "ok")
        s.check("refused 28 2 0")
        s.load(SPRING, "refused 12 1 0")
        s.check("refused 28 2 0")
    s.do("short live 2050", "ok")


def check_cases(s):
    for part in (first_checks, after_refused, kept, grids, order):
        part(s)
