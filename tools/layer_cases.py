"""Cases of the turns cut, round and seal, for tools/turns_cases.py.

Outcomes named here were found by hand, from the drawing that the comment tells
of. Of grids, wheels and spirals the reference alone says what is taken out.
Tables that were altered between the turns are in layer_altered_cases.py.
"""

from sheets import SPRING, eight, grid, row, row_loops, sheet, spiral
from turns_script import NOTHING

PLATE = sheet(2, 2, [], [[0, 1, 2, 3]])


def card(corners, loop, sides, *children):
    """The fourteen numbers of a node, as `cards` prints them."""
    unused = [0] * (8 - len(children))
    numbers = [*corners, loop, sides, len(children), *children, *unused]
    return " ".join(map(str, numbers))


def cards(s, *nodes):
    s.do("cards", " ".join(["ok", " | ".join(nodes)]).rstrip())


def live(s, *numbers):
    s.do("live", " ".join(["ok", *map(str, numbers)]))


def checked(s, data):
    """Any board holds the sheet, checked, with no nodes."""
    s.do("wipe", "ok")
    s.load(data, "ok")
    s.check("ok")


def layered(s, data):
    checked(s, data)
    s.do("cut", "ok")


def keeps(s, command, outcome):
    """A refused turn that leaves the stage, the tables and the store alone."""
    seen = ("stage", "tables", "cards", "live")
    before = [s.player.line(line) for line in seen]
    s.do(command, outcome)
    for line, same in zip(seen, before):
        s.do(line, same)


# The nodes of the spring sheet: cut from each loop the ear at its first
# corner, then what is left. Then the rounds: 4 and 6 go; 7 is beside both and
# so is 5, which goes next; 7 is the last.
SPRING_CUT = [card(c, loop, 3) for c, loop in (
    ((7, 4, 5), 0), ((5, 6, 7), 0), ((4, 0, 1), 1), ((1, 5, 4), 1),
    ((5, 1, 2), 2), ((2, 6, 5), 2), ((6, 2, 3), 3), ((3, 7, 6), 3),
    ((7, 3, 0), 4), ((0, 4, 7), 4))]
SPRING_ROUNDS = [card(c, 0, 0, *fan) for fan, first, second in (
    ((0, 9, 2, 3), (1, 5, 7), (7, 0, 1)), ((1, 5, 6, 7), (3, 7, 5), (5, 2, 3)),
    ((4, 13, 12, 10), (7, 1, 2), (2, 3, 7)),
    ((8, 11, 14, 15), (2, 3, 0), (0, 1, 2))) for c in (first, second)]
SPRING_ALL = SPRING_CUT + SPRING_ROUNDS


def spring_whole(s):
    """The spring sheet from an empty board to Sealed."""
    cards(s)
    live(s)
    s.load(SPRING, "ok")
    s.tables()
    loaded = s.outcomes[-1].split(" ")
    s.check("ok")
    s.do("cut", "ok")
    s.do("stage", "ok Layered")
    cards(s, *SPRING_CUT)
    live(s, *range(10))
    s.tables(" ".join(loaded[:6] + ["10"] + loaded[7:]))
    for taken, count, left in (("4 6", 14, (4, 8, 10, 11, 12, 13)),
                               ("5", 16, (8, 11, 14, 15)), ("7", 18, (16, 17))):
        s.do("round", "ok " + taken)
        cards(s, *SPRING_ALL[:count])
        live(s, *left)
        s.do("stage", "ok Layered")
    keeps(s, "round", "refused 24 3 0")
    s.do("seal", "ok")
    s.do("stage", "ok Sealed")
    cards(s, *SPRING_ALL)
    live(s, 16, 17)
    s.tables(" ".join(loaded[:6] + ["2"] + loaded[7:]))


def spring_cases(s):
    for board in ("short live 2050", "capacity 18", "blocks 512", "blocks 512001"):
        s.note(f"the spring sheet to its end, after {board}; then once more")
        s.do(board, "ok")
        spring_whole(s)
        s.do("wipe", "ok")
        s.tables(NOTHING)
        spring_whole(s)
        s.do("wipe", "ok")
    s.note("a smaller sheet after it: its nodes alone")
    s.do("capacity 18", "ok")
    spring_whole(s)
    layered(s, PLATE)
    cards(s, card((3, 0, 1), 0, 3), card((1, 2, 3), 0, 3))


def small_sheets(s):
    s.do("capacity 8194", "ok")
    s.note("no inner vertex: two nodes, nothing to take out")
    layered(s, PLATE)
    cards(s, card((3, 0, 1), 0, 3), card((1, 2, 3), 0, 3))
    live(s, 0, 1)
    keeps(s, "round", "refused 24 3 0")
    s.do("seal", "ok")
    s.note("two loops of three, in list order; all their sides are edges")
    layered(s, sheet(2, 2, [], [[2, 0, 1], [3, 0, 2]]))
    cards(s, card((2, 0, 1), 0, 7), card((3, 0, 2), 1, 7))
    s.do("seal", "ok")
    s.note("a vertex of degree 3 and a node that is never a child")
    layered(s, sheet(8, 8, [(2, 6)], [[0, 1, 2], [0, 2, 4], [2, 3, 4], [3, 0, 4]]))
    s.do("round", "ok 4")
    cards(s, card((0, 1, 2), 0, 7), card((0, 2, 4), 1, 7), card((2, 3, 4), 2, 7),
          card((3, 0, 4), 3, 7), card((0, 2, 3), 0, 0, 1, 2, 3))
    live(s, 0, 4)
    s.do("seal", "ok")


def capacities(s):
    s.note("22: the spring sheet needs 10, then 14, 16 and 18 nodes")
    for c in (0, 9, 10, 13, 14, 15, 16, 17):
        s.do(f"capacity {c}", "ok")
        checked(s, SPRING)
        for turn, needed in (("cut", 10), ("round", 14), ("round", 16), ("round", 18)):
            if c < needed:
                keeps(s, turn, f"refused 22 3 {needed}")
                keeps(s, turn, f"refused 22 3 {needed}")
                break
            s.do(turn)
    s.note("22: no room for the two nodes of the least sheet; room for these")
    for c in (0, 1):
        s.do(f"capacity {c}", "ok")
        checked(s, PLATE)
        keeps(s, "cut", "refused 22 3 2")
    s.do("capacity 2", "ok")
    layered(s, PLATE)
    s.do("seal", "ok")
    s.note("capacity: numbers of 16 bits alone; else the board stays")
    for bad in ("", " 65536", " -1", " x"):
        s.do("capacity" + bad, "no such capacity")
    s.do("stage", "ok Sealed")
    s.do("capacity 65535", "ok")
    s.tables(NOTHING)
    layered(s, SPRING)


def blocks(s):
    s.note("22: 18 nodes for each whole block of 512 bytes")
    for size in (0, 511):
        s.do(f"blocks {size}", "ok")
        checked(s, SPRING)
        keeps(s, "cut", "refused 22 3 10")
    # Eight vertices on a line: every second one goes, two nodes for each.
    s.note("22: eight vertices on a line: 18 nodes, then 26; 36 have room")
    line = row(14, 10, [(v, 5) for v in range(1, 9)])
    for size in (512, 1023):
        s.do(f"blocks {size}", "ok")
        layered(s, line)
        keeps(s, "round", "refused 22 3 26")
    s.do("blocks 1024", "ok")
    layered(s, line)
    s.do("round", "ok 4 6 8 10")
    s.note("22: 25 inner vertices need 52 nodes; three blocks have room for 54")
    for size in (1024, 1535):
        s.do(f"blocks {size}", "ok")
        checked(s, grid(5, False))
        keeps(s, "cut", "refused 22 3 52")
    for size in (1536, 600000):
        s.do(f"blocks {size}", "ok")
        layered(s, grid(5, False))
        s.do("round")


def refusing(s, *turns):
    layer = {"load " + SPRING.hex(): 1, "load": 1, "check": 2}
    for turn in turns:
        keeps(s, turn, f"refused 28 {layer.get(turn, 3)} 0")


def wrong_stages(s):
    load = "load " + SPRING.hex()
    s.note("28: empty, loaded, broken by check, checked, layered, sealed, wiped")
    s.do("capacity 18", "ok")
    refusing(s, "check", "cut", "round", "seal")
    s.load(SPRING, "ok")
    refusing(s, "cut", "round", "seal")
    s.breaks(sheet(2, 2, [], []), 13, 0)
    refusing(s, "cut", "round", "seal")
    s.load(SPRING, "ok")
    s.check("ok")
    refusing(s, load, "load", "check", "round", "seal")
    s.do("cut", "ok")
    refusing(s, load, "load", "check", "cut")
    for _ in range(3):
        s.do("round")
        refusing(s, load, "check", "cut")
    s.do("seal", "ok")
    refusing(s, load, "load", "check", "cut", "round", "seal")
    s.wording(SPRING, 3, 0, 0, "ok 46 spring")
    s.do("wipe", "ok")
    cards(s)
    live(s)
    s.tables(NOTHING)
    refusing(s, "check", "cut", "round", "seal")


# The tables that each turn is lent.
LENT = {"cut": ("points", "edges", "loops", "live"), "round": ("points", "live"),
        "seal": ("live",)}


def short_tables(s):
    # A sheet is never loaded into short tables, nor checked without strokes,
    # so that beside 12 only 28 can be told.
    s.note("12 before 28: a table too short for the turn that is lent it")
    for name, least in (("points", 1028), ("edges", 6154), ("strokes", 3077),
                        ("loops", 2050), ("live", 2050)):
        for length in (0, least - 1, least):
            s.do(f"short {name} {length}", "ok")
            for turn, lent in LENT.items():
                short = name in lent and length < least
                s.do(turn, f"refused {12 if short else 28} 3 0")
        s.do(f"short {name} {least + 1}", "ok")
        spring_whole(s)


def vertices_left(s):
    s.note("23: four vertices left, two, one; then none")
    s.do("capacity 18", "ok")
    layered(s, SPRING)
    for left in (4, 2, 1):
        keeps(s, "seal", f"refused 23 3 {left}")
        s.do("round")
    s.do("seal", "ok")


def ears(s):
    # With 4 in the middle of the sheet, on the line from 1 to 3, the corner 2
    # is no ear of a loop that has all of them.
    s.do("capacity 8194", "ok")
    for note, at, loop, first, second in (
            ("no ear: 4 on the border of 1 2 3; the next corner is one",
             (4, 4), [2, 3, 4, 1], (2, 3, 4), (2, 4, 1)),
            ("the same from 3 on, and from 1 on", (4, 4), [3, 4, 1, 2],
             (2, 3, 4), (4, 1, 2)),
            ("", (4, 4), [1, 2, 3, 4], (4, 1, 2), (2, 3, 4)),
            ("no ear: 4 inside 1 2 3; with 4 below that, it is one", (6, 6),
             [2, 3, 4, 1], (2, 3, 4), (2, 4, 1)),
            ("", (3, 3), [2, 3, 4, 1], (1, 2, 3), (3, 4, 1)),
            ("no ear: 4 turns right", (6, 6), [4, 1, 2, 3], (4, 1, 2), (4, 2, 3))):
        if note:
            s.note(note)
        layered(s, eight([at], [[0, 1, 4], loop, [3, 0, 4]]))
        cards(s, card((0, 1, 4), 0, 7), card(first, 1, sides(loop, first)),
              card(second, 1, sides(loop, second)), card((3, 0, 4), 2, 7))
        s.do("round", "ok 4")
        s.do("seal", "ok")


def sides(loop, corners):
    """Which sides of a node are edges of its loop, as the drawing shows it."""
    edges = {frozenset(e) for e in zip(loop, loop[1:] + loop[:1])}
    own = zip(corners, corners[1:] + corners[:1])
    return sum(v for v, e in zip((1, 2, 4), own) if frozenset(e) in edges)


def straight(s):
    # Three vertices on a line. Above it 6 2 3 is cut, then not 6 3 4, which
    # has 5 on its border; below it 4 0 1, then not 4 1 6.
    s.note("straight corners: 5 is on the line from 4 to 6")
    line = [(2, 4), (4, 4), (6, 4)]
    layered(s, row(8, 8, line))
    cards(s, card((4, 0, 1), 0, 3), card((1, 6, 5), 0, 3), card((1, 5, 4), 0, 2),
          card((1, 2, 6), 1, 7), card((6, 2, 3), 2, 3), card((3, 4, 5), 2, 3),
          card((3, 5, 6), 2, 2), card((3, 0, 4), 3, 7))
    s.note("the same from corner 5 on, which is no ear of its loop")
    loops = row_loops([4, 5, 6])
    loops[0] = [5, 4, 0, 1, 6]
    layered(s, eight(line, loops))
    cards(s, card((5, 4, 0), 0, 3), card((6, 5, 0), 0, 1), card((0, 1, 6), 0, 3),
          card((1, 2, 6), 1, 7), card((6, 2, 3), 2, 3), card((3, 4, 5), 2, 3),
          card((3, 5, 6), 2, 2), card((3, 0, 4), 3, 7))
    s.do("round", "ok 4 6")
    s.do("round", "ok 5")
    s.do("cards")
    s.do("seal", "ok")


def wheel(below):
    """A hub in a square of 7 vertices and more on its lower side."""
    ring = ([(2, 2)] + [(x, 2) for x in below] +
            [(6, 2), (6, 4), (6, 6), (4, 6), (2, 6), (2, 4)])
    at = dict(zip(ring, range(5, 5 + len(ring))))
    rim = list(at.values())
    low = rim[:len(below) + 2]
    right, above = [at[6, 2], at[6, 4], at[6, 6]], [at[6, 6], at[4, 6], at[2, 6]]
    loops = [[4, a, b] for a, b in zip(rim, rim[1:] + rim[:1])]
    loops += [[0, 1] + low[::-1], [1, 2] + right[::-1], [2, 3] + above[::-1],
              [3, 0, at[2, 2], at[2, 4], at[2, 6]]]
    return eight([(4, 4)] + ring, loops)


def to_the_end(s, *each):
    """Rounds until none is left, with what is asked after each; then seal."""
    while s.do("round") != "refused 24 3 0":
        if not s.outcomes[-1].startswith("ok"):
            raise SystemExit(s.outcomes[-1])
        for command in each:
            s.do(command)
    s.do("seal", "ok")


def larger_sheets(s):
    s.do("capacity 8194", "ok")
    s.note("a hub of degree 8 goes first, one of degree 9 or 10 stays a while")
    layered(s, wheel([4]))
    s.do("round", "ok 4")
    s.do("cards")
    to_the_end(s, "live")
    for below in ([3, 4], [3, 4, 5]):
        layered(s, wheel(below))
        to_the_end(s, "live")
        s.do("cards")
    s.note("grids of 25 and 64 inner vertices, in squares and in triangles")
    for side in (5, 8):
        for triangles in (False, True):
            layered(s, grid(side, triangles))
            s.do("cards")
            to_the_end(s, "live")
            s.do("cards")
    s.note("a spiral of one turn, of four; a line, a slanted one, a saw")
    for data in (spiral(1), spiral(4), row(42, 10, [(v, 5) for v in range(1, 41)]),
                 row(42, 42, [(v, v) for v in range(1, 41)]),
                 row(42, 42, [(v, 1 + 40 * (v % 2)) for v in range(1, 41)])):
        layered(s, data)
        to_the_end(s)
        s.do("cards")


def largest_grids(s):
    s.note("1,024 inner vertices, their squares, in blocks; and in triangles")
    for board, triangles in (("blocks 512001", False), ("capacity 8194", True)):
        s.do(board, "ok")
        layered(s, grid(32, triangles))
        to_the_end(s, "live")


def layer_cases(s):
    for part in (spring_cases, small_sheets, capacities, blocks, wrong_stages,
                 short_tables, vertices_left, ears, straight, larger_sheets,
                 largest_grids):
        part(s)
