"""Cases of the turn place, for tools/turns_cases.py.

A tip is placed by the walk and, in the reference, by the definition of a cell
as well. Most cells named here follow from how the tip was made: at a vertex, in
the middle of an edge, beside one, in a triangle. Where a whole outcome is named,
its count of tests was found by hand too. Altered tables and nodes are in
place_altered_cases.py.
"""

import random

from generate_tips import MILLION, MOST_XY, MOST_Z, beside, middle, random_tip, sides_of
from layer_cases import LENT, PLATE, keeps, layered, to_the_end, wheel
from rules import drawing, sheet_edges
from sheets import SPRING, eight, grid, row, row_loops, scattered, sheet, spiral

UNFIT, OFF, NOT_SEALED = "refused 25 4 0", "refused 26 4 0", "refused 28 4 0"
NO_NUMBER = "no such number"


def place(s, tip, expected=None):
    """A tip of two numbers is whole, one of three is rational."""
    turn = "place" if len(tip) == 2 else "placeq"
    return s.do(" ".join(map(str, (turn, *tip))), expected)


def cell(s, tip, kind, a, b=0):
    """The cell that a tip is in; its count of tests is left to the reference."""
    said = place(s, tip)
    if not said.startswith(f"ok {kind} {a} {b} tests "):
        last = [x for x in s.lines if x.startswith("#")][-1]
        raise SystemExit(f"{last}: {tip}: {said!r}, by hand {kind} {a} {b}")


def sealed(s, data):
    """Any board holds the sheet, sealed."""
    layered(s, data)
    to_the_end(s)


# Tips of the spring sheet whose tests were counted by hand.
SPRING_TIPS = (((6, 5), "ok 3 0 0 tests 20"), ((9, 7), "ok 1 6 0 tests 22"),
               ((1, 1), "ok 2 0 4 tests 13"), ((9, 14, 3), "ok 2 4 7 tests 12"))


def spring_tips(s):
    for board in ("capacity 18", "blocks 512"):
        s.note(f"tips of the spring sheet, after {board}: a face, a vertex, edges")
        s.do(board, "ok")
        sealed(s, SPRING)
        for tip, expected in SPRING_TIPS:
            place(s, tip, expected)
        s.note("the same points in other numbers")
        for x, y, z in ((6, 5, 1), (18, 15, 3), (6 * MOST_Z, 5 * MOST_Z, MOST_Z)):
            place(s, (x, y, z), SPRING_TIPS[0][1])
        place(s, (9 * 77, 7 * 77, 77), SPRING_TIPS[1][1])
        place(s, (13, 13, 13), SPRING_TIPS[2][1])
        place(s, (900, 1400, 300), SPRING_TIPS[3][1])
    s.note("nothing changes, whether it is granted or not")
    for turn, expected in (("place 6 5", "ok 3 0 0 tests 20"), ("place 13 5", OFF),
                           ("placeq 1 1 0", UNFIT)):
        keeps(s, turn, expected)


def wrong_stages(s):
    def refusing():
        for tip in ((6, 5), (13, 5), (1, 1, 0)):
            place(s, tip, NOT_SEALED)

    s.note("28 before 25 and 26: empty, loaded, checked, cut, after each round")
    s.do("capacity 18", "ok")
    refusing()
    s.load(SPRING, "ok")
    refusing()
    s.check("ok")
    refusing()
    s.do("cut", "ok")
    refusing()
    for _ in range(3):
        s.do("round")
        refusing()
    s.do("seal", "ok")
    place(s, *SPRING_TIPS[0])
    s.note("28: wiped; a file that is refused; rules that are broken")
    s.do("wipe", "ok")
    refusing()
    s.load(SPRING[:51], "refused 1 1 51")
    place(s, (6, 5), NOT_SEALED)
    s.breaks(sheet(2, 2, [], []), 13, 0)
    place(s, (1, 1), NOT_SEALED)


def short_tables(s):
    # No sheet is ever sealed over short tables, so that beside 12 only 28 can be
    # told. Place is lent what a round is lent.
    s.note("12 before 28 and 25: a table too short that place is lent")
    for name, least in (("points", 1028), ("edges", 6154), ("strokes", 3077),
                        ("loops", 2050), ("live", 2050)):
        for length in (0, least - 1):
            s.do(f"short {name} {length}", "ok")
            for tip in ((6, 5), (1, 1, 0)):
                place(s, tip, f"refused {12 if name in LENT['round'] else 28} 4 0")
        if name in LENT["round"]:
            s.do(f"short {name} {least + 1}", "ok")
            sealed(s, SPRING)
            place(s, *SPRING_TIPS[0])


def words(s):
    s.note("words that are no numbers of a tip, too few of them; before any refusal")
    s.do("capacity 18", "ok")
    for _ in range(2):
        for bad in ("", " 6", " 6 x", " 65536 5", " 6 65536", " -1 5"):
            s.do("place" + bad, NO_NUMBER)
        for bad in (" 6 5", " 6 5 x", " 6 5 -1", " 6 5 4294967296",
                    " 6 18446744073709551616 1", " 18446744073709551616 5 1"):
            s.do("placeq" + bad, NO_NUMBER)
        sealed(s, SPRING)
    s.note("zeros or a plus sign in front, words that are left; no number at all")
    s.do("place +6 005", "ok 3 0 0 tests 20")
    s.do("place 6 5 x", "ok 3 0 0 tests 20")
    s.do("placeq +18 0015 3 9", "ok 3 0 0 tests 20")
    s.do("place 65535 65535", OFF)
    s.do("placeq 18446744073709551615 5 1", UNFIT)
    s.do("placeq 6 18446744073709551615 1", UNFIT)
    s.do("placeq 6 5 4294967295", UNFIT)


def fit_limits(s):
    s.note("25 before 26: Z of 0, the largest, one more; X and Y the same")
    for x, y in ((6, 5), (0, 0), (13, 5)):
        place(s, (x, y, 0), UNFIT)
        place(s, (x, y, MOST_Z + 1), UNFIT)
    cell(s, (6, 5, MOST_Z), 3, 1)
    for z in (1, MOST_Z):
        place(s, (MOST_XY, 0, z), OFF)
        place(s, (0, MOST_XY, z), OFF)
        place(s, (MOST_XY + 1, 0, z), UNFIT)
        place(s, (0, MOST_XY + 1, z), UNFIT)
        place(s, (MOST_XY + 1, MOST_XY + 1, z), UNFIT)
    s.note("the largest sheet, to its far corner and past it")
    s.do("capacity 2", "ok")
    sealed(s, sheet(8191, 8191, [], [[0, 1, 2, 3]]))
    for z in (1, MOST_Z):
        most = 8191 * z
        place(s, (most, most, z), "ok 1 2 0 tests 6")
        place(s, (most, 0, z), "ok 1 1 0 tests 3")
        place(s, (0, most, z), "ok 1 3 0 tests 3")
        cell(s, (most, most // 2, z), 2, 1, 2)
        cell(s, (most // 2, most // 2, z), 3, 0)
        for tip in ((most + 1, most), (most, most + 1), (most + 1, 0), (0, most + 1)):
            place(s, (*tip, z), OFF)
    for tip, expected in (((8191, 8191), "ok 1 2 0 tests 6"), ((8192, 8191), OFF),
                          ((8191, 8192), OFF), ((65535, 0), OFF), ((0, 65535), OFF)):
        place(s, tip, expected)
    for tip in ((MOST_XY, 0, MOST_Z), (0, MOST_XY, MOST_Z)):
        place(s, tip, OFF)


def borders(s):
    s.note("the borders of the spring sheet, and past them by one, by one part")
    s.do("blocks 512", "ok")
    sealed(s, SPRING)
    for x, y, edge in ((5, 0, (0, 1)), (12, 5, (1, 2)), (5, 10, (2, 3)), (0, 5, (0, 3))):
        cell(s, (x, y), 2, *edge)
        for z in (3, MOST_Z):
            cell(s, (x * z, y * z, z), 2, *edge)
    for x, y in ((13, 5), (5, 11), (13, 0), (0, 11), (13, 11), (12, 11), (13, 10)):
        place(s, (x, y), OFF)
    for z in (1, MILLION):
        w, h = 12 * z, 10 * z
        for x, y in ((w + 1, z), (z, h + 1), (w + 1, 0), (0, h + 1), (w + 1, h),
                     (w, h + 1), (w + 1, h + 1)):
            place(s, (x, y, z), OFF)
    s.note("one part within each corner and border: an edge, a face")
    w, h = 12 * MILLION, 10 * MILLION
    for x, y, kind, a, b in ((1, 0, 2, 0, 1), (w, 1, 2, 1, 2), (w - 1, h, 2, 2, 3),
                             (0, h - 1, 2, 0, 3), (1, 1, 2, 0, 4), (2, 1, 3, 1, 0),
                             (1, 2, 3, 4, 0), (w - 1, h - 1, 2, 2, 6),
                             (w - 2, h - 1, 3, 3, 0), (w - 1, h - 2, 3, 2, 0),
                             (MILLION, 1, 3, 1, 0),
                             (w - 1, MILLION * 5, 3, 2, 0)):
        cell(s, (x, y, MILLION), kind, a, b)


def all_places(s):
    """Tips at every vertex, on every edge and beside it on each side, on every
    side of a bottom node that is no edge, in every bottom node."""
    board = s.player.board
    held = drawing(*board.held())
    at = held.points
    for v, p in enumerate(at):
        cell(s, p, 1, v)
    for a, b in sheet_edges(held):
        cell(s, middle(at[a], at[b]), 2, min(a, b), max(a, b))
    for number, ring in enumerate(held.loops):
        for a, b in zip(ring, ring[1:] + ring[:1]):
            cell(s, beside(at[a], at[b]), 3, number)
    inner = {}
    for node in board.nodes:
        if node.count == 0:
            (ax, ay), (bx, by), (cx, cy) = (at[v] for v in node.corners)
            cell(s, (ax + bx + cx, ay + by + cy, 3), 3, node.loop)
            inner.update({(min(e), max(e)): node.loop
                          for bit, e in zip((1, 2, 4), sides_of(node))
                          if not node.sides & bit})
    for (a, b), number in inner.items():
        cell(s, middle(at[a], at[b]), 3, number)


# The sheets whose places are all tried, and the store that each is kept in.
ALL_PLACES = (
    ("the spring sheet", "capacity 18", SPRING),
    ("a sheet of one face, cut in two", "blocks 512", PLATE),
    ("3 by 3 vertices", "blocks 2048", grid(3, False)),
    ("a hub of degree 8", "capacity 8194", wheel([4])),
    ("a spiral", "blocks 512001", spiral(1)),
    ("straight corners", "blocks 1024", row(8, 8, [(2, 4), (4, 4), (6, 4)])),
    ("a subdivision at random", "blocks 512001", scattered(7, 60, 60, 8, 10)))


def sheets(s):
    for name, board, data in ALL_PLACES:
        s.note(f"{name}: vertices, edges, beside them, inner sides, triangles")
        s.do(board, "ok")
        sealed(s, data)
        all_places(s)


def straight(s):
    s.note("a loop from a straight corner on; tips along the line of 4, 5 and 6")
    loops = row_loops([4, 5, 6])
    loops[0] = [5, 4, 0, 1, 6]
    s.do("capacity 8194", "ok")
    sealed(s, eight([(2, 4), (4, 4), (6, 4)], loops))
    for x, kind, a, b in ((1, 3, 3, 0), (2, 1, 4, 0), (3, 2, 4, 5), (4, 1, 5, 0),
                          (5, 2, 5, 6), (6, 1, 6, 0), (7, 3, 1, 0)):
        cell(s, (x, 4), kind, a, b)
    s.note("one part in a million before and behind each of these")
    z = MILLION
    for x, kind, a, b in ((2 * z - 1, 3, 3, 0), (2 * z + 1, 2, 4, 5), (4 * z - 1, 2, 4, 5),
                          (4 * z + 1, 2, 5, 6), (6 * z - 1, 2, 5, 6), (6 * z + 1, 3, 1, 0)):
        cell(s, (x, 4 * z, z), kind, a, b)


def one_after_another(s):
    s.note("a smaller sheet after a larger one, and the larger one again")
    s.do("capacity 18", "ok")
    sealed(s, SPRING)
    place(s, *SPRING_TIPS[0])
    sealed(s, PLATE)
    place(s, (1, 1), "ok 3 0 0 tests 3")
    place(s, (6, 5), OFF)
    sealed(s, SPRING)
    place(s, *SPRING_TIPS[0])


def random_tips(s):
    draw = random.Random(1983)
    for number, (board, data) in enumerate((
            ("capacity 18", SPRING), ("blocks 8192", spiral(4)),
            ("capacity 8194", grid(8, True)),
            ("blocks 512001", scattered(1, 500, 400, 40, 40)),
            ("capacity 8194", scattered(2, 8191, 8191, 200, 150)),
            ("blocks 512001", scattered(3, 8191, 5000, 1000, 700)))):
        s.note(f"tips at random, in sheet {number} of 6")
        s.do(board, "ok")
        sealed(s, data)
        for _ in range(250):
            place(s, random_tip(draw, s.player.board))


def place_cases(s):
    for part in (spring_tips, wrong_stages, short_tables, words, fit_limits, borders,
                 sheets, straight, one_after_another, random_tips):
        part(s)
