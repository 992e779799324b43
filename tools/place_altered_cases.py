"""Cases of place after the caller has altered a table or a node (27), and of
cut, round and seal over altered nodes.

Most are of one tip of the spring sheet, (6, 5). Its walk comes to the nodes 16,
8, 11, 14, 4, 13, 12 and 1 in this order, of which 16, 14, 12 and 1 hold it. Each
outcome named here was found by hand.
"""

from altered_cases import alter, repair
from layer_altered_cases import about, move
from layer_cases import (PLATE, SPRING_ALL, SPRING_CUT, card, cards, checked, keeps,
                         layered, live)
from place_cases import OFF, SPRING_TIPS, UNFIT, cell, place, sealed
from sheets import SPRING, eight, grid, sheet

TIP, TOLD = SPRING_TIPS[0]

# The nodes that the walk of this tip comes to, in order.
COME_TO = (16, 8, 11, 14, 4, 13, 12, 1)

GARBAGE = " ".join(["65535"] * 14)


def put(s, node, numbers):
    """A node of the spring sheet is overwritten."""
    s.alter(f"nodes {node} {numbers}")


def mend(s, *nodes):
    for node in nodes:
        put(s, node, SPRING_ALL[node])


def other(node, i, *values):
    """A node of the spring sheet with other numbers from i on."""
    numbers = SPRING_ALL[node].split()
    numbers[i:i + len(values)] = map(str, values)
    return " ".join(numbers)


def wrong(k):
    return f"refused 27 4 {k}"


def found(face, tests):
    return f"ok 3 {face} 0 tests {tests}"


def tell(s, node, *each):
    """The tip after one number of a node is altered, at i to a value; at last
    the node is repaired."""
    for i, value, expected in each:
        put(s, node, other(node, i, value))
        place(s, TIP, expected)
    mend(s, node)


def spring_again(s, board="capacity 18"):
    s.do(board, "ok")
    sealed(s, SPRING)
    place(s, TIP, TOLD)


def command(s):
    s.note("alter nodes: up to the capacity, in use or not, and past it")
    for board, capacity in (("capacity 0", 0), ("capacity 2", 2), ("capacity 8194", 8194),
                            ("blocks 511", 0), ("blocks 512", 18), ("blocks 1024", 36)):
        s.do(board, "ok")
        if capacity:
            put(s, capacity - 1, GARBAGE)
        for past in (capacity, 65535):
            s.alter(f"nodes {past} {GARBAGE}", "no such entry")
        cards(s)
    s.note("what is not in use is seen by nobody; words that are no numbers")
    layered(s, SPRING)
    put(s, 10, GARBAGE)
    cards(s, *SPRING_CUT)
    for i in (0, 7, 14):
        numbers = ["3"] + ["1"] * 14
        for bad in ("65536", "-1", "x"):
            numbers[i] = bad
            s.alter("nodes " + " ".join(numbers), "no such entry")
    for count in range(0, 15, 7):
        s.alter("nodes" + " 1" * count, "no such entry")
    cards(s, *SPRING_CUT)
    s.note("one node and no other, in both kinds of store, across a block's end")
    for board in ("capacity 8194", "blocks 2048"):
        s.do(board, "ok")
        layered(s, grid(3, False))
        whole = [" ".join(map(str, n.numbers())) for n in s.player.board.nodes]
        for k in (17, 18):
            numbers = " ".join(str(1000 * k + i) for i in range(14))
            put(s, k, numbers)
            cards(s, *whole[:k], numbers, *whole[k + 1:])
            put(s, k, whole[k])


def every_node(s):
    for board in ("capacity 18", "blocks 512"):
        spring_again(s, board)
        s.note("nodes of other numbers that the walk does not come to: not seen")
        for k in sorted(set(range(18)).difference(COME_TO)):
            put(s, k, GARBAGE)
        place(s, TIP, TOLD)
        s.note("27: the others, from the last; always the first of them is told")
        for k in reversed(COME_TO):
            put(s, k, GARBAGE)
            place(s, TIP, wrong(k))


def tops(s):
    spring_again(s)
    s.note("27: a top entry past the nodes or one that does not ascend, if it is come to; other tops")
    for first, second, expected in (
            (18, 17, wrong(0)), (65535, 17, wrong(0)), (16, 18, TOLD), (16, 65535, TOLD),
            (8, 18, wrong(1)), (8, 65535, wrong(1)), (8, 8, wrong(1)), (8, 1, wrong(1)),
            (8, 9, wrong(0)), (8, 11, wrong(0)),
            (1, 17, found(0, 3)), (12, 12, found(0, 6)), (17, 16, found(0, 20))):
        alter(s, "live", 0, first)
        alter(s, "live", 1, second)
        place(s, TIP, expected)
    s.note("the upper one first: told where the tip is not in it, and the lower one twice")
    place(s, (1, 9), wrong(1))
    alter(s, "live", 0, 16)
    place(s, (11, 1), wrong(1))
    place(s, (1, 9), "ok 2 3 7 tests 6")
    s.note("25 and 26 come before it; entries past the count are not looked at")
    alter(s, "live", 0, 65535)
    keeps(s, "place 6 5", wrong(0))
    place(s, (13, 5), OFF)
    place(s, (1, 1, 0), UNFIT)
    alter(s, "live", 0, 16)
    alter(s, "live", 1, 17)
    alter(s, "live", 2, 65535)
    place(s, TIP, TOLD)


def counts(s):
    spring_again(s)
    s.note("27: a count above 8 at a node that holds the tip; others are not asked")
    for k in (16, 14, 12, 1):
        tell(s, k, (5, 9, wrong(k)))
    for k in (8, 11, 4, 13):
        put(s, k, other(k, 5, 9))
    place(s, TIP, TOLD)
    mend(s, 8, 11, 4, 13)
    s.note("counts up to 8: children left out, none at all, one of a bottom node")
    tell(s, 16, (5, 8, TOLD), (5, 3, TOLD), (5, 2, wrong(16)), (5, 0, found(0, 3)))
    tell(s, 14, (5, 0, found(0, 10)))
    tell(s, 1, (5, 1, found(0, 23)))
    s.note("27: the eighth child is the first that holds it, or none of eight does")
    for last, expected in ((1, found(0, 27)), (0, found(0, 27)), (2, wrong(12))):
        put(s, 12, card((3, 7, 5), 0, 0, *[5] * 7, last))
        place(s, TIP, expected)
    mend(s, 12)


def children(s):
    spring_again(s)
    s.note("27: a child that is not below its node, if it is come to")
    for k, i in ((16, 6), (16, 8), (14, 8), (12, 6)):
        tell(s, k, (i, k, wrong(k)), (i, k + 1, wrong(k)))
    tell(s, 16, (9, 16, TOLD), (10, 65535, TOLD))
    tell(s, 12, (7, 12, TOLD))
    s.note("27: a bottom node that has itself as a child: node 1, node 0")
    put(s, 1, card((5, 6, 7), 0, 3, 1))
    place(s, TIP, wrong(1))
    mend(s, 1)
    place(s, (4, 4), found(0, 12))
    put(s, 0, card((7, 4, 5), 0, 3, 0))
    place(s, (4, 4), wrong(0))
    mend(s, 0)
    s.note("other children: one that holds the tip; 27, none does")
    tell(s, 14, (8, 10, found(0, 20)))
    tell(s, 12, (6, 11, wrong(12)))
    put(s, 14, card((7, 1, 2), 0, 0, 4, 13, 4, 13))
    place(s, TIP, wrong(14))
    mend(s, 14)
    s.note("the number of a child before its corners, a child before the next")
    put(s, 12, card((3, 7, 5), 0, 0, 13, 5, 6, 7))
    put(s, 13, GARBAGE)
    tell(s, 14, (7, 4, wrong(12)))
    mend(s, 12, 13)
    put(s, 11, GARBAGE)
    tell(s, 16, (8, 16, wrong(11)))
    mend(s, 11)


def corners(s):
    spring_again(s)
    s.note("27: a corner that is no vertex, at each node that is come to")
    for i, k in enumerate(COME_TO):
        tell(s, k, (i % 3, 8, wrong(k)))
    tell(s, 1, (0, 65535, wrong(1)), (1, 8, wrong(1)), (2, 8, wrong(1)))
    s.note("the same though the points table has such an entry, on the sheet")
    alter(s, "points", 8, "6 5")
    tell(s, 1, (0, 8, wrong(1)))
    s.note("a node with two faults")
    put(s, 14, other(14, 2, 8, 0, 0, 9))
    place(s, TIP, wrong(14))
    mend(s, 14)
    s.note("a corner is looked at also where no side that ends at it is tested")
    put(s, 16, other(16, 2, 65535))
    for tip in ((6, 5), (1, 1), (11, 1), (11, 9), (1, 9)):
        place(s, tip, wrong(16))
    mend(s, 16)
    s.note("27: an inner vertex that is not strictly inside the sheet, if a node that is come to has it")
    # The nodes that (6, 5) comes to have all inner vertices but 4 as corners.
    for v in (4, 5, 6, 7):
        for x, y in ((3, 10), (3, 0), (0, 3), (12, 3), (13, 3), (3, 11), (8191, 8191),
                     (8192, 3), (3, 65535), (60000, 60000), (65535, 65535)):
            alter(s, "points", v, f"{x} {y}")
            place(s, TIP, TOLD if v == 4 else wrong(v))
            place(s, (9, 14, 3), wrong(4) if v == 4 else None)
            place(s, (1, 1), wrong(4) if v == 4 else None)
        for x, y in ((1, 1), (11, 9), (1, 9), (11, 1)):
            alter(s, "points", v, f"{x} {y}")
            place(s, TIP)
        repair(s, "points", v)
    s.note("the corners of the sheet are known: their entries are not read")
    for v in range(4):
        for x, y in ((0, 0), (6, 5), (13, 11), (65535, 65535)):
            alter(s, "points", v, f"{x} {y}")
            place(s, TIP, TOLD)
            place(s, (9, 14, 3), "ok 2 4 7 tests 12")
        repair(s, "points", v)
    s.note("a corner that is no vertex, then where a vertex is, corner by corner")
    alter(s, "points", 5, "12 3")
    for a, b, c, expected in ((8, 5, 1, wrong(4)), (5, 8, 1, wrong(5)), (5, 1, 8, wrong(5)),
                              (1, 5, 8, wrong(5)), (1, 8, 5, wrong(4)), (1, 2, 5, wrong(5))):
        put(s, 4, other(4, 0, a, b, c))
        place(s, TIP, expected)
    mend(s, 4)
    repair(s, "points", 5)


def bottoms(s):
    spring_again(s)
    s.note("27: a loop past the count, sides of 8 and more, at the bottom alone")
    tell(s, 1, (3, 5, wrong(1)), (3, 65535, wrong(1)), (4, 8, wrong(1)),
         (4, 65535, wrong(1)), (3, 4, found(4, 20)))
    for k in (16, 14, 12, 4):
        put(s, k, other(k, 3, 5, 8))
    place(s, TIP, TOLD)
    mend(s, 16, 14, 12, 4)
    s.note("sides: the tip is on ca alone, and (9, 5) on ab")
    for sides in (0, 1, 3, 4, 7):
        put(s, 1, other(1, 4, sides))
        place(s, TIP, "ok 2 5 7 tests 20" if sides & 4 else TOLD)
        cell(s, (9, 5), *((2, 5, 6) if sides & 1 else (3, 0)))
    mend(s, 1)
    s.note("a node above without children is a bottom node, of the loop it names")
    put(s, 16, card((2, 3, 0), 5, 0))
    place(s, TIP, wrong(16))
    put(s, 16, card((2, 3, 0), 4, 4))
    place(s, TIP, "ok 2 0 2 tests 3")
    mend(s, 16)


def shrunken(s):
    spring_again(s)
    s.note("27: a smaller triangle: nothing holds the tip, at the node above, at 0")
    put(s, 14, card((1, 2, 6), 0, 0, 4, 13, 12, 10))
    place(s, TIP, wrong(16))
    mend(s, 14)
    put(s, 12, card((3, 7, 6), 0, 0, 1, 5, 6, 7))
    place(s, TIP, found(0, 22))
    put(s, 10, card((1, 5, 6), 0, 0, 0, 9, 2, 3))
    place(s, TIP, wrong(14))
    mend(s, 10, 12)
    put(s, 1, card((5, 6, 5), 0, 3))
    place(s, TIP, wrong(12))
    mend(s, 1)
    put(s, 16, card((2, 3, 7), 0, 0, 8, 11, 14, 15))
    place(s, TIP, found(0, 23))
    put(s, 17, card((1, 2, 6), 0, 0, 8, 11, 14, 15))
    place(s, TIP, wrong(0))
    place(s, (11, 9), "ok 2 2 6 tests 23")
    mend(s, 16, 17)
    s.note("a node of one corner holds every tip; all its sides are 0: the first")
    put(s, 1, card((5, 5, 5), 0, 3))
    place(s, TIP, "ok 1 5 0 tests 20")
    put(s, 1, card((7, 5, 5), 0, 3))
    place(s, TIP, "ok 1 7 0 tests 20")
    put(s, 1, card((5, 7, 5), 0, 3))
    place(s, TIP, "ok 1 5 0 tests 20")
    mend(s, 1)
    s.note("a vertex moved onto the tip, and past it: node 8 holds it now")
    alter(s, "points", 7, "6 5")
    place(s, TIP, "ok 1 7 0 tests 6")
    alter(s, "points", 7, "11 9")
    place(s, TIP, found(4, 6))
    repair(s, "points", 7)
    s.note("edges and loops are not lent to it")
    alter(s, "edges", 0, "9 9")
    alter(s, "loops", 0, "999 9 9")
    place(s, TIP, TOLD)


def least_sheet(s):
    s.note("27 where the top nodes are the bottom: two nodes, tip (1, 1)")
    s.do("blocks 512", "ok")
    sealed(s, PLATE)
    for node, expected in ((card((3, 0, 1), 1, 3), wrong(0)),
                           (card((3, 0, 1), 0, 8), wrong(0)),
                           (card((3, 0, 4), 0, 3), wrong(0)),
                           (card((3, 0, 1), 0, 3, 0), wrong(0)),
                           (card((3, 0, 1), 0, 7), "ok 2 1 3 tests 3"),
                           (card((0, 0, 0), 0, 3), "ok 1 0 0 tests 3"),
                           (card((1, 0, 3), 0, 3), found(0, 4))):
        put(s, 0, node)
        place(s, (1, 1), expected)
    put(s, 1, card((3, 2, 1), 0, 3))
    place(s, (1, 1), wrong(0))
    put(s, 0, card((3, 0, 1), 0, 3))
    place(s, (1, 1), found(0, 3))


def another_sheet(s):
    s.note("altered into another sheet before the check: that one is placed on")
    s.do("capacity 18", "ok")
    s.load(SPRING, "ok")
    move(s, {4: (2, 3), 6: (11, 9)})
    s.check("ok")
    s.do("cut", "ok")
    for _ in range(3):
        s.do("round")
    s.do("seal")
    for tip, kind, a, b in (((2, 3), 1, 4, 0), ((3, 3), 2, 4, 5), ((11, 9), 1, 6, 0),
                            ((9, 7), 3, 0, 0), ((6, 5), 3, 0, 0)):
        cell(s, tip, kind, a, b)


def no_vertex(s):
    s.note("nodes altered before the cut: it empties the store")
    s.do("capacity 18", "ok")
    checked(s, SPRING)
    put(s, 0, GARBAGE)
    s.do("cut", "ok")
    cards(s, *SPRING_CUT)
    s.note("27: a live node's corner that is no vertex, the lowest such node")
    for k, i, bad in ((9, 2, 8), (4, 1, 65535), (0, 0, 8)):
        put(s, k, other(k, i, bad))
        keeps(s, "round", f"refused 27 3 {k}")
        s.do("seal", f"refused 27 3 {k}")
    s.note("points and live numbers come before it, fans and 23 after")
    alter(s, "points", 7, "0 7")
    s.do("round", "refused 27 3 7")
    repair(s, "points", 7)
    alter(s, "live", 9, 8)
    s.do("round", "refused 27 3 9")
    s.do("seal", "refused 27 3 9")
    alter(s, "live", 9, 9)
    mend(s, 0)
    put(s, 2, other(2, 2, 6))
    s.do("round", "refused 27 3 4")
    s.do("seal", "refused 27 3 4")
    s.note("what is no corner is read by neither; no live node any more: not seen")
    for k in range(10):
        put(s, k, other(k, 3, *[65535] * 11))
    s.do("round", "ok 4 6")
    put(s, 0, GARBAGE)
    s.do("round", "ok 5")
    put(s, 12, other(12, 1, 8))
    s.do("round", "ok 7")
    put(s, 17, other(17, 0, 8))
    s.do("round", "refused 27 3 17")
    s.do("seal", "refused 27 3 17")
    mend(s, 17)
    s.do("round", "refused 24 3 0")
    s.do("seal", "ok")
    place(s, TIP, wrong(12))


def other_fans(s):
    s.note("27: a fan that an altered corner breaks; a vertex back among the live")
    s.do("capacity 18", "ok")
    layered(s, SPRING)
    put(s, 9, other(9, 2, 6))
    keeps(s, "round", "refused 27 3 4")
    s.do("seal", "refused 23 3 4")
    mend(s, 9)
    for taken in ("4 6", "5", "7"):
        s.do("round", "ok " + taken)
    put(s, 17, other(17, 0, 5))
    s.do("round", "refused 27 3 5")
    keeps(s, "seal", "refused 23 3 1")
    s.note("a vertex twice in a node: one live node each, so its fan is whole")
    s.do("capacity 8", "ok")
    layered(s, eight([(4, 4)], about(4)))
    put(s, 0, card((4, 4, 1), 0, 0))
    put(s, 3, card((4, 3, 4), 0, 0))
    s.note("its hole has itself as a corner, so that it is not gone")
    s.do("round", "ok")
    s.do("cards")
    live(s, 4, 5)
    keeps(s, "seal", "refused 23 3 1")


def place_altered_cases(s):
    for part in (command, every_node, tops, counts, children, corners, bottoms, shrunken,
                 least_sheet, another_sheet, no_vertex, other_fans):
        part(s)
