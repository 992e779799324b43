"""Cases of the rules 13 to 20, for tools/turns_cases.py: sheets that break them.

Each place named here was found by hand, from the drawing that the comment
tells of; so were the sheets that break one rule alone, and the reference
tries all eight rules of these. No sheet here breaks 13, 14, 16 or 18 alone.
"""

from sheets import (ABOVE, AROUND, BELOW, LEFT, QUAD, RIGHT, eight, like_spring,
                    row, row_loops, sheet)


def rule_13(s):
    s.note("13: no loops")
    s.breaks(sheet(2, 2, [], []), 13, 0)
    s.breaks(like_spring([]), 13, 0)
    s.note("13: too few, too many corners")
    s.breaks(sheet(2, 2, [], [[0, 1, 2]]), 13, 0)
    s.breaks(sheet(2, 2, [], [[0, 1, 2, 3], [0, 1, 2]]), 13, 0)
    for i in range(5):
        s.breaks(like_spring(AROUND[:i] + AROUND[i + 1:]), 13, 0)
    s.breaks(like_spring(AROUND + [QUAD[::-1]]), 13, 0)
    s.breaks(like_spring([[4, 5, 6]] + AROUND[1:]), 13, 0)
    s.breaks(like_spring([QUAD + [4]] + AROUND[1:]), 13, 0)
    s.note("13: an inner vertex too many, or one too few")
    s.breaks(like_spring(AROUND, (6, 5)), 13, 0)
    s.breaks(sheet(12, 10, [(3, 3), (9, 3), (9, 7)], [[4, 5, 6]] * 9), 13, 0)
    s.note("13 before 14, 15, 16, 17 at place 0, 18 and 20")
    s.breaks(sheet(12, 10, [(3, 3)] * 4, [[6, 5, 5]]), 13, 0)


def rule_14(s):
    s.note("14: the first vertex that stands on a lower one; 5 and 7 here")
    for moved, place in (({5: (3, 3)}, 5), ({7: (3, 3)}, 7), ({4: (3, 7)}, 7),
                         ({7: (9, 3), 6: (3, 3)}, 6), ({6: (9, 3)}, 6),
                         ({5: (3, 3), 6: (3, 3), 7: (3, 3)}, 5)):
        s.breaks(like_spring(AROUND, moved=moved), 14, place)
    s.note("14: of fifteen inner vertices, 4 to 18")
    line = [(v, 5) for v in range(4, 19)]
    for v, lower in ((5, 4), (18, 4), (18, 17), (11, 10), (11, 4)):
        again = list(line)
        again[v - 4] = line[lower - 4]
        s.breaks(row(22, 10, again), 14, v)
        s.breaks(row(22, 10, again[:-1] + [again[-2]]), 14, v)
    s.note("x alone or y alone may be the same, or both the other way round")
    s.passes(row(8, 8, [(3, 4), (4, 3), (4, 4)]))
    s.note("14 before 15: loop 4 names 3 twice")
    s.breaks(like_spring(AROUND[:4] + [[3, 0, 4, 3]], moved={7: (9, 7)}), 14, 7)


def rule_15(s):
    s.note("15: next to one another, opposite, first and last; any loop")
    for bad in ([4, 4, 6, 7], [4, 5, 4, 7], [4, 5, 6, 4], [4, 5, 6, 6], [7, 5, 6, 7]):
        s.breaks(like_spring([bad] + AROUND[1:]), 15, 0)
        s.breaks(like_spring(AROUND[:2] + [bad] + AROUND[3:]), 15, 2)
        s.breaks(like_spring(AROUND[:4] + [bad]), 15, 4)
        s.breaks(like_spring(AROUND[:2] + [bad, ABOVE, bad]), 15, 2)
    s.breaks(like_spring([[4, 4, 4, 4]] + AROUND[1:]), 15, 0)
    s.note("15 before 16: loop 1 lists the edges of loop 0 again, at 4")
    s.breaks(like_spring([QUAD, [4, 5, 6, 4]] + AROUND[2:]), 15, 1)


# Loop 0 goes round the sheet and, from corner 0, round the triangle 0 4 5,
# which vertex 6 divides in three.
PINCHED = [[0, 1, 2, 3, 0, 5, 4], [0, 4, 6], [4, 5, 6], [5, 0, 6]]
PINCHED_AT = [(6, 2), (2, 6), (3, 3)]


def rule_15_alone(s):
    s.note("15 alone: a loop that meets itself at a corner of the sheet")
    first, rest = PINCHED[:1], PINCHED[1:]
    s.alone(eight(PINCHED_AT, PINCHED), 15, 0)
    s.alone(eight(PINCHED_AT, rest[:1] + first + rest[1:]), 15, 1)
    s.alone(eight(PINCHED_AT, rest + first), 15, 3)
    s.note("15 alone: at an inner vertex; the loop below goes round 4 8 9 too")
    below = [0, 1, 5, 4, 9, 8, 4]
    pinched = [QUAD, below, RIGHT, ABOVE, LEFT, [4, 8, 9]]
    s.alone(like_spring(pinched, (3, 1), (5, 1)), 15, 1)
    s.alone(like_spring(pinched[:1] + pinched[:1:-1] + [below], (3, 1), (5, 1)), 15, 5)
    s.note("15 alone: a slit from corner 0 to the triangle 4 5 6 and back")
    slit = [[0, 1, 2, 3, 0, 4, 6, 5, 4], [4, 5, 7], [5, 8, 7], [5, 6, 8], [6, 4, 7, 8]]
    s.alone(eight([(2, 2), (6, 2), (4, 7), (4, 3), (4, 4)], slit), 15, 0)


def rule_16(s):
    s.note("16: the place of the later one, 3 at the lowest")
    for second, place in (([0, 1, 2], 3), ([2, 0, 1], 3), ([3, 0, 1], 4),
                          ([1, 3, 0], 5)):
        s.breaks(sheet(2, 2, [], [[0, 1, 2], second]), 16, place)
    s.note("16: a loop listed again instead of another")
    for i in range(4):
        s.breaks(like_spring(AROUND[:4] + [AROUND[i]]), 16, 16)
    s.breaks(like_spring(AROUND[:3] + [QUAD, QUAD]), 16, 12)
    s.breaks(like_spring([LEFT] * 5), 16, 4)
    s.note("16: the last edge of the last loop, 7 to 4 again")
    s.breaks(like_spring(AROUND[:4] + [[4, 2, 0, 7]]), 16, 19)
    s.note("16 before 17: a loop turned; its edge at 0 has no reverse")
    s.breaks(like_spring([QUAD[::-1]] + AROUND[1:]), 16, 6)
    s.breaks(like_spring(AROUND[1:] + [QUAD[::-1]]), 16, 16)
    s.note("16: an outside edge in a loop, told where the outside edge stands")
    s.breaks(sheet(2, 2, [], [[3, 2, 1, 0]]), 16, 4)
    s.breaks(sheet(2, 2, [], [[0, 2, 1], [1, 2, 3]]), 16, 6)
    s.breaks(sheet(2, 2, [], [[2, 1, 3], [3, 1, 2]]), 16, 7)
    s.breaks(sheet(2, 2, [], [[3, 2, 0], [0, 2, 3]]), 16, 8)
    s.breaks(eight([(3, 3)], [[0, 3, 4], [0, 1, 2, 3], [4, 3, 1]]), 16, 13)


# In place of the triangle 1 2 4 beside the hexagon stands 1 2 5, which lies
# over part of it: 1 to 4, 4 to 2, 2 to 5 and 5 to 1 have no reverse.
HEXAGON, OVER, BESIDE = [0, 1, 4, 2, 3, 5], [1, 2, 5], [3, 0, 5]
HEXAGON_AT = [(6, 4), (2, 4)]


def rule_17(s):
    s.note("17 alone: a gap, and another loop that lies over one")
    for loops, place in (
            ([HEXAGON, BESIDE, OVER], 1),
            ([HEXAGON[1:] + HEXAGON[:1], BESIDE, OVER], 0),
            ([BESIDE, OVER, HEXAGON], 4),
            ([BESIDE, [5, 1, 2], HEXAGON], 3),
            ([BESIDE, [2, 3, 5, 0, 1, 4], OVER], 7)):
        s.alone(eight(HEXAGON_AT, loops), 17, place)
    s.note("17: a loop laid over the whole, none of its edges has a reverse")
    s.breaks(like_spring(AROUND + [[0, 2, 5, 8]], (6, 5)), 17, 20)
    s.breaks(like_spring([[0, 2, 5, 8]] + AROUND, (6, 5)), 17, 0)
    s.breaks(like_spring(AROUND[:3] + [[5, 8, 0, 2]] + AROUND[3:], (6, 5)), 17, 12)
    s.note("17 at an outside edge: each loop has its own reverse as well")
    # Where every edge of the loops has a reverse, none lies inside the border
    # or all four do: so it can be told at the first outside edge alone.
    s.breaks(eight([(4, 4)], [[0, 2, 4], [4, 2, 0], [1, 3, 4], [4, 3, 1]]), 17, 12)
    s.note("17 at 20 before 18 at 8")
    s.breaks(like_spring(AROUND + [[0, 2, 5, 7]], (6, 5)), 17, 20)


def unused(numbers):
    """Fifteen inner vertices on a line of which one or two are in no loop.

    Three of the others for one, four for two, are listed as one more loop
    both ways round, so that the sum of the corners is right.
    """
    path = [v for v in range(4, 19) if v not in numbers]
    over = path[:2 * len(numbers) + 3:2]
    loops = row_loops(path) + [over, over[::-1]]
    return sheet(22, 10, [(v, 5) for v in range(4, 19)], loops)


def rule_18(s):
    s.note("18: one vertex of 4 to 18 in no loop")
    for v in (4, 5, 11, 17, 18):
        s.breaks(unused([v]), 18, v)
    s.note("18: the first of two")
    for v, w in ((4, 5), (4, 18), (9, 10), (17, 18)):
        s.breaks(unused([v, w]), 18, v)
    s.note("18 before 19: 0 to 2 crosses the spring")
    s.breaks(like_spring(AROUND + [[0, 2, 5], [5, 2, 0]], (6, 5)), 18, 8)


# Two vertices in the middle, each joined to both corners on its side.
MIDDLE = [[0, 1, 5, 4], [1, 2, 5], [2, 3, 4, 5], [3, 0, 4]]


def rule_19_alone(s):
    s.note("19 alone: 4 right of 5, so 4 to 0 (edge 3) crosses 1 to 5 (edge 1)")
    s.passes(eight([(2, 4), (6, 4)], MIDDLE))
    s.alone(eight([(6, 4), (2, 4)], MIDDLE), 19, 3)
    s.note("the same from another loop on: 3 to 4 and 2 to 5 are edges 1 and 3")
    s.alone(eight([(6, 4), (2, 4)], MIDDLE[2:] + MIDDLE[:2]), 19, 3)
    s.alone(eight([(6, 4), (2, 4)], MIDDLE[::-1]), 19, 5)
    s.note("19 alone: 4 on the edge 1 to 5, so 5 to 4 (edge 2) lies on it")
    s.alone(eight([(5, 2), (2, 4)], MIDDLE), 19, 2)
    s.note("19 alone: 5 on the edge 0 to 4, which is longer and comes later")
    s.alone(eight([(6, 4), (3, 2)], MIDDLE), 19, 3)
    s.note("19 alone: 6 on the edge 0 to 4, with no edge beside it")
    bent = [(4, 4), (5, 3), (2, 2), (7, 1)]
    below, right, above, left = row_loops([4, 5, 6, 7])
    s.passes(row(8, 8, [(4, 4), (5, 3), (3, 2), (7, 1)]))
    s.alone(row(8, 8, bent), 19, 5)
    s.alone(eight(bent, [above, right, left, below]), 19, 9)
    s.alone(eight(bent, [left, right, above, below]), 19, 8)
    s.note("the same where the first edge that is listed of 6 begins there")
    s.alone(eight(bent, [[6, 5, 4, 0, 1, 7], right, above, left]), 19, 2)
    s.alone(eight(bent, [left, right, [6, 7, 2, 3, 4, 5], below]), 19, 6)


def rule_19(s):
    s.note("19: 7 on the edge 1 to 5 of the spring (edge 5)")
    s.breaks(like_spring(AROUND, moved={7: (10, 2)}), 19, 5)
    s.note("19: 4 beyond the edge 5 to 6, which 7 to 4 (edge 3) crosses")
    s.breaks(like_spring(AROUND, moved={4: (11, 5)}), 19, 3)
    s.note("19: 7 to 6 (edge 4) lies within 5 to 4 (edge 2), no vertex shared")
    within = {4: (1, 3), 5: (11, 3), 6: (8, 3), 7: (4, 3)}
    other = [BELOW, [7, 6, 2, 3], QUAD, RIGHT, LEFT]
    s.breaks(like_spring(other, moved=within), 19, 4)
    s.note("19: the same with 5 to 4 within 7 to 6; and one on the other in part")
    around = {4: (3, 3), 5: (9, 3), 6: (11, 3), 7: (1, 3)}
    s.breaks(like_spring(other, moved=around), 19, 4)
    s.breaks(like_spring(other, moved={**within, 7: (1, 3), 4: (3, 3)}), 19, 4)
    s.note("19: 7 to 6 and 5 to 4 apart on one line; 5 to 6 (edge 8) is over both")
    apart = {7: (1, 3), 6: (4, 3), 4: (6, 3), 5: (11, 3)}
    s.breaks(like_spring(other, moved=apart), 19, 8)
    s.note("19: the chord 4 6 (edge 12, the last) meets 5, is crossed by 1 to 5")
    chord = [BELOW, RIGHT, ABOVE, LEFT, [4, 5, 6], [4, 6, 7]]
    s.passes(like_spring(chord))
    s.breaks(like_spring(chord, moved={5: (6, 5)}), 19, 12)
    s.breaks(like_spring(chord, moved={5: (5, 6)}), 19, 12)
    s.breaks(like_spring(chord, moved={7: (6, 5)}), 19, 12)


def rule_19_corners(s):
    diagonal = [[0, 1, 2], [0, 2, 4], [2, 3, 4], [3, 0, 4]]
    s.note("19: 2 to 4 (edge 3) on the diagonal 2 to 0; both ways round (edge 5)")
    s.breaks(sheet(2, 2, [(1, 1)], diagonal), 19, 3)
    s.breaks(sheet(8191, 8191, [(8190, 8190)], diagonal), 19, 3)
    s.breaks(eight([(4, 4)], [[0, 1, 2, 3], [0, 2, 4], [4, 2, 0]]), 19, 5)
    s.note("4 beside the diagonal: on the left kept, on the right 19, 20 at 1 too")
    s.passes(sheet(8191, 8190, [(1, 1)], diagonal))
    s.breaks(sheet(8191, 8190, [(8190, 8189)], diagonal), 19, 6)
    s.note("19: both diagonals of the sheet (edges 4 and 7) cross")
    both = [[0, 1, 2, 3], [0, 2, 4], [4, 2, 0], [1, 3, 5], [5, 3, 1]]
    s.breaks(eight([(4, 6), (2, 5)], both), 19, 7)
    s.note("6 next to the edge 0 to 4, just below it, just above it")
    # The edge ends at (8190, 4093), and 4093 is a prime, so there is no point
    # on it; twice the signed area of the triangle 0 4 6 is -1, then 1.
    s.passes(row(8191, 8191, [(8190, 4093), (8189, 3000), (2047, 1023), (8190, 1)]))
    s.breaks(row(8191, 8191, [(8190, 4093), (8189, 3000), (6143, 3070), (8190, 1)]),
             19, 5)
    s.note("a loop of area 0 is told 19 before 20: two of its edges touch")
    s.breaks(like_spring(AROUND, moved={6: (3, 7), 7: (9, 7)}), 19, 3)
    s.breaks(like_spring(AROUND, moved={5: (5, 3), 6: (7, 3), 7: (9, 3)}), 19, 3)


def rule_20(s):
    s.note("20 alone: the triangle 0 2 4 listed both ways over one loop")
    plate, left, right = [0, 1, 2, 3], [0, 2, 4], [4, 2, 0]
    for at, loops, place in (
            ((2, 6), [plate, left, right], 2), ((2, 6), [plate, right, left], 1),
            ((2, 6), [right, left, plate], 0), ((6, 2), [plate, left, right], 1),
            ((6, 2), [left, plate, right], 0)):
        s.alone(eight([at], loops), 20, place)
    s.note("20 alone: a rectangle listed both ways, 4 below the diagonal, 5 above")
    s.alone(eight([(6, 2), (2, 6)], [plate, [0, 4, 2, 5], [5, 2, 4, 0]]), 20, 2)
    s.note("20 alone: the first of two; 1 4 5 is the other triangle")
    two = [plate, right, left, [5, 4, 1], [1, 4, 5]]
    s.alone(eight([(6, 2), (7, 2)], two), 20, 2)
    s.alone(eight([(6, 2), (7, 2)], two[::-1]), 20, 0)
    s.alone(eight([(6, 2), (7, 2)], two[:2] + two[:2:-1] + [left]), 20, 2)
    s.note("20 alone: twice the area is 1, or -1")
    for at, place in (((1, 1), 2), ((8190, 8189), 1)):
        s.alone(sheet(8191, 8190, [at], [plate, left, right]), 20, place)


def rule_cases(s):
    for part in (rule_13, rule_14, rule_15, rule_15_alone, rule_16, rule_17,
                 rule_18, rule_19_alone, rule_19, rule_19_corners, rule_20):
        part(s)
