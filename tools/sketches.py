"""Sheets as they are drawn, and the changes that leave a good one good.

A Sketch is changed in place. What a change draws at random is always the same for the same
numbers; one that finds no room for itself changes nothing.
"""

from dataclasses import dataclass, field
from math import gcd

from turns_script import earned  # first, since it says where the reference's files are
from layers import cutting, turn
from sheets import fields, join, joined_at_random, sheet_corners, split_at, turned_from

# The largest width and height, and the most inner vertices and labels.
MOST, MOST_INNER, MOST_LABELS = 8191, 1024, 255


@dataclass
class Sketch:
    width: int
    height: int
    points: list  # (x, y) by vertex number, the corners of the sheet first
    loops: list  # the corners of each
    numerals: list = field(default_factory=list)  # of each loop; else all 0
    labels: list = field(default_factory=list)  # (numeral, wording)

    def inner(self):
        return len(self.points) - 4

    def fields(self):
        numerals = self.numerals or [0] * len(self.loops)
        return fields(self.width, self.height, self.points[4:],
                      list(zip(numerals, self.loops)), self.labels)

    def file(self):
        return join(self.fields())


def sketch(width, height, inner, loops):
    return Sketch(width, height, sheet_corners(width, height) + inner, loops)


def passed(drawn):
    """The same sketch, which the reference has to load and to check."""
    number = earned(drawn.file())
    assert number is None, (number, drawn)
    return drawn


def cut(drawn):
    """Every loop becomes the triangles that it is cut into."""
    drawn.loops = [list(triangle) for loop in drawn.loops
                   for triangle in cutting(drawn.points, loop)]


def a_side(draw, drawn):
    """The ends of a side of any loop, as points."""
    loop = draw.choice(drawn.loops)
    a, b = turned_from(loop, draw.choice(loop))[:2]
    return drawn.points[a], drawn.points[b]


def next_to(draw, a, b):
    """A whole point left of the line from a to b and as near to it as one can be, between
    the two as the draw will have it."""
    dx, dy = b[0] - a[0], b[1] - a[1]
    steps = gcd(dx, dy)
    dx, dy = dx // steps, dy // steps
    # u and v with dx v - dy u = 1: the point is one step of the whole numbers beside a.
    v = dx if dy == 0 else pow(dx, -1, abs(dy))
    u = 0 if dy == 0 else (dx * v - 1) // dy
    t = draw.randrange(steps) - (u * dx + v * dy) // (dx * dx + dy * dy)
    return a[0] + u + t * dx, a[1] + v + t * dy


def anywhere(draw, drawn):
    return draw.randrange(1, drawn.width), draw.randrange(1, drawn.height)


def at_border(draw, drawn):
    """One step from a border."""
    x, y = anywhere(draw, drawn)
    return draw.choice(((1, y), (drawn.width - 1, y), (x, 1), (x, drawn.height - 1)))


def near_vertex(draw, drawn):
    x, y = draw.choice(drawn.points)
    return x + draw.randint(-2, 2), y + draw.randint(-2, 2)


def beside_side(draw, drawn):
    return next_to(draw, *a_side(draw, drawn))


def in_loop(draw, drawn):
    """In or near the middle of a loop."""
    at = [drawn.points[v] for v in draw.choice(drawn.loops)]
    return tuple(sum(p[i] for p in at) // len(at) + draw.randrange(2) for i in (0, 1))


WAYS = (anywhere, at_border, near_vertex, beside_side, in_loop)


def split(draw, drawn, count, ways=WAYS):
    """Up to so many points become vertices, of a sketch of triangles alone; beside a side
    they make slim ones."""
    ways = draw.sample(ways, draw.randint(1, len(ways)))
    for _ in range(count):
        split_at(drawn.points, drawn.loops, draw.choice(ways)(draw, drawn))


def flip(draw, drawn, times):
    """Up to so many sides of two triangles become the other diagonal, of a sketch of
    triangles alone; this makes skewed ones, and vertices of high and low degree."""
    owner = {(loop[i - 1], loop[i]): n for n, loop in enumerate(drawn.loops) for i in range(3)}
    for _ in range(times):
        n = draw.randrange(len(drawn.loops))
        a, b, c = turned_from(drawn.loops[n], draw.choice(drawn.loops[n]))
        m = owner.get((b, a))
        if m is None:
            continue
        d = turned_from(drawn.loops[m], a)[1]
        if min(turn(drawn.points, a, d, c), turn(drawn.points, d, b, c)) > 0:
            del owner[a, b], owner[b, a]
            for number, loop in ((n, [a, d, c]), (m, [d, b, c])):
                drawn.loops[number] = loop
                owner.update({(loop[i - 1], loop[i]): number for i in range(3)})


def merge(draw, drawn, times):
    """Up to so many pairs of loops become one."""
    joined_at_random(draw, drawn.loops, times)


def straighten(draw, drawn, times):
    """Up to so many whole points of edges become vertices: straight corners of two loops."""
    for _ in range(times):
        loop = draw.choice(drawn.loops)
        a, b = turned_from(loop, draw.choice(loop))[:2]
        (ax, ay), (bx, by) = drawn.points[a], drawn.points[b]
        steps = gcd(bx - ax, by - ay)
        others = [ring for ring in drawn.loops if (b, a) in zip(ring, ring[1:] + ring[:1])]
        if steps == 1 or not others:
            continue
        t, v = draw.randrange(1, steps), len(drawn.points)
        drawn.points.append((ax + (bx - ax) // steps * t, ay + (by - ay) // steps * t))
        loop.insert(loop.index(a) + 1, v)
        others[0].insert(others[0].index(b) + 1, v)


def named_anew(drawn, corners):
    """Of vertices 0 to 3 in order, the corners that they become."""
    drawn.loops = [[corners[v] if v < 4 else v for v in loop] for loop in drawn.loops]


def quarter_turn(drawn):
    inner = [(drawn.height - y, x) for x, y in drawn.points[4:]]
    drawn.width, drawn.height = drawn.height, drawn.width
    drawn.points = sheet_corners(drawn.width, drawn.height) + inner
    named_anew(drawn, [1, 2, 3, 0])


def mirror(drawn):
    """Left becomes right; the loops turn round, so that they stay counterclockwise."""
    inner = [(drawn.width - x, y) for x, y in drawn.points[4:]]
    drawn.points = sheet_corners(drawn.width, drawn.height) + inner
    named_anew(drawn, [1, 0, 3, 2])
    drawn.loops = [loop[::-1] for loop in drawn.loops]


def stretch(draw, drawn):
    """Wider and higher, so many times as drawn, up to the limit."""
    most = [MOST // size for size in (drawn.width, drawn.height)]
    by = [min(m, draw.choice((1, 2, 3, m, draw.randint(1, m)))) for m in most]
    drawn.width, drawn.height = drawn.width * by[0], drawn.height * by[1]
    drawn.points = [(x * by[0], y * by[1]) for x, y in drawn.points]


def shuffle(draw, drawn):
    """Vertices and loops in another order, loops from another corner on."""
    order = list(range(4, len(drawn.points)))
    draw.shuffle(order)
    number = {old: new for new, old in enumerate([0, 1, 2, 3] + order)}
    drawn.points = drawn.points[:4] + [drawn.points[v] for v in order]
    drawn.loops = [[number[v] for v in turned_from(loop, draw.choice(loop))]
                   for loop in drawn.loops]
    draw.shuffle(drawn.loops)


def label(draw, drawn, most):
    """Numerals for the loops, and up to so many labels, in any order."""
    numerals = [draw.randrange(256) for _ in range(3)] + [0]
    drawn.numerals = [draw.choice((*numerals, draw.randrange(256))) for _ in drawn.loops]
    labelled = draw.sample(range(1, MOST_LABELS + 1), draw.randint(0, most))
    labelled += sorted(set(drawn.numerals) - {0, *labelled})[:draw.randrange(3)]
    drawn.labels = [(n, bytes(draw.randint(32, 126) for _ in range(draw.choice((1, 5, 63)))))
                    for n in labelled[:MOST_LABELS]]
