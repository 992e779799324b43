"""Makes sheets that keep the eight rules, each always the same for its seed.

    python3 tools/generate.py SEED MOST FILE

writes one with at most MOST inner vertices, from eight on. A sheet is drawn as a Sketch.
Makers draw one of a shape, changes turn it into another that keeps the rules too; `good`
mixes both, and the reference has to pass what comes of it.
"""

import random
import sys
from functools import cmp_to_key

from sheets import lattice_loops, row_loops, spiral_loops
from sketches import (MOST, MOST_INNER, MOST_LABELS, cut, flip, label, merge, mirror, passed,
                      quarter_turn, shuffle, sketch, split, straighten, stretch)
from rules import cross  # behind what says where the reference's files are


def size_at_random(draw):
    """Mostly small, sometimes the largest, sometimes narrow."""
    return tuple(draw.choice((2, 3, 12, 60, draw.randint(2, MOST), MOST)) for _ in range(2))


def distance(draw, count):
    """Between so many vertices in a row, with room for a border on both sides."""
    most = MOST // (count + 1)
    return min(most, draw.choice((1, 2, 5, 9, draw.randint(1, most), most)))


def plate(draw, _):
    """No inner vertex: one face, or two on either side of a diagonal."""
    loops = [[[0, 1, 2, 3]], [[0, 1, 2], [0, 2, 3]], [[1, 2, 3], [3, 0, 1]]]
    return sketch(*size_at_random(draw), [], draw.choice(loops))


def grid(draw, most):
    """Vertices in rows, plain, or each moved by less than a quarter of the distance: so the
    edges of a row stay apart from those of the next, and no two at a vertex meet."""
    columns = draw.randint(1, max(1, most))
    rows = draw.randint(1, max(1, most // columns))
    dx, dy = distance(draw, columns), distance(draw, rows)
    far = [(d - 1) // 4 * draw.randrange(2) for d in (dx, dy)]
    inner = [(dx * (i + 1) + draw.randint(-far[0], far[0]),
              dy * (j + 1) + draw.randint(-far[1], far[1]))
             for j in range(rows) for i in range(columns)]
    return sketch(dx * (columns + 1), dy * (rows + 1), inner, lattice_loops(columns, rows))


def path(draw, most):
    """Vertices from left to right: level, like a saw, slanted or at random."""
    count, height = draw.randint(1, max(1, most)), size_at_random(draw)[1]
    dx, top = distance(draw, count), height - 1
    level = draw.randint(1, top)
    y = draw.choice((lambda i: level, lambda i: 1 if i % 2 else top, lambda i: 1 + i % top,
                     lambda i: draw.randint(1, top)))
    inner = [(dx * (i + 1), y(i)) for i in range(count)]
    return sketch(dx * (count + 1), height, inner, row_loops(list(range(4, 4 + count))))


def between(ring, i, j):
    """The corners of a ring from position i on to j, in its own order."""
    return [ring[(i + k) % len(ring)] for k in range((j - i) % len(ring) + 1)]


def island(draw, outline, inner, inside=None):
    """A polygon, moved into a sheet, with four loops about it. The inner vertices are its
    corners, and what more there is; it is one loop, if it is not said what loops are inside.

    Each corner of the sheet is joined to a corner of the polygon that goes farthest towards
    it, so that these lines meet neither the polygon nor each other.
    """
    low = [min(p[i] for p in outline) for i in (0, 1)]
    room = [draw.choice((1, 1, 2, 7)) for _ in range(4)]
    move = room[0] - low[0], room[1] - low[1]
    points = [(x + move[0], y + move[1]) for x, y in inner]
    ring = [(x + move[0], y + move[1]) for x, y in outline]
    width, height = (max(p[i] for p in ring) + room[2 + i] for i in (0, 1))
    number = {p: v for v, p in enumerate(points, 4)}
    numbers = [number[p] for p in ring]
    ends = [min(range(len(ring)), key=lambda i: a * ring[i][0] + b * ring[i][1])
            for a, b in ((1, 1), (-1, 1), (-1, -1), (1, -1))]
    around = [[c, (c + 1) % 4] + between(numbers, ends[c], ends[(c + 1) % 4])[::-1]
              for c in range(4)]
    return sketch(width, height, points, (inside or [numbers]) + around)


def on_square(half, t, whole):
    """The point t parts of a whole of the way round a square about (0, 0), whose sides are
    twice as long as half; counterclockwise from its lower right corner on."""
    side, rest = divmod(8 * half * t // whole, 2 * half)
    return ((half, rest - half), (half - rest, half), (-half, half - rest),
            (rest - half, -half))[side]


def by_angle(u, v):
    """Whether u comes before v, above or below 0, where directions turn from (1, 0)."""
    upper = [(y, x) < (0, 0) for x, y in (u, v)]
    return upper[0] - upper[1] or -cross(u, v)


def turning(vectors):
    """Vectors in the order of their directions, one of each."""
    found = []
    for v in sorted((v for v in vectors if v != (0, 0)), key=cmp_to_key(by_angle)):
        if not found or by_angle(found[-1], v):
            found.append(v)
    return found


def star(draw, most):
    """Rays about a point: even ones, long and short by turns, or any. The star is one face,
    or each two rays bound a triangle, so that the point in the middle has a high degree."""
    rays = draw.randint(3, max(3, (most - 1) // 2))
    half = draw.choice((rays * 4, 900, (MOST - 14) // 2))
    short = draw.randint(rays, half)
    if draw.randrange(3) == 0:
        vectors = [(draw.randint(-half, half), draw.randint(-half, half))
                   for _ in range(2 * rays - 4)]
        vectors += [(half, 0), (0, half), (-half, 0), (0, -half)]
    else:
        vectors = [on_square(short if i % 2 else half, i, 2 * rays) for i in range(2 * rays)]
    outline = turning(vectors)
    if draw.randrange(2):
        return island(draw, outline, outline)
    hub = len(outline) + 4
    rim = list(range(4, hub))
    spokes = [[hub, a, b] for a, b in zip(rim, rim[1:] + rim[:1])]
    return island(draw, outline, outline + [(0, 0)], spokes)


def comb(draw, most):
    """Teeth on a bar, upright or leaning, all in one face."""
    teeth = draw.randint(1, max(1, most // 4))
    thick, bar, gap = (draw.randint(1, 3) for _ in range(3))
    height = bar + draw.choice((1, 5, draw.randint(1, 4000)))
    # As far as they may lean and still not be cut by the ends of the bar.
    lean = draw.randint(*(side * min(2000, (thick * height - 1) // bar) for side in (-1, 1)))
    pitch = thick + gap
    outline = [(0, 0), ((teeth - 1) * pitch + thick, 0)]
    for i in reversed(range(teeth)):
        outline += [(i * pitch + thick + lean, height), (i * pitch + lean, height)]
        if i > 0:
            outline += [(i * pitch, bar), (i * pitch - gap, bar)]
    return island(draw, outline, outline)


def spiral(draw, most):
    size, inner, loops = spiral_loops(draw.randint(1, max(1, most // 8)))
    return sketch(size, size, inner, loops)


def subdivision(draw, most):
    """Triangles split at random points, turned to skewed ones, some of them joined."""
    drawn = sketch(*size_at_random(draw), [], [[0, 1, 2], [0, 2, 3]])
    again(draw, drawn, most)
    return drawn


def again(draw, drawn, most):
    """Loops of any sketch cut into triangles, and these split, turned and joined."""
    cut(drawn)
    split(draw, drawn, draw.randint(0, max(0, most - drawn.inner())))
    flip(draw, drawn, draw.randint(0, 3 * most))
    merge(draw, drawn, draw.randint(0, 2 * most))


MAKERS = (plate, grid, path, star, comb, spiral, subdivision, subdivision)


def good(draw, most):
    """A sketch of at most so many inner vertices, from eight on."""
    drawn = draw.choice(MAKERS)(draw, most)
    if draw.randrange(3) == 0:
        stretch(draw, drawn)
    if draw.randrange(3) == 0:
        again(draw, drawn, most)
    if draw.randrange(3) == 0:
        straighten(draw, drawn, max(0, most - drawn.inner()))
    for _ in range(draw.randrange(4)):
        quarter_turn(drawn)
    if draw.randrange(2):
        mirror(drawn)
    if draw.randrange(3) == 0:
        stretch(draw, drawn)
    if draw.randrange(4):
        shuffle(draw, drawn)
    label(draw, drawn, 3)
    return passed(drawn)


def filled(draw, inner):
    """A sketch of triangles with just so many inner vertices, from eight on."""
    drawn = draw.choice((grid, star, comb, path))(draw, inner)
    while drawn.width < 1000 or drawn.height < 1000:
        stretch(draw, drawn)
    cut(drawn)
    while drawn.inner() < inner:
        split(draw, drawn, inner - drawn.inner())
    return drawn


def fullest(draw):
    """A sketch of the largest counts: 1,024 inner vertices, 2,050 triangles, so 6,150
    corners and 3,077 edges, and 255 labels."""
    drawn = filled(draw, MOST_INNER)
    flip(draw, drawn, draw.choice((0, 100, 3000)))
    shuffle(draw, drawn)
    label(draw, drawn, MOST_LABELS)
    drawn.labels += [(n, b"%d" % n) for n in range(1, MOST_LABELS + 1)
                     if n not in dict(drawn.labels)]
    return passed(drawn)


def main():
    seed, most, path_out = int(sys.argv[1]), int(sys.argv[2]), sys.argv[3]
    with open(path_out, "wb") as out:
        out.write(good(random.Random(seed), most).file())


if __name__ == "__main__":
    main()
