"""Writes sheet files, for tests and examples.

A file is kept as a list of named fields, so that a case can say "the spring
file with its field H as these bytes" and knows at which byte that field is.
"""

import random


def number(value):
    """A number in groups of seven bits, the lowest first."""
    out = bytearray()
    while value >= 128:
        out.append(128 + value % 128)
        value //= 128
    out.append(value)
    return bytes(out)


def fields(width, height, inner, loops, labels):
    """The named fields of a file.

    inner: (x, y) of each inner vertex. loops: (numeral, corners).
    labels: (numeral, wording). Names are edition, W, H, n, x4, y4, ..,
    loops, numeral0, k0, corner0.0, .., labels, label0, length0, wording0, ..
    """
    out = [("edition", 1), ("W", width), ("H", height), ("n", len(inner))]
    for v, (x, y) in enumerate(inner, 4):
        out += [(f"x{v}", x), (f"y{v}", y)]
    out.append(("loops", len(loops)))
    for i, (numeral, corners) in enumerate(loops):
        out += [(f"numeral{i}", numeral), (f"k{i}", len(corners))]
        out += [(f"corner{i}.{j}", c) for j, c in enumerate(corners)]
    out.append(("labels", len(labels)))
    for i, (numeral, wording) in enumerate(labels):
        out += [(f"label{i}", numeral), (f"length{i}", len(wording))]
        out.append((f"wording{i}", wording))
    return [(name, number(v) if isinstance(v, int) else v) for name, v in out]


def join(parts):
    return b"".join(data for _, data in parts)


def file(width, height, inner, loops, labels):
    return join(fields(width, height, inner, loops, labels))


def upto(parts, name):
    """The bytes before the field of that name; their count is its place."""
    names = [n for n, _ in parts]
    return join(parts[:names.index(name)])


def after(parts, name):
    """The bytes after the field of that name."""
    names = [n for n, _ in parts]
    return join(parts[names.index(name) + 1:])


def put(parts, name, data):
    """The whole file with other bytes in the place of one field."""
    return upto(parts, name) + data + after(parts, name)


SPRING_FIELDS = fields(
    12, 10,
    [(3, 3), (9, 3), (9, 7), (3, 7)],
    [(14, [4, 5, 6, 7]), (0, [0, 1, 5, 4]), (0, [1, 2, 6, 5]),
     (0, [2, 3, 7, 6]), (0, [3, 0, 4, 7])],
    [(14, b"spring")])
SPRING = join(SPRING_FIELDS)

QUAD = [4, 5, 6, 7]  # the loops of the spring sheet, the rectangle first
BELOW, RIGHT, ABOVE, LEFT = [0, 1, 5, 4], [1, 2, 6, 5], [2, 3, 7, 6], [3, 0, 4, 7]
AROUND = [QUAD, BELOW, RIGHT, ABOVE, LEFT]


def corners_only(loops):
    """The loops of these corners, all of numeral 0."""
    return [(0, corners) for corners in loops]


def sheet(width, height, inner, loops):
    """A sheet without numerals."""
    return file(width, height, inner, corners_only(loops), [])


def like_spring(loops, *more, moved=None):
    """The spring sheet with these loops, more vertices, some vertices moved."""
    spring = enumerate([(3, 3), (9, 3), (9, 7), (3, 7)], 4)
    inner = [(moved or {}).get(v, at) for v, at in spring]
    return sheet(12, 10, inner + list(more), loops)


def eight(inner, loops):
    """A sheet of 8 by 8."""
    return sheet(8, 8, inner, loops)


def largest():
    """A legal file of the greatest length, 39,260 bytes.

    Every number that may be two bytes long is: coordinates, corners and
    numerals of loops from 128 on. It is no sensible drawing (check would
    refuse it), but a reader has to take it.
    """
    inner = [(128 + v * 3571 % 8063, 128 + v * 2903 % 8063)
             for v in range(1024)]
    corner = [128 + i * 7 % 900 for i in range(6150)]
    loops = [(255 - i % 128, corner[3 * i:3 * i + 3]) for i in range(2050)]
    # 101 has no factor in common with 255: every numeral once, out of order.
    numerals = [1 + i * 101 % 255 for i in range(255)]
    labels = [(m, bytes(32 + (m * 7 + j * 11) % 95 for j in range(63)))
              for m in numerals]
    return file(8191, 8191, inner, loops, labels)


def lattice_loops(columns, rows):
    """The squares between inner vertices that stand in rows, counted from the
    lowest row on, and four loops about them."""
    def at(i, j):
        return 4 + columns * j + i

    loops = [[at(i, j), at(i + 1, j), at(i + 1, j + 1), at(i, j + 1)]
             for j in range(rows - 1) for i in range(columns - 1)]
    right, top = columns - 1, rows - 1
    return loops + [[0, 1] + [at(right - i, 0) for i in range(columns)],
                    [1, 2] + [at(right, top - j) for j in range(rows)],
                    [2, 3] + [at(i, top) for i in range(columns)],
                    [3, 0] + [at(0, j) for j in range(rows)]]


def grid_loops(side, triangles):
    """The inner vertices and the loops of a sheet of 8,000 by 8,000 with side
    by side inner vertices.

    Their squares are faces, and four loops lie about them; or each loop is
    cut into triangles, those about the squares from a corner of the sheet.
    """
    step = 8000 // side
    inner = [(step // 2 + step * i, step // 2 + step * j)
             for j in range(side) for i in range(side)]
    loops = lattice_loops(side, side)
    if triangles:
        loops = [[loop[0], b, c]
                 for loop in loops for b, c in zip(loop[1:], loop[2:])]
    return inner, loops


def grid(side, triangles):
    """The sheet of these."""
    return sheet(8000, 8000, *grid_loops(side, triangles))


def row_loops(path):
    """Four loops below, right, above and left of a path of inner vertices.

    The path leads from left to right; its first vertex is joined to the
    corners 0 and 3 of the sheet, its last one to 1 and 2.
    """
    return [[0, 1] + path[::-1], [1, 2, path[-1]], [2, 3] + path,
            [3, 0, path[0]]]


def row(width, height, path):
    """A sheet whose inner vertices are the points of such a path."""
    loops = row_loops(list(range(4, 4 + len(path))))
    return sheet(width, height, path, loops)


def spiral_loops(turns):
    """A band that winds inwards, and four loops about it; 8 vertices a turn.
    The size of its sheet, the inner vertices and the loops."""
    size = 4 * turns + 20  # the innermost turn is 20 wide

    def line(inset):
        """Counterclockwise inwards, each turn 2 farther in than the last."""
        out = []
        for o in range(inset, inset + 2 * turns, 2):
            begin = (o, o) if o == inset else (o - 2, o)
            out += [begin, (size - o, o), (size - o, size - o), (o, size - o)]
        return out

    inner = line(1) + line(2)[::-1]
    band = list(range(4, 4 + len(inner)))
    loops = [band, [0, 1, 5, 4], [1, 2, 6, 5], [2, 3, 7, 6],
             [3, 0, 4] + band[:2:-1]]
    return size, inner, loops


def spiral(turns):
    """The sheet of these."""
    size, inner, loops = spiral_loops(turns)
    return sheet(size, size, inner, loops)


def is_inside(corners, p):
    """Whether p is left of each side of a triangle."""
    return all((bx - ax) * (p[1] - ay) > (by - ay) * (p[0] - ax)
               for (ax, ay), (bx, by) in zip(corners, corners[1:] + corners[:1]))


def sheet_corners(width, height):
    """The points of vertices 0 to 3."""
    return [(0, 0), (width, 0), (width, height), (0, height)]


def split_at(points, loops, p):
    """A point that is inside one of the triangles becomes a vertex, and splits
    that in three; any other point changes nothing."""
    for i, loop in enumerate(loops):
        if is_inside([points[v] for v in loop], p):
            v, (a, b, c) = len(points), loops.pop(i)
            loops += [[v, a, b], [v, b, c], [v, c, a]]
            points.append(p)
            break


def split_at_random(draw, width, height, inner):
    """The points of a sheet, and triangles as its loops: so many points are
    drawn, and each that is inside one of the triangles so far splits that."""
    points, loops = sheet_corners(width, height), [[0, 1, 2], [0, 2, 3]]
    for _ in range(inner):
        split_at(points, loops, (draw.randrange(1, width), draw.randrange(1, height)))
    return points, loops


def turned_from(loop, v):
    """The corners of a loop from v on."""
    i = loop.index(v)
    return loop[i:] + loop[:i]


def joined_at_random(draw, loops, edges):
    """The loops with up to so many edges between two of them taken out, where
    the two have nothing in common but that edge."""
    for _ in range(edges):
        first = draw.choice(loops)
        a, b = turned_from(first, draw.choice(first))[:2]
        for other in loops:
            if set(first) & set(other) == {a, b} and turned_from(other, a)[-1] == b:
                loops.remove(first)
                loops.remove(other)
                # From b round to a, and on from a to the corner before b.
                loops.append(turned_from(first, b) + turned_from(other, a)[1:-1])
                break
    return loops


def scattered(seed, width, height, inner, edges):
    """A sheet drawn at random, always the same for the same numbers: a split
    into triangles at up to so many inner vertices, from which up to so many
    edges are taken out again."""
    draw = random.Random(seed)
    points, loops = split_at_random(draw, width, height, inner)
    return sheet(width, height, points[4:], joined_at_random(draw, loops, edges))
