"""Makes sheets that break a rule, and damaged files, out of good sketches.

Each way to break a rule changes a copy of a sketch in place, or finds no room and leaves it;
`broken` tries some of them until the reference tells of the copy that this rule is the first
one it breaks.
"""

from copy import deepcopy
from math import gcd

from sketches import MOST_INNER, in_loop, next_to
from turns_script import earned
from layers import is_ear, triangle_at  # behind what says where the reference's files are
from sheets import after, file, is_inside, join, number, put, turned_from, upto


def edges_of(drawn):
    return {(a, b) for loop in drawn.loops for a, b in zip(loop, loop[1:] + loop[:1])}


def inner_vertex(draw, drawn):
    return draw.randrange(4, len(drawn.points)) if drawn.inner() else None


def corner_of(draw, drawn):
    loop = draw.choice(drawn.loops)
    return loop, draw.randrange(len(loop))


def drop_loop(draw, drawn):
    drawn.loops.remove(draw.choice(drawn.loops))


def list_again(draw, drawn):
    loop = list(draw.choice(drawn.loops))
    drawn.loops.insert(draw.randint(0, len(drawn.loops)), loop)


def drop_corner(draw, drawn):
    loop, i = corner_of(draw, drawn)
    del loop[i]


def add_corner(draw, drawn):
    loop, i = corner_of(draw, drawn)
    loop.insert(i, draw.randrange(len(drawn.points)))


def one_vertex_more(draw, drawn):
    drawn.points.append((draw.randrange(1, drawn.width), draw.randrange(1, drawn.height)))


def one_label_more(_, drawn):
    drawn.labels.append((1, b"again"))


def add_vertex(draw, drawn):
    if drawn.inner() < MOST_INNER:
        one_vertex_more(draw, drawn)


def drop_vertex(draw, drawn):
    """The last one, where no loop names it but with another in its place."""
    if drawn.inner():
        last = len(drawn.points) - 1
        drawn.points.pop()
        drawn.loops = [[0 if v == last else v for v in loop] for loop in drawn.loops]


def onto_another(draw, drawn):
    if drawn.inner() > 1:
        v, w = draw.sample(range(4, len(drawn.points)), 2)
        drawn.points[v] = drawn.points[w]


def corner_twice(draw, drawn):
    loop, i = corner_of(draw, drawn)
    loop[i] = loop[draw.randrange(len(loop))]


def turn_round(draw, drawn):
    draw.choice(drawn.loops).reverse()


def in_place_of_another(draw, drawn):
    """A loop listed again in the place of one with as many corners."""
    one = draw.choice(drawn.loops)
    like = [loop for loop in drawn.loops if len(loop) == len(one)]
    draw.choice(like)[:] = one


def other_corner(draw, drawn):
    loop, i = corner_of(draw, drawn)
    loop[i] = draw.randrange(len(drawn.points))


def both_ways(draw, drawn, corners):
    """A loop of these corners and its reverse, anywhere in the list."""
    for loop in (corners, corners[::-1]):
        drawn.loops.insert(draw.randint(0, len(drawn.loops)), loop)


def left_out(draw, drawn):
    """A new vertex in no loop, and three vertices, no two of them joined, as a loop and its
    reverse: so the sum of the corners is right."""
    edges = edges_of(drawn)
    three = draw.sample(range(len(drawn.points)), 3)
    if not any((a, b) in edges or (b, a) in edges for a in three for b in three):
        add_vertex(draw, drawn)
        both_ways(draw, drawn, three)
        swap_last(draw, drawn)


def swap_last(draw, drawn):
    """The last vertex changes its number with another inner one."""
    last, v = len(drawn.points) - 1, inner_vertex(draw, drawn)
    drawn.points[last], drawn.points[v] = drawn.points[v], drawn.points[last]
    other = {last: v, v: last}
    drawn.loops = [[other.get(w, w) for w in loop] for loop in drawn.loops]


def move_to(drawn, v, p):
    if v is not None and 0 < p[0] < drawn.width and 0 < p[1] < drawn.height:
        drawn.points[v] = p


def a_whole_side(draw, drawn):
    loop, i = corner_of(draw, drawn)
    return drawn.points[loop[i - 1]], drawn.points[loop[i]]


def move_anywhere(draw, drawn):
    move_to(drawn, inner_vertex(draw, drawn),
            (draw.randrange(1, drawn.width), draw.randrange(1, drawn.height)))


def move_into_loop(draw, drawn):
    move_to(drawn, inner_vertex(draw, drawn), in_loop(draw, drawn))


def move_onto_edge(draw, drawn):
    a, b = a_whole_side(draw, drawn)
    steps = gcd(b[0] - a[0], b[1] - a[1])
    t = draw.randrange(steps)
    move_to(drawn, inner_vertex(draw, drawn),
            (a[0] + (b[0] - a[0]) // steps * t, a[1] + (b[1] - a[1]) // steps * t))


def move_beside_edge(draw, drawn):
    """As near to an edge as can be: of a loop's own corners, to the other side of it."""
    loop = draw.choice(drawn.loops)
    a, b, v = turned_from(loop, draw.choice(loop))[:3]
    if draw.randrange(2):
        v = inner_vertex(draw, drawn)
    if v is not None and v >= 4:
        move_to(drawn, v, next_to(draw, drawn.points[b], drawn.points[a]))


def change_two(draw, drawn):
    if drawn.inner() > 1:
        v, w = draw.sample(range(4, len(drawn.points)), 2)
        drawn.points[v], drawn.points[w] = drawn.points[w], drawn.points[v]


def over_an_ear(draw, drawn):
    """A new vertex within an ear of a loop, as a triangle with the ear's other side, and its
    reverse: these turn both ways, over a loop that stays."""
    loop, i = corner_of(draw, drawn)
    if len(loop) == 3 or drawn.inner() == MOST_INNER or not is_ear(drawn.points, loop, i):
        return
    a, b, c = triangle_at(loop, i)
    at = [drawn.points[v] for v in (a, b, c)]
    low, high = ([f(p[i] for p in at) for i in (0, 1)] for f in (min, max))
    for _ in range(20):
        p = draw.randint(low[0], high[0]), draw.randint(low[1], high[1])
        if is_inside(at, p):
            drawn.points.append(p)
            both_ways(draw, drawn, [a, c, len(drawn.points) - 1])
            break


# The ways to break each rule.
WAYS = {13: (drop_loop, list_again, drop_corner, add_corner, add_vertex, drop_vertex),
        14: (onto_another,), 15: (corner_twice,), 16: (turn_round, in_place_of_another),
        17: (other_corner,), 18: (left_out,),
        19: (move_anywhere, move_into_loop, move_onto_edge, move_beside_edge, change_two),
        20: (over_an_ear,)}


def broken(draw, drawn, rule, tries=12):
    """A copy with one change, of which this rule is told; None where none is found."""
    for _ in range(tries):
        copy = deepcopy(drawn)
        copy.numerals = []  # as many as there are loops, of which some come and go
        draw.choice(WAYS[rule])(draw, copy)
        changed = (copy.points, copy.loops) != (drawn.points, drawn.loops)
        if changed and earned(copy.file()) == rule:
            return copy
    return None


def byte_changed(draw, data, most=256):
    place = draw.randrange(len(data))
    return data[:place] + bytes([draw.randrange(most)]) + data[place + 1:]


def byte_moved(draw, data):
    """A byte one lower or higher, or with its highest bit turned."""
    place = draw.randrange(len(data))
    byte = draw.choice((data[place] + 1, data[place] - 1, data[place] ^ 128)) % 256
    return data[:place] + bytes([byte]) + data[place + 1:]


def byte_inserted(draw, data):
    place = draw.randint(0, len(data))
    return data[:place] + bytes([draw.choice((0, 1, 127, 128, draw.randrange(256)))]) + data[place:]


def byte_removed(draw, data):
    place = draw.randrange(len(data))
    return data[:place] + data[place + 1:]


def cut_off(draw, data):
    return data[:draw.randrange(len(data))]


def longer(draw, data):
    return data + bytes([draw.randrange(256)])


DAMAGES = (byte_changed, byte_moved, byte_inserted, byte_removed, cut_off, longer)


def a_number(draw, parts):
    """The name and the bytes of a field that is a number."""
    return draw.choice([(name, data) for name, data in parts if not name.startswith("wording")])


def spelled_longer(draw, parts):
    """A number with one or two groups of 0 behind it, or with more groups than three."""
    name, data = a_number(draw, parts)
    spelled = data[:-1] + bytes([data[-1] | 128])
    more = draw.choice(([0], [128, 0], [128, 128], [128, 128, 0], [255, 255, 127]))
    return put(parts, name, spelled + bytes(more))


def other_number(draw, parts):
    """A number at or past some limit in the place of another."""
    name, _ = a_number(draw, parts)
    value = draw.choice((0, 1, 2, 3, 63, 64, 127, 128, 255, 256, 1024, 1025, 2050, 2051, 6150,
                         6151, 8191, 8192, 16383, 16384, 2097151))
    return put(parts, name, number(value))


def field_dropped(draw, parts):
    name, _ = draw.choice(parts)
    return put(parts, name, b"")


def field_twice(draw, parts):
    name, data = draw.choice(parts)
    return put(parts, name, data + data)


def fields_changed(draw, parts):
    """Two fields, each in the place of the other."""
    (one, first), (other, second) = draw.choice(parts), draw.choice(parts)
    new = {one: second, other: first}
    return join([(name, new.get(name, data)) for name, data in parts])


def label_again(draw, parts):
    """A label of the numeral of another one."""
    labels = [(name, data) for name, data in parts if name.startswith("label") and name != "labels"]
    if len(labels) < 2:
        return join(parts)
    (name, _), (_, data) = draw.sample(labels, 2)
    return put(parts, name, data)


def ends_in(draw, parts):
    """The file ends within a field or right behind one."""
    name, data = draw.choice(parts)
    return upto(parts, name) + data[:draw.randint(0, len(data))]


def rest_of(draw, parts):
    """The edition, and then the file from some field on."""
    return parts[0][1] + after(parts, draw.choice(parts)[0])


FIELD_DAMAGES = (spelled_longer, spelled_longer, other_number, other_number, field_dropped,
                 field_twice, fields_changed, label_again, ends_in, rest_of)


def at_limits(draw):
    """A file of which each count is at its limit, or near it on either side; what it draws is
    no matter."""
    inner = 1024 + draw.choice((0, 0, 0, -1, 1))
    points = [(draw.randrange(1, 8191), draw.randrange(1, 8191)) for _ in range(inner)]
    sizes = [3] * (2050 + draw.choice((0, 0, 0, -1, 1)))
    # Corners of some loops are given to others, then a few more or less.
    for _ in range(draw.choice((0, 0, 5, 300))):
        i = draw.randrange(len(sizes))
        sizes[i - 1] += sizes.pop(i)
    sizes[draw.randrange(len(sizes))] += draw.choice((0, 0, -1, 1))
    loops = [(draw.randrange(256), [draw.randrange(inner + 4) for _ in range(k)]) for k in sizes]
    numerals = draw.sample(range(1, 256), 255 - draw.randrange(2))
    labels = [(m, b"a" * draw.randint(1, 63)) for m in numerals]
    if draw.randrange(4) == 0:
        labels.append((draw.choice((1, 256)), b"more"))
    return file(8191, 8191, points, loops, labels)


def damaged(draw, drawn):
    """The file of a sketch with one thing wrong, mostly; the reference says what."""
    if draw.randrange(2):
        return draw.choice(DAMAGES)(draw, drawn.file())
    return draw.choice(FIELD_DAMAGES)(draw, drawn.fields())
