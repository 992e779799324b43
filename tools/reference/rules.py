"""The eight rules of a sheet, 13 to 20 of docs/REFUSALS.md ("Layer 2: check").

Every rule is a function of a Drawing that gives the first place where it is
broken, or None. Coordinates are whole numbers and so is everything made of
them here, so nothing is rounded.
"""

from dataclasses import dataclass
from math import gcd


@dataclass
class Drawing:
    points: list  # (x, y) by vertex number, the four corners of the sheet first
    edges: list  # (from, to) by position, the four outside edges last
    loops: list  # the corners of each loop


def drawing(points, edges, loops):
    """The Drawing that tables hold; loops has (numeral, start, corners)."""
    return Drawing(points, edges,
                   [[a for a, _ in edges[start:start + k]]
                    for _, start, k in loops])


def first(places):
    return next(iter(places), None)


def loop_sum(d):
    inner = len(d.points) - 4
    return None if sum(len(c) - 2 for c in d.loops) == 2 * inner + 2 else 0


def first_repeat(things):
    """The first index whose thing stands at a lower index as well."""
    seen = {}
    return first(i for i, x in enumerate(things) if seen.setdefault(x, i) < i)


def same_point(d):
    return first_repeat(d.points)


def vertex_twice(d):
    return first(i for i, c in enumerate(d.loops) if len(set(c)) < len(c))


def edge_twice(d):
    return first_repeat(d.edges)


def no_reverse(d):
    listed = set(d.edges)
    return first(i for i, (a, b) in enumerate(d.edges)
                 if (b, a) not in listed)


def vertex_unused(d):
    used = {v for corners in d.loops for v in corners}
    return first(v for v in range(4, len(d.points)) if v not in used)


def sheet_edges(d):
    """The edges of the sheet: those whose reverse was not listed before."""
    seen, found = set(), []
    for a, b in d.edges:
        if (b, a) not in seen:
            found.append((a, b))
        seen.add((a, b))
    return found


def heading(a, b):
    """The direction from a to b, in the smallest whole numbers."""
    dx, dy = b[0] - a[0], b[1] - a[1]
    unit = gcd(dx, dy) or 1
    return dx // unit, dy // unit


def cross(u, v):
    return u[0] * v[1] - u[1] * v[0]


def minus(a, b):
    return a[0] - b[0], a[1] - b[1]


def meet(p, q, r, s):
    """Whether the segments pq and rs share a point.

    Solves p + t (q - p) = r + u (s - r) for t and u, as fractions over one
    denominator. Parallel segments meet only on one line; there they are
    ordered, and meet unless one ends before the other begins.
    """
    along, other, between = minus(q, p), minus(s, r), minus(r, p)
    below = cross(along, other)
    if below == 0:
        if cross(between, along) != 0:
            return False
        return max(min(p, q), min(r, s)) <= min(max(p, q), max(r, s))
    t, u = cross(between, other), cross(between, along)
    if below < 0:
        below, t, u = -below, -t, -u
    return 0 <= t <= below and 0 <= u <= below


def touch(points, e, f):
    """Whether two edges of the sheet clash.

    Two that leave a common vertex do if they have the same direction there:
    then the end of the shorter one lies on the longer one.
    """
    common = set(e) & set(f)
    if not common:
        return meet(*(points[v] for v in e + f))
    v = common.pop()
    ahead = [heading(points[v], points[a if b == v else b]) for a, b in (e, f)]
    return ahead[0] == ahead[1]


def edges_touch(d):
    edges = sheet_edges(d)
    boxes = []
    for j, (a, b) in enumerate(edges):
        (x1, x2), (y1, y2) = map(sorted, zip(d.points[a], d.points[b]))
        # Only edges whose boxes meet can meet.
        near = [edges[i] for i, (l, r, low, high) in enumerate(boxes)
                if l <= x2 and x1 <= r and low <= y2 and y1 <= high]
        if any(touch(d.points, e, edges[j]) for e in near):
            return j
        boxes.append((x1, x2, y1, y2))
    return None


def loop_turned(d):
    return first(i for i, c in enumerate(d.loops) if twice_area(d, c) <= 0)


def twice_area(d, corners):
    """Twice the signed area: the strips between each edge and the y axis."""
    at = [d.points[v] for v in corners]
    return sum((x1 - x2) * (y1 + y2)
               for (x1, y1), (x2, y2) in zip(at, at[1:] + at[:1]))


RULES = [(13, loop_sum), (14, same_point), (15, vertex_twice), (16, edge_twice),
         (17, no_reverse), (18, vertex_unused), (19, edges_touch),
         (20, loop_turned)]


def first_broken(d):
    """The number of the first rule that is broken with its place, or None."""
    for number, rule in RULES:
        place = rule(d)
        if place is not None:
            return number, place
    return None


def all_broken(d):
    """The numbers of all rules that are broken, each tried by itself."""
    return [number for number, rule in RULES if rule(d) is not None]
