"""Finds what in the tables of a loaded sheet no load can have left there (27).

Points are looked at first, then loops, then edges; in each the lowest entry
that is wrong is told. A table that was altered into that of another sheet of
the same size and counts is not told: the rules see that other sheet.

On a Layered sheet it is the points, then the nodes and which of them are live.
"""

from layers import broken_fan
from sheetfile import OUTSIDE_EDGES


def bad_point(width, height, points):
    corners = [(0, 0), (width, 0), (width, height), (0, height)]
    for v, (x, y) in enumerate(points):
        inside = 0 < x < width and 0 < y < height
        if not (inside if v >= 4 else (x, y) == corners[v]):
            return v
    return None


def bad_loop(vertices, corners, loops):
    before = 0
    for i, (numeral, start, k) in enumerate(loops):
        fits = numeral <= 255 and start == before and 3 <= k <= vertices
        before += k
        if not fits or before > corners:
            return i
    return None if before == corners else len(loops)


def bad_edge(vertices, corners, loops, edges):
    for _, start, k in loops:
        own = edges[start:start + k]
        for j, (a, b) in enumerate(own):
            if a >= vertices or b != own[(j + 1) % k][0]:
                return start + j
    for j, edge in enumerate(OUTSIDE_EDGES, corners):
        if edges[j] != edge:
            return j
    return None


def first_altered(width, height, points, edges, loops):
    """The first entry that is wrong, or None; the tables up to their counts."""
    vertices, corners = len(points), len(edges) - 4
    place = bad_point(width, height, points)
    if place is None:
        place = bad_loop(vertices, corners, loops)
    if place is None:
        place = bad_edge(vertices, corners, loops, edges)
    return place


def bad_live(nodes, live):
    """The first entry that does not ascend or names no node."""
    for i, number in enumerate(live):
        if number >= len(nodes) or i > 0 and number <= live[i - 1]:
            return i
    return None


def first_altered_layers(inner, nodes, live, sheet=None):
    """The first entry or node that is wrong, or None.

    A round also gives the sheet, as width, height and points; then the points
    are looked at before, and the fans of the vertices that are left after.
    """
    place = None if sheet is None else bad_point(*sheet)
    if place is None and len(nodes) > 8 * inner + 2:
        place = 8 * inner + 2
    if place is None:
        place = bad_live(nodes, live)
    if place is None:
        place = next((number for number in live
                      if max(nodes[number].corners) >= inner + 4), None)
    if place is None and sheet is not None:
        place = broken_fan(nodes, live)
    return place
