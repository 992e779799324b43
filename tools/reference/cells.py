"""Which cells of a sheet hold a tip, by the definition of a cell alone.

Written from docs/GLOSSARY.md (cell, edge of the sheet, face, crossing sum): of
each vertex, each edge and each loop it is asked whether it holds the tip. It
knows of no nodes. The sheet is made Z times as large, so that a tip (X, Y, Z)
is at the whole point (X, Y), and nothing is rounded.
"""

from rules import cross, minus, sheet_edges
from sheetfile import EDGE, FACE, VERTEX


def is_between(p, a, b):
    """Whether p is on the segment from a to b, its ends included."""
    return (cross(minus(b, a), minus(p, a)) == 0 and
            min(a, b) <= p <= max(a, b))


def crossing_sum(ring, p):
    """The edges that go up past p with p on their left, less those that go
    down past it with p on their right."""
    total = 0
    for a, b in zip(ring, ring[1:] + ring[:1]):
        if a[1] <= p[1] < b[1] and cross(minus(b, a), minus(p, a)) > 0:
            total += 1
        if b[1] <= p[1] < a[1] and cross(minus(b, a), minus(p, a)) < 0:
            total -= 1
    return total


def holding(drawing, tip):
    """All cells that hold the tip, each as an answer of three numbers."""
    x, y, z = tip
    p = x, y
    at = [(z * px, z * py) for px, py in drawing.points]
    found = [(VERTEX, v, 0) for v, q in enumerate(at) if q == p]
    touched = [(a, b) for a, b in sheet_edges(drawing)
               if is_between(p, at[a], at[b])]
    found += [(EDGE, min(e), max(e)) for e in touched
              if p not in (at[e[0]], at[e[1]])]
    if not touched:
        found += [(FACE, number, 0) for number, ring in enumerate(drawing.loops)
                  if crossing_sum([at[v] for v in ring], p) == 1]
    return found
