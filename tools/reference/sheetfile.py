"""A reader of sheet files, as docs/FORMAT.md and docs/REFUSALS.md describe them.

It shares no code with the proved core and is meant to be read in one
sitting: a plain index into the bytes, and an exception at the first fault.
"""

from dataclasses import dataclass, field

FILE_LAYER = 1

MOST_INNER = 1024
MOST_LOOPS = 2050
MOST_CORNERS = 6150
MOST_LABELS = 255
OUTSIDE_EDGES = [(1, 0), (2, 1), (3, 2), (0, 3)]

VERTEX, EDGE, FACE = 1, 2, 3


class Refusal(Exception):
    """A refusal: its number, its layer, its place."""

    def __init__(self, number, layer, place):
        super().__init__(number, layer, place)
        self.number = number
        self.layer = layer
        self.place = place


@dataclass
class Loop:
    numeral: int
    start: int  # position in the edge list of the loop's first edge
    corners: int  # how many corners it has, its k


@dataclass
class Sheet:
    width: int = 0
    height: int = 0
    inner: int = 0
    corners: int = 0
    points: list = field(default_factory=list)  # (x, y) by vertex number
    edges: list = field(default_factory=list)  # (from, to) by position
    loops: list = field(default_factory=list)  # Loop by loop number
    labels: dict = field(default_factory=dict)  # numeral -> (place, bytes)


class Reader:
    """Walks over the bytes of one file; `at` is the next byte to read."""

    def __init__(self, data):
        self.data = data
        self.at = 0
        self.sheet = Sheet()

    def refuse(self, number, place):
        raise Refusal(number, FILE_LAYER, place)

    def byte(self):
        if self.at == len(self.data):
            self.refuse(1, len(self.data))
        self.at += 1
        return self.data[self.at - 1]

    def number(self):
        """Reads a number; gives its value and the place of its first byte."""
        place = self.at
        value = 0
        for group in range(3):
            byte = self.byte()
            value += (byte % 128) << (7 * group)
            if byte < 128:
                if byte == 0 and group > 0:
                    self.refuse(2, place)
                return value, place
        self.refuse(2, place)  # the third group says that a fourth follows

    def number_in(self, lowest, highest, number):
        """Reads a number that has to lie in a range; gives its value."""
        value, place = self.number()
        if not lowest <= value <= highest:
            self.refuse(number, place)
        return value

    def file(self):
        sheet = self.sheet
        self.number_in(1, 1, 3)  # edition
        sheet.width = self.number_in(2, 8191, 4)
        sheet.height = self.number_in(2, 8191, 4)
        sheet.inner = self.number_in(0, MOST_INNER, 5)
        w, h = sheet.width, sheet.height
        sheet.points = [(0, 0), (w, 0), (w, h), (0, h)]
        for _ in range(sheet.inner):
            self.inner_vertex()
        for _ in range(self.number_in(0, MOST_LOOPS, 5)):
            self.loop()
        sheet.edges += OUTSIDE_EDGES
        for _ in range(self.number_in(0, MOST_LABELS, 5)):
            self.label()
        if self.at < len(self.data):
            self.refuse(11, self.at)
        return sheet

    def inner_vertex(self):
        x, place = self.number()
        if not 0 < x < self.sheet.width:
            self.refuse(6, place)  # before y is looked at
        y, _ = self.number()
        if not 0 < y < self.sheet.height:
            self.refuse(6, place)  # told at x as well
        self.sheet.points.append((x, y))

    def loop(self):
        sheet = self.sheet
        numeral = self.number_in(0, 255, 9)
        k, place = self.number()
        if sheet.corners + k > MOST_CORNERS:
            self.refuse(5, place)  # of two faults at one byte, the lower number
        if not 3 <= k <= sheet.inner + 4:
            self.refuse(7, place)
        named = [self.number_in(0, sheet.inner + 3, 8) for _ in range(k)]
        sheet.loops.append(Loop(numeral, sheet.corners, k))
        sheet.edges += zip(named, named[1:] + named[:1])
        sheet.corners += k

    def label(self):
        numeral, place = self.number()
        if not 1 <= numeral <= 255 or numeral in self.sheet.labels:
            self.refuse(9, place)
        length = self.number_in(1, 63, 10)
        first = self.at
        for _ in range(length):
            if not 32 <= self.byte() <= 126:
                self.refuse(10, self.at - 1)
        self.sheet.labels[numeral] = (first, self.data[first:self.at])


def read(data):
    """The Sheet that the bytes describe, or the Refusal they earn."""
    try:
        return Reader(data).file()
    except Refusal as refusal:
        return refusal


def wording(data, kind, a, b):
    """The wording of an answer: (place, bytes), or None, or a Refusal.

    The answers: VERTEX a; EDGE a b; FACE of loop a.
    """
    sheet = read(data)
    if isinstance(sheet, Refusal):
        return sheet
    if kind != FACE or a >= len(sheet.loops):
        return None
    # No label has numeral 0, so a loop without a numeral finds none.
    return sheet.labels.get(sheet.loops[a].numeral)
