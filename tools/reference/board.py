"""A board: one sheet at its stage, and the turns that may be refused.

The order in which each turn tries its refusals is that of docs/REFUSALS.md
("Order"). Every turn gives a Refusal, or None when it is granted; a granted
round gives the list of the vertices it took out (those that no live node has
as a corner any more), a granted place the answer and the count of tests, a
granted list what place gives for each of its tips.
"""

import layers
from altered import first_altered, first_altered_layers
from cells import holding
from rules import drawing, first_broken
from sheetfile import FILE_LAYER, Refusal, read
from tips import fit, on_sheet
from walk import walked

CHECK_LAYER, BUILD_LAYER, PLACE_LAYER = 2, 3, 4

LEAST = {"points": 1028, "edges": 6154, "strokes": 3077, "loops": 2050,
         "live": 2050}

# What an entry of each table is when the table is new.
BLANK = {"points": (0, 0), "edges": (0, 0), "strokes": (0, 0),
         "loops": (0, 0, 0), "live": 0}

# How many nodes a store holds if nothing is said of it: the most of any sheet.
NODES = 8194


def digest(numbers):
    h = 0
    for v in numbers:
        h = (h * 31 + v) % 2**32
    return h


def flat(rows):
    return [v for row in rows for v in row]


class Board:
    """One sheet at its stage, over tables of given lengths and a store."""

    def __init__(self, lengths=LEAST, capacity=NODES):
        self.table = {name: [BLANK[name]] * lengths[name] for name in LEAST}
        self.capacity = capacity
        self.altered = False  # since the last granted check
        self.wipe()

    def wipe(self):
        self.stage = "Draft"
        self.width = self.height = self.inner = 0
        self.loops = self.corners = self.live = self.rounds = 0
        self.empty = True
        self.nodes = []

    def too_short(self, names):
        return any(len(self.table[name]) < LEAST[name] for name in names)

    def load(self, data):
        # Load is not lent the strokes, so their length does not matter.
        if self.too_short(["points", "edges", "loops", "live"]):
            return Refusal(12, FILE_LAYER, 0)
        if self.stage != "Draft":
            return Refusal(28, FILE_LAYER, 0)
        sheet = read(data)
        if isinstance(sheet, Refusal):
            return sheet
        # Only now is anything written: a refused load changes nothing.
        self.fill("points", sheet.points)
        self.fill("edges", sheet.edges)
        self.fill("loops", [(loop.numeral, loop.start, loop.corners)
                            for loop in sheet.loops])
        self.width, self.height = sheet.width, sheet.height
        self.inner, self.corners = sheet.inner, sheet.corners
        self.loops, self.live = len(sheet.loops), 0
        self.empty = False
        return None

    def fill(self, name, rows):
        self.table[name][:len(rows)] = rows

    def held(self):
        """The points, edges and loops up to their counts."""
        # An empty Draft has no vertices, not even the corners of a sheet.
        more = 0 if self.empty else 4
        return (self.table["points"][:self.inner + more],
                self.table["edges"][:self.corners + more],
                self.table["loops"][:self.loops])

    def live_nodes(self):
        return self.table["live"][:self.live]

    def check(self):
        if self.too_short(["points", "edges", "strokes", "loops"]):
            return Refusal(12, CHECK_LAYER, 0)
        if self.stage != "Draft" or self.empty:
            return Refusal(28, CHECK_LAYER, 0)
        entry = first_altered(self.width, self.height, *self.held())
        if entry is not None:
            return Refusal(27, CHECK_LAYER, entry)
        broken = first_broken(drawing(*self.held()))
        if broken is not None:
            number, place = broken
            return Refusal(number, CHECK_LAYER, place)
        # Whatever was altered before, what passed is a sheet.
        self.stage, self.altered = "Checked", False
        return None

    def cut(self):
        if self.too_short(["points", "edges", "loops", "live"]):
            return Refusal(12, BUILD_LAYER, 0)
        if self.stage != "Checked":
            return Refusal(28, BUILD_LAYER, 0)
        entry = first_altered(self.width, self.height, *self.held())
        needed = 2 * self.inner + 2
        if entry is None and self.corners - 2 * self.loops != needed:
            entry = self.loops
        if entry is not None:
            return Refusal(27, BUILD_LAYER, entry)
        if self.capacity < needed:
            return Refusal(22, BUILD_LAYER, needed)
        self.nodes = []
        nodes = layers.bottom_nodes(drawing(*self.held()))
        if isinstance(nodes, int):
            return Refusal(21, BUILD_LAYER, nodes)
        self.keep(nodes, list(range(needed)))
        self.stage = "Layered"
        return None

    def keep(self, nodes, live):
        self.nodes, self.live = nodes, len(live)
        self.fill("live", live)

    def round(self):
        if self.too_short(["points", "live"]):
            return Refusal(12, BUILD_LAYER, 0)
        if self.stage != "Layered":
            return Refusal(28, BUILD_LAYER, 0)
        points, live = self.held()[0], self.live_nodes()
        entry = first_altered_layers(self.inner, self.nodes, live,
                                     (self.width, self.height, points))
        if entry is not None:
            return Refusal(27, BUILD_LAYER, entry)
        left = len(layers.spokes(self.nodes, live))
        if left == 0:
            return Refusal(24, BUILD_LAYER, 0)
        found = layers.chosen(points, self.nodes, live)
        if 18 * len(found) < left:
            return Refusal(21, BUILD_LAYER, self.rounds + 1)
        after = layers.take_out(self.nodes, live, found)
        if self.capacity < len(after[0]):
            return Refusal(22, BUILD_LAYER, len(after[0]))
        self.keep(*after)
        self.rounds += 1
        # In a node that was altered, a vertex may be a noted corner of itself;
        # then it is a corner of the new nodes too.
        left = layers.spokes(self.nodes, self.live_nodes())
        return [v for v in found if v not in left]

    def seal(self):
        if self.too_short(["live"]):
            return Refusal(12, BUILD_LAYER, 0)
        if self.stage != "Layered":
            return Refusal(28, BUILD_LAYER, 0)
        live = self.live_nodes()
        # Seal is lent no points and does not look at fans.
        entry = first_altered_layers(self.inner, self.nodes, live)
        if entry is not None:
            return Refusal(27, BUILD_LAYER, entry)
        left = len(layers.spokes(self.nodes, live))
        if left > 0:
            return Refusal(23, BUILD_LAYER, left)
        if len(live) != 2:
            return Refusal(27, BUILD_LAYER, len(live))
        self.stage = "Sealed"
        return None

    def place(self, kernel, tip, position=0):
        if self.too_short(["points", "live"]):
            return Refusal(12, PLACE_LAYER, 0)
        if self.stage != "Sealed":
            return Refusal(28, PLACE_LAYER, 0)
        if not fit(kernel, tip):
            return Refusal(25, PLACE_LAYER, position)
        if not on_sheet(tip, self.width, self.height):
            return Refusal(26, PLACE_LAYER, position)
        found = walked(self.width, self.height, self.held()[0], self.nodes,
                       self.live_nodes(), self.loops, tip)
        self.compare(tip, found)
        return Refusal(27, PLACE_LAYER, found) if isinstance(found, int) else found

    def list(self, kernel, tips, entries):
        """What place gives for each tip, in order; refused where a table of
        answers of so many entries, or another table, is too short."""
        if self.too_short(["points", "live"]) or entries < len(tips):
            return Refusal(12, PLACE_LAYER, 0)
        if self.stage != "Sealed":
            return Refusal(28, PLACE_LAYER, 0)
        return [self.place(kernel, tip, i) for i, tip in enumerate(tips)]

    def compare(self, tip, found):
        """One cell alone holds the tip, and the walk told that one."""
        if self.altered:
            return
        cells = holding(drawing(*self.held()), tip)
        if isinstance(found, int) or cells != [found[0]]:
            raise SystemExit(f"tip {tip}: the walk tells {found}, held by {cells}")

    def alter(self, name, entry, row):
        """The caller changes an entry; whether there is such an entry."""
        table = self.table.get(name)
        if entry >= (self.capacity if table is None else len(table)):
            return False
        self.altered = True
        if table is not None:
            table[entry] = row[0] if name == "live" else tuple(row)
        elif entry < len(self.nodes):
            # Past the nodes there is memory that no turn reads.
            self.nodes[entry] = layers.node_of(row)
        return True

    def tables(self):
        points, edges, loops = self.held()
        return (f"{self.width} {self.height} {self.inner} {self.loops} "
                f"{self.corners} {self.live} points {digest(flat(points))} "
                f"edges {digest(flat(edges))} loops {digest(flat(loops))}")
