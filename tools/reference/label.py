"""What `label` tells, from docs/LABEL.md and docs/REFUSALS.md.

`printed` gives what it writes to standard output and to standard error, its exit status, and what it draws.
"""

import csv
import io
import json
import os
import re

from board import Board
from rules import drawing, sheet_edges, touch
from sheetfile import Refusal, read

DOCS = os.path.join(os.path.dirname(os.path.abspath(__file__)), "..", "..", "docs")
LAYERS = {1: "file", 2: "check", 3: "build", 4: "place", 5: "store"}

# A line of tips has no more bytes than this.
MOST_LINE = 1000
MOST = {"x": 2**16 - 1, "X": 2**64 - 1, "Z": 2**32 - 1}


def sentences():
    """The sentence of each refusal, from the tables of docs/REFUSALS.md."""
    with open(os.path.join(DOCS, "REFUSALS.md"), encoding="utf-8") as file:
        rows = [re.split(r" *\| *", line.strip().strip("|").strip()) for line in file if re.match(r"\| \d+ \| [A-Z]", line)]
    return {int(row[0]): row[-1] for row in rows}


SENTENCES = sentences()


def told(refusal, place=None):
    place = refusal.place if place is None else place
    return (f"refusal {refusal.number}, layer {refusal.layer} ({LAYERS[refusal.layer]}), place {place}: "
            f"{SENTENCES[refusal.number]}")


# ---- what clashes


def spot(d, v):
    return "{} at ({}, {})".format(v, *d.points[v])


def line(d, edge):
    return f"from {spot(d, edge[0])} to {spot(d, edge[1])}"


def clash(d, refusal):
    """What clashes, in words, behind the refusal of a rule."""
    place = refusal.place
    if refusal.number == 13:
        corners = sum(map(len, d.loops))
        return (f" ({len(d.loops)} loops of {corners} corners make {max(corners - 2 * len(d.loops), 0)} triangles,"
                f" and {2 * (len(d.points) - 4) + 2} are wanted)")
    if refusal.number == 14:
        return f" (vertices {d.points.index(d.points[place])} and {spot(d, place)})"
    if refusal.number == 15:
        loop = d.loops[place]
        twice = next(v for i, v in enumerate(loop) if v in loop[:i])
        return f" (loop {place} names vertex {spot(d, twice)} twice)"
    if refusal.number == 16:
        edge = d.edges[place]
        return f" (the edge {line(d, edge)} is listed at {d.edges.index(edge)} and at {place})"
    if refusal.number == 17:
        return f" (nothing is listed against the edge {line(d, d.edges[place])})"
    if refusal.number == 18:
        return f" (vertex {spot(d, place)})"
    if refusal.number == 19:
        edges = sheet_edges(d)
        first = next(e for e in edges[:place] if touch(d.points, e, edges[place]))
        return f" (the edge {line(d, first)} and the edge {line(d, edges[place])})"
    if refusal.number == 20:
        return f" (loop {place}, which begins at vertex {spot(d, d.loops[place][0])})"
    return ""


# ---- the tips


FRACTION = re.compile(rb"(?:[0-9]+[.,/][0-9]*|[.,/][0-9]+)")


def no_number(word, position):
    """What is wrong with a word that spells no whole number."""
    if FRACTION.fullmatch(word):
        return f"number {position} is a fraction; write X Y Z for the point (X/Z, Y/Z)"
    if word.startswith(b"-") and (FRACTION.fullmatch(word[1:]) or re.fullmatch(rb"[0-9]+", word[1:])):
        return f"number {position} is negative; no tip on a sheet has one below 0"
    return f"word {position} is not a whole number"


def number(word, position, most):
    """The number that a word spells, or what is wrong with it."""
    digits = word[1:] if word.startswith(b"+") else word
    value = 0
    for digit in digits:
        if not 48 <= digit <= 57:
            return no_number(word, position)
        value = 10 * value + digit - 48
        if value > most:
            return f"number {position} is too large; {most} is the most here"
    return value if digits else no_number(word, position)


def tip_of(text):
    """The tip of a line, None where it has none, or what is wrong with it."""
    text = text.split(b"#")[0]
    if len(text) > MOST_LINE:
        return "it is longer than 1,000 bytes"
    try:
        text.decode()
    except UnicodeDecodeError:
        return "it is not plain text"
    words = re.split(rb"[ \t\n\f\r]+", text.strip(b" \t\n\f\r"))
    if words == [b""]:
        return None
    if len(words) == 1:
        return "too few numbers; a tip has two or three"
    if len(words) > 3:
        return "too many numbers; a tip has two or three"
    limits = [MOST["x"]] * 2 if len(words) == 2 else [MOST["X"], MOST["X"], MOST["Z"]]
    found = [number(word, i, most) for i, (word, most) in enumerate(zip(words, limits), 1)]
    wrong = [it for it in found if isinstance(it, str)]
    return wrong[0] if wrong else tuple(found)


def lines_of(tips):
    lines = tips.split(b"\n")
    return lines if lines[-1] != b"" else lines[:-1]


def counted(count, one, many):
    return f"{count} {one if count == 1 else many}"


COLUMNS = ["line", "place", "tip", "kind", "vertex", "second_vertex", "loop", "numeral", "wording", "tests",
           "refusal", "layer", "refusal_place", "sentence"]
PART_COLUMNS = ["loop", "numeral", "wording", "corners"]


class Label:
    """A sealed sheet, and what is told of it: rows, the lines of the table, and the marks of the picture."""

    def __init__(self, board, sheet):
        self.board, self.sheet, self.rows, self.lines, self.marks = board, sheet, [], [], []
        used = {loop.numeral for loop in sheet.loops}
        self.words = {numeral: text.decode("ascii") for numeral, (_, text) in sheet.labels.items() if numeral in used}
        self.room = max([7, *map(len, self.words.values())])
        self.kinds, self.tests, self.refused, self.bad, self.position = {1: 0, 2: 0, 3: 0}, [], 0, 0, 0

    def numeral(self, loop):
        """The numeral of a loop and its wording, each None where there is none."""
        numeral = self.sheet.loops[loop].numeral or None
        return numeral, self.words.get(numeral)

    def take_tips(self, tips):
        """The answers of tips."""
        for i, text in enumerate(lines_of(tips), 1):
            tip = tip_of(text)
            if isinstance(tip, str):
                self.bad += 1
                self.lines.append(f"{i:>4}      -  bad line: {tip}")
                self.row(line=i, kind="bad line", sentence=tip)
            elif tip is not None:
                self.take_tip(i, tip)
                self.position += 1

    def row(self, **told):
        self.rows.append([told.get(name) for name in COLUMNS])

    def take_tip(self, line, tip):
        kernel = "whole" if len(tip) == 2 else "rational"
        shown, place = " ".join(map(str, tip)), self.position
        point = tip if len(tip) == 3 else (*tip, 1)
        found = self.board.place(kernel, point)
        front = f"{line:>4}  {place:>5}  {shown:<15}  "
        if isinstance(found, Refusal):
            self.refused += 1
            self.lines.append(front + told(found, place))
            self.row(line=line, place=place, tip=shown, kind="refused", refusal=found.number, layer=found.layer,
                     refusal_place=place, sentence=SENTENCES[found.number])
            if found.number == 26:
                self.marks.append((point, 0, f"line {line}, {shown}: {told(found, place)}", "refused 26"))
            return
        (kind, a, b), count = found
        self.kinds[kind] += 1
        self.tests.append(count)
        name = {1: f"vertex {a}", 2: f"edge {a}-{b}", 3: f"face of loop {a}"}[kind]
        numeral, words = self.numeral(a) if kind == 3 else (None, None)
        self.lines.append(f"{front}{name:<17}  {numeral or '-':>7}  {words or '-':<{self.room}}  {count:>5}")
        cell = {1: {"kind": "vertex", "vertex": a}, 2: {"kind": "edge", "vertex": a, "second_vertex": b},
                3: {"kind": "face", "loop": a}}[kind]
        self.row(line=line, place=place, tip=shown, numeral=numeral, wording=words, tests=count, **cell)
        self.marks.append((point, kind, f"line {line}, {shown}: {name}, {count} tests", a if kind == 3 else name))

    def take_parts(self):
        """The parts list."""
        for i, loop in enumerate(self.sheet.loops):
            numeral, words = self.numeral(i)
            corners = " ".join(str(a) for a, _ in self.sheet.edges[loop.start:loop.start + loop.corners])
            self.lines.append(f"{i:>4}  {numeral or '-':>7}  {words or '-':<{self.room}}  {corners}")
            self.rows.append([i, numeral, words, corners])

    def table(self, has_tips, stats):
        """All lines of the table."""
        sheet = self.sheet
        out = [f"sheet {sheet.width} x {sheet.height}: {sheet.inner} inner vertices, {len(sheet.loops)} loops, "
               f"{sheet.corners} corners"]
        if not has_tips:
            out.append("in order: it keeps the eight rules")
        out.append(f"layered: {len(self.board.nodes)} nodes in {self.board.rounds} rounds")
        if has_tips:
            out.append(f"line  place  {'tip':<15}  {'cell':<17}  numeral  {'wording':<{self.room}}  tests")
        else:
            out.append(f"loop  numeral  {'wording':<{self.room}}  corners")
        out += self.lines
        if stats:
            out.append(self.cost())
        if has_tips:
            out.append(f"{counted(self.position, 'tip', 'tips')}: {counted(self.kinds[3], 'in a face', 'in faces')}, "
                       f"{counted(self.kinds[2], 'on an edge', 'on edges')}, "
                       f"{counted(self.kinds[1], 'at a vertex', 'at vertices')}, "
                       f"{self.refused} refused; {counted(self.bad, 'bad line', 'bad lines')}")
        return "\n".join(out) + "\n"

    def cost(self):
        tests, mean = self.tests, "-"
        if tests:
            hundredths = (100 * sum(tests) + len(tests) // 2) // len(tests)
            mean = f"{hundredths // 100}.{hundredths % 100:02}"
        return (f"nodes {len(self.board.nodes)}, rounds {self.board.rounds}, "
                f"worst tests {max(tests, default='-')}, mean tests {mean}")

    def csv(self, has_tips):
        out = io.StringIO()
        writer = csv.writer(out, lineterminator="\n")
        writer.writerow(COLUMNS if has_tips else PART_COLUMNS)
        writer.writerows(self.rows)
        return out.getvalue()

    def json(self, has_tips):
        """The document as it is parsed."""
        sheet = self.sheet
        names = COLUMNS if has_tips else PART_COLUMNS
        document = {"sheet": {"width": sheet.width, "height": sheet.height, "inner_vertices": sheet.inner,
                              "loops": len(sheet.loops), "corners": sheet.corners, "nodes": len(self.board.nodes),
                              "rounds": self.board.rounds},
                    "tips" if has_tips else "loops": [dict(zip(names, row)) for row in self.rows]}
        if has_tips:
            document["counts"] = {"tips": self.position, "in_faces": self.kinds[3], "on_edges": self.kinds[2],
                                  "at_vertices": self.kinds[1], "refused": self.refused, "bad_lines": self.bad,
                                  "all_tests": sum(self.tests), "worst_tests": max(self.tests, default=0)}
        return json.dumps(document)

    def drawn(self):
        """What the picture shows, in pixels from its left and its top: faces, edges, marks, and of each face with a
        numeral its number, its words, and the pixels of the tips in it; the board to ask of other points."""
        longer, height = max(self.sheet.width, self.sheet.height), self.sheet.height

        def at(x, y, z=1):
            unit = z * longer
            left, top = 1000 * x + 125 * unit, max(1000 * height * z + 125 * unit - 1000 * y, 0)
            return tuple(f"{t // 100}.{t % 100:02}" for t in ((100 * v + unit // 2) // unit for v in (left, top)))

        points = [at(x, y) for x, y in self.sheet.points]
        faces = [[points[a] for a, _ in self.sheet.edges[loop.start:loop.start + loop.corners]] for loop in self.sheet.loops]
        edges = sorted({tuple(sorted((points[a], points[b]))) for a, b in self.sheet.edges})
        marks = [(kind, title, at(*point)) for point, kind, title, _ in self.marks]
        return faces, edges, marks


def sealed(data):
    """A board with the sheet of a file, sealed; or the refusal that the file earns, and a board."""
    board = Board()
    refusal = board.load(data) or board.check() or board.cut()
    while refusal is None and board.seal() is not None:
        made = board.round()
        refusal = made if isinstance(made, Refusal) else None
    return board, refusal


def printed(data, tips=None, form="table", stats=False, strict=False):
    """What is printed, and the status; and the Label, or None."""
    board, refusal = sealed(data)
    if refusal is not None:
        words = clash(drawing(*board.held()), refusal) if refusal.layer == 2 else ""
        return ("", f"label: {told(refusal)}{words}\n", 1), None
    label = Label(board, read(data))
    if tips is None:
        label.take_parts()
    else:
        label.take_tips(tips)
    has_tips = tips is not None
    said = {"table": lambda: label.table(has_tips, stats), "csv": lambda: label.csv(has_tips),
            "json": lambda: label.json(has_tips)}[form]()
    if strict and label.refused + label.bad > 0:
        return (said, f"label: {label.refused} refused, {label.bad} bad: status 1, since --strict is given\n", 1), label
    return (said, "", 0), label
