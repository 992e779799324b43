"""Notes down a script of turns while the reference plays it."""

import os
import sys

sys.path.insert(0, os.path.join(os.path.dirname(__file__), "reference"))

from play import Player
from rules import all_broken, drawing, first_broken
from sheetfile import Refusal, read
from sheets import SPRING_FIELDS, number, put, upto

# One field of every kind, by its name in the spring file.
KINDS = ["edition", "W", "H", "n", "x4", "y4", "loops", "numeral0", "k0",
         "corner0.0", "labels", "label0", "length0"]

# What `tables` prints for an empty Draft.
NOTHING = "ok 0 0 0 0 0 0 points 0 edges 0 loops 0"


def at(name):
    """The place of a field of the spring file."""
    return len(upto(SPRING_FIELDS, name))


def spring(name, value):
    """The spring file with another number, or other bytes, in one field."""
    data = number(value) if isinstance(value, int) else bytes(value)
    return put(SPRING_FIELDS, name, data)


def cut(name, *values):
    """The spring file up to a field, then only these bytes."""
    return upto(SPRING_FIELDS, name) + bytes(values)


def earned(data):
    """The number with which a file is refused by load, or its sheet by check; or None."""
    found = read(data)
    if isinstance(found, Refusal):
        return found.number
    loops = [(loop.numeral, loop.start, loop.corners) for loop in found.loops]
    broken = first_broken(drawing(found.points, found.edges, loops))
    return broken and broken[0]


class Script:
    """The lines of a script, and the outcome of each command in it.

    A case written by hand names the outcome it expects; the reference must
    agree, or there is no script at all.
    """

    def __init__(self):
        self.player = Player()
        self.lines = []
        self.outcomes = []

    def note(self, text):
        self.lines.append("# " + text)

    def do(self, command, expected=None):
        outcome = self.player.line(command)
        if expected is not None and outcome != expected:
            last = [x for x in self.lines if x.startswith("#")][-1]
            raise SystemExit(f"{last}: {outcome!r}, by hand {expected!r}")
        self.lines.append(command)
        self.outcomes.append(outcome)
        return outcome

    def say(self, line, outcome):
        """A line that is not played: its outcome by hand, or None where it prints nothing."""
        self.lines.append(line)
        if outcome is not None:
            self.outcomes.append(outcome)

    def load(self, data, expected=None):
        return self.do(f"load {data.hex()}".rstrip(), expected)

    def refused(self, data, refusal, place):
        self.load(data, f"refused {refusal} 1 {place}")

    def check(self, expected=None):
        self.do("check", expected)

    def passes(self, data):
        """A sheet that keeps the rules; the board is empty again after it."""
        self.load(data, "ok")
        self.check("ok")
        self.do("wipe", "ok")

    def breaks(self, data, rule, place):
        """A sheet that breaks this rule and none before it."""
        self.load(data, "ok")
        self.check(f"refused {rule} 2 {place}")

    def alone(self, data, rule, place):
        """A sheet that breaks this rule and no other."""
        self.breaks(data, rule, place)
        broken = all_broken(drawing(*self.player.board.held()))
        if broken != [rule]:
            raise SystemExit(f"breaks {broken}, by hand only {rule}")

    def alter(self, entry, expected="ok"):
        self.do(f"alter {entry}", expected)

    def tables(self, expected=None):
        self.do("tables", expected)

    def wording(self, data, kind, a, b, expected=None):
        self.do(f"wording {data.hex() or '-'} {kind} {a} {b}", expected)

    def write(self, stdin, stdout):
        """The script to one file, and the outcomes to another."""
        for path, lines in ((stdin, self.lines), (stdout, self.outcomes)):
            with open(path, "w", encoding="latin-1", newline="") as out:
                out.write("\n".join(lines) + "\n")
