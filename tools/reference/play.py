"""Plays a script of commands on the reference board.

    python3 tools/reference/play.py < script

One command a line, one line of outcome for each; blank lines and lines that
start with # print nothing. Files are lower-case hex. A line of more than 1,000,000
bytes is answered "too long a line".

    load HEX               a turn; nothing after `load` is the empty file
    check                  a turn
    cut                    a turn
    round                  a turn: ok VERTICES, those taken out, in order
    seal                   a turn
    place X Y              a turn on the tip (X, Y): ok KIND P Q tests T, the
                           answer (KIND as for `wording`) and its test count
    placeq X Y Z           the same of the tip (X/Z, Y/Z)
    list T X Y X Y ..      a turn on the tips (X, Y), lent T answers: ok ENTRIES,
                           those of the tips, apart by "; ": KIND P Q tests T,
                           or refused NUMBER
    listq T X Y Z X Y Z .. the same of the tips (X/Z, Y/Z)
    wipe                   a turn
    stage                  ok STAGE: Draft, Checked, Layered or Sealed
    tables                 ok WIDTH HEIGHT INNER LOOPS CORNERS LIVE
                              points D edges D loops D
    cards                  ok NODE | NODE | ..: the nodes of the store, fourteen
                           numbers each
    live                   ok NUMBERS: the live nodes
    wording HEX KIND A B   KIND 1 vertex A, 2 edge A B, 3 face of loop A;
                           HEX is - for the empty file;
                           ok none, or ok PLACE TEXT
    alter NAME I NUMBERS   the caller, and no turn, changes entry I of a table:
                           points I X Y, edges I FROM TO,
                           loops I NUMERAL START CORNERS, live I NODE,
                           nodes I, and the fourteen numbers of a node
    short NAME L           a new board over new tables filled with zeros:
                           table NAME has L entries, the others the least
    capacity C             a new board over a store of C nodes
    blocks B               a new board over a block store of B bytes; larger
                           than 512,001 counts as that
    whole X Y W H AX AY BX BY
                           the tip (X, Y): ok fit side S on O, or
                           ok unfit side 0 on no; S is its side of the line
                           from (AX, AY) to (BX, BY), -1, 0 or 1; O is yes or
                           no, whether it is on the sheet to (W, H)
    rational X Y Z W H AX AY BX BY
                           the same of the tip (X/Z, Y/Z)
    make KERNEL X Y        the tip of the kernel whole or rational at a whole
                           point: ok none, ok X Y or ok X Y Z

Of `alter`, another name prints `no such table`; an entry past the table's end
(of the nodes: past the capacity of the store), or a word that is missing or no
number of 16 bits, prints `no such entry`. A C that is missing or no number of
16 bits prints `no such capacity`. Where nothing is said of it, a new board has
a store of 8,194 nodes.
A word of a tip that is no number of its type, or is missing, prints `no such
number`. X and Y of rational tips have 64 bits, Z has 32, all others have 16.
The T of a list is looked at first, then how many words follow it: if they are
no whole number of tips, it prints `no such tips`.
A refusal prints `refused NUMBER LAYER PLACE`. D is a digest of a list of
numbers: h is 0 at first, and h = (h * 31 + v) mod 2^32 for each number v.
"""

import sys

import tips
from board import LEAST, Board
from sheetfile import Refusal, wording

# The most bytes of a line that is played.
MOST_LINE = 1_000_000

COMMANDS = ("load", "check", "cut", "round", "seal", "place", "placeq", "list",
            "listq", "wipe", "stage", "tables", "cards", "live", "wording", "alter",
            "short", "capacity", "blocks", "whole", "rational", "make")

# How many numbers an entry has that a caller can alter.
ENTRY = {"points": 2, "edges": 2, "loops": 3, "live": 1, "nodes": 14}

# A block store has 18 nodes in each whole block; no more bytes than these.
BLOCK, BLOCK_NODES, MOST_BYTES = 512, 18, 512_001


def told(refusal):
    return f"refused {refusal.number} {refusal.layer} {refusal.place}"


def spaced(numbers):
    return " ".join(map(str, numbers))


def entry(found):
    """What place gave for one tip of a list: without layer and place."""
    if isinstance(found, Refusal):
        return f"refused {found.number}"
    answer, tests = found
    return f"{spaced(answer)} tests {tests}"


def outcome(given):
    """The outcome of a turn: of a Refusal, of None or of a list of numbers."""
    if isinstance(given, Refusal):
        return told(given)
    return f"ok {spaced(given or [])}".rstrip()


class Player:
    """Keeps the board between lines; gives the outcome of each command."""

    def __init__(self):
        self.board = Board()

    def line(self, text):
        """The outcome line, or None for a line that prints nothing."""
        text = text.strip()
        if text == "" or text.startswith("#"):
            return None
        if len(text) > MOST_LINE:
            return "too long a line"
        name, *words = text.split()
        if name not in COMMANDS:
            raise ValueError(f"no such command: {name}")
        return getattr(self, name)(*words)

    def load(self, hexed=""):
        return outcome(self.board.load(bytes.fromhex(hexed)))

    def check(self):
        return outcome(self.board.check())

    def cut(self):
        return outcome(self.board.cut())

    def round(self):
        return outcome(self.board.round())

    def seal(self):
        return outcome(self.board.seal())

    def place(self, *words):
        return self.placed("whole", words)

    def placeq(self, *words):
        return self.placed("rational", words)

    def placed(self, kernel, words):
        tip = tips.tip_of(kernel, words)
        if tip is None:
            return "no such number"
        found = self.board.place(kernel, tip)
        return told(found) if isinstance(found, Refusal) else "ok " + entry(found)

    def list(self, *words):
        return self.listed("whole", words)

    def listq(self, *words):
        return self.listed("rational", words)

    def listed(self, kernel, words):
        entries = tips.numbers(words, [tips.WORD])
        if entries is None:
            return "no such number"
        rest, size = words[1:], len(tips.KERNELS[kernel])
        if len(rest) % size != 0:
            return "no such tips"
        asked = [tips.tip_of(kernel, rest[i:i + size])
                 for i in range(0, len(rest), size)]
        if None in asked:
            return "no such number"
        found = self.board.list(kernel, asked, entries[0])
        if isinstance(found, Refusal):
            return told(found)
        return f"ok {'; '.join(map(entry, found))}".rstrip()

    def wipe(self):
        self.board.wipe()
        return "ok"

    def stage(self):
        return "ok " + self.board.stage

    def tables(self):
        return "ok " + self.board.tables()

    def cards(self):
        nodes = [spaced(node.numbers()) for node in self.board.nodes]
        return f"ok {' | '.join(nodes)}".rstrip()

    def live(self):
        return outcome(self.board.live_nodes())

    def wording(self, hexed, kind, a, b):
        data = b"" if hexed == "-" else bytes.fromhex(hexed)
        found = wording(data, int(kind), int(a), int(b))
        if isinstance(found, Refusal):
            return told(found)
        if found is None:
            return "ok none"
        place, text = found
        return f"ok {place} {text.decode('ascii')}"

    def alter(self, name="", *words):
        if name not in ENTRY:
            return "no such table"
        found = tips.numbers(words, [tips.WORD] * (1 + ENTRY[name]))
        if found is None or not self.board.alter(name, found[0], found[1:]):
            return "no such entry"
        return "ok"

    def short(self, name, length):
        if name not in LEAST:
            raise ValueError(f"no such table: {name}")
        self.board = Board({**LEAST, name: int(length)})
        return "ok"

    def capacity(self, *words):
        found = tips.numbers(words, [tips.WORD])
        if found is None:
            return "no such capacity"
        self.board = Board(capacity=found[0])
        return "ok"

    def blocks(self, size):
        whole = min(int(size), MOST_BYTES) // BLOCK
        self.board = Board(capacity=whole * BLOCK_NODES)
        return "ok"

    def whole(self, *words):
        return tips.told("whole", words)

    def rational(self, *words):
        return tips.told("rational", words)

    def make(self, kernel="", *words):
        return tips.made(kernel, words)


def main():
    player = Player()
    for line in sys.stdin:
        outcome = player.line(line)
        if outcome is not None:
            print(outcome)


if __name__ == "__main__":
    main()
