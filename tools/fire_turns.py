"""Runs of the program `turns` for tools/fire, and what each of them promises."""

import os
import re

from fire_files import (BROKEN, GOOD, LARGE, NUMBERS, ODD_WORDS, SMALL, Written, bytes_at_random, damaged,
                        is_text, number_word, sheet_at_random)
from fire_runs import HEAD, Violation, run

NAMES = [b"load", b"check", b"cut", b"round", b"seal", b"place", b"placeq", b"list", b"listq", b"wipe",
         b"stage", b"tables", b"cards", b"live", b"wording", b"alter", b"short", b"capacity", b"blocks",
         b"whole", b"rational", b"make whole", b"make rational"]
TABLES = [b"points", b"edges", b"strokes", b"loops", b"live", b"nodes", b"answers", b"", b"Points"]

# A fault that is known and not mended yet.
LINE_ENDS_TURNS = "a line that is no text ends turns"

# A line of the output, whatever the command.
OUTCOME = re.compile(rb"ok( [ -~]*)?|refused \d+ [1-5] \d+|unknown command"
                     rb"|too long a line|no such (bytes|text|number|tips|table|entry|capacity|length|answer|kernel)")


class Script(Written):
    """A script that is written, with how many commands it has in all, and before the first line that is no text."""

    def __init__(self, path):
        super().__init__(path)
        self.before, self.is_text = 0, True

    def line(self, line, times=1):
        """Lines, which are joined by line feeds, so many times."""
        self.put_text(line + b"\n", times)

    def put_text(self, text, times=1):
        """Text of whole lines, or the last of a script, so many times."""
        count, before, is_text = commands(text)
        self.put(text, times, count * times)
        if self.is_text:
            self.before += before * (times if is_text else 1)
            self.is_text = is_text

    def put_long(self, begin, piece):
        """One line of 200 MB."""
        is_command = not begin.startswith(b"#")
        self.put(begin)
        self.put(piece, 200_000_000 // len(piece), is_command)
        self.put(b"\n")
        self.before += is_command and self.is_text


def commands(text):
    """How many commands there are, how many before the first line that is no text, and whether there is no such line."""
    lines = text.split(b"\n")
    last = lines.pop()
    # A carriage return at the end of a line belongs to the end.
    lines = [line.removesuffix(b"\r") for line in [*lines, last]]
    first_bad = next((i for i, line in enumerate(lines) if not is_text(line)), len(lines))
    are_played = [line != b"" and not line.startswith(b"#") for line in lines]
    return sum(are_played), sum(are_played[:first_bad]), first_bad == len(lines)


def hexed(data):
    return data.hex().encode() or b"-"


def numbers(draw, count, most=None):
    """So many words, mostly numbers, up to a limit where there is one."""
    if most is None:
        return [number_word(draw) for _ in range(count)]
    return [b"%d" % draw.choice((draw.randrange(most + 1), draw.randrange(min(most, 9) + 1)))
            for _ in range(count)]


def alteration(draw):
    """An entry changed, mostly by numbers that fit, so that turns go far into it."""
    name = draw.choice(TABLES)
    count = {b"points": 2, b"edges": 2, b"loops": 3, b"live": 1, b"nodes": 14}.get(name, 2)
    count += draw.choice((0,) * 9 + (1, -1))
    most = draw.choice((12, 12, 20, 1030, 65535, None))
    return b" ".join([b"alter", name, *numbers(draw, 1, draw.choice((12, 30, 6154))),
                      *numbers(draw, count, most)])


def tips(draw):
    """A place or a list."""
    name, size = draw.choice(((b"place", 2), (b"placeq", 3), (b"list", 2), (b"listq", 3)))
    most = draw.choice((12, 12, 8191, None))
    if name.startswith(b"place"):
        return b" ".join([name, *numbers(draw, size, most)])
    count = draw.randrange(9)
    entries = draw.choice((count, count, count + 1, 65535, 0))
    return b" ".join([name, b"%d" % entries, *numbers(draw, size * count + (draw.randrange(9) == 0), most)])


def boards(draw):
    """A new board."""
    return draw.choice((
        b"capacity 65535", b"capacity 8194", b"capacity 8194", b"blocks 4000000000", b"blocks 512001",
        b"short points 65535", b"short points 1028", b"short live 65535", b"blocks 2560",
        b"capacity %d" % draw.choice((0, 1, 10, 11, 17, 18, 65536)),
        b"blocks %d" % draw.choice((0, 511, 512, 2**32 - 1, 2**32)),
        b" ".join([b"short", draw.choice(TABLES), *numbers(draw, 1)])))


def command(draw):
    """A command with arguments at random, most of them of its kind."""
    name = draw.choice(NAMES)
    if draw.randrange(5) == 0:
        words = numbers(draw, draw.randrange(6), draw.choice((12, None)))
        return draw.choice((b" ", b" ", b"  ", b"\t")).join([name, *words])
    if name in (b"load", b"wording"):
        data = hexed(draw.choice(SMALL + BROKEN) if draw.randrange(2) else sheet_at_random(draw))
        if draw.randrange(8) == 0:
            data = draw.choice((data[:-1], data.upper(), b"", data + b"g", b"0x" + data, b"\xc3\xa9" + data))
        words = [] if name == b"load" else numbers(draw, 3, draw.choice((4, 4, 65536)))
        return b" ".join([name, data, *words])
    if name == b"alter":
        return alteration(draw)
    if name in (b"place", b"placeq", b"list", b"listq"):
        return tips(draw)
    return boards(draw) if name in (b"capacity", b"blocks", b"short") else name


def write_play(draw, script):
    """Turns that lead to a sealed sheet again and again, with other commands and changed tables between."""
    is_large = draw.randrange(6) == 0
    for _ in range(draw.randint(1, 2 if is_large else 9)):
        sheet = draw.choice(LARGE if is_large else SMALL * 3 + BROKEN)
        lines = [boards(draw)] if draw.randrange(2) else []
        lines += [b"load " + hexed(sheet), b"check", b"cut"]
        lines += draw.choice((1, 3, 18)) * [b"round"] + [b"seal", b"tables", b"live"]
        lines += [b"cards"] * (draw.randrange(4) == 0) + [tips(draw) for _ in range(draw.randrange(20))]
        for _ in range(draw.choice((0, 0, 1, 2, 9))):
            at = draw.randrange(len(lines) + 1)
            lines[at:at] = [alteration(draw) if draw.randrange(3) else draw.choice(NAMES[1:5])]
        script.line(b"\n".join([*lines, b"wipe"]))


def write_words(draw, script):
    """Lines of words that are mostly no commands."""
    words = NAMES + TABLES + ODD_WORDS + [b"%d" % n for n in NUMBERS] + [b"", b"#", b"\xff", b"LOAD", b"\xc3"]
    if draw.randrange(3):
        words = [word for word in words if word.isascii()]
    for _ in range(draw.choice((0, 1, 20, 500))):
        ends = (b"", b"", b"\r", b"\0", b" ", b"\r\r")
        script.line(b" ".join(draw.choices(words, k=draw.randrange(7))) + draw.choice(ends))


def write_commands(draw, script):
    for _ in range(draw.choice((1, 10, 60, 200))):
        script.line(command(draw))


def write_bytes(draw, script):
    text = bytes_at_random(draw, 30000)
    if draw.randrange(2):
        text = bytes(byte % 128 for byte in text)
    elif draw.randrange(2):
        text = damaged(draw, b"\n".join(command(draw) for _ in range(20)))
    script.line(text)


def write_long_lines(draw, script):
    """Lines of 200 MB."""
    for _ in range(draw.randint(1, 3)):
        begin, piece = draw.choice((
            (b"load ", b"0"), (b"load ", b"01" * 50), (b"load ", hexed(draw.choice(GOOD))), (b"wording ", b"ff"),
            (b"list 65535", b" 6 5"), (b"listq 65535", b" 18 15 3"), (b"list 65535", b" 1"), (b"alter points", b" 1"),
            (b"place ", b"9"), (b"", b"a"), (b"", b" "), (b"", b"\0"), (b"#", b"x"), (b"load ", b"\xc3\xa9"),
            (b"check ", b"\r"), (b"capacity ", b"0"), (b"short points ", b"1")))
        script.put_long(begin, piece)
        script.line(b"stage")


def write_storm(draw, script):
    """One or two commands many thousand times, over a sealed sheet."""
    sheet = hexed(draw.choice(SMALL + LARGE[:2]))
    script.line(b"\n".join([b"load " + sheet, b"check", b"cut"] + [b"round"] * 18 + [b"seal"]))
    block = draw.choice((
        [b"capacity 65535"], [b"short points 65535"], [b"blocks 4000000000", b"short edges 65535"], [b"stage"],
        [b"place 6 5"], [tips(draw)], [b"list 1000" + b" 4 6" * 1000], [b"list 65535 1 2"], [b"wipe"],
        [b"wipe", b"load " + hexed(SMALL[0]), b"check", b"cut", b"round", b"round", b"round", b"seal", b"place 6 5"],
        [alteration(draw)], [b"no command"], [b"tables"]))
    script.line(b"\n".join(block), 2000 if len(block[-1]) > 100 else 5000)


WRITERS = [write_play] * 5 + [write_words] * 4 + [write_commands] * 5 + [write_bytes] * 3


class TurnsRun:
    """One run: its script, and what it is lent."""

    def __init__(self, draw, folder):
        self.folder = folder
        self.script = os.path.join(folder, "script")
        script = Script(self.script)
        write = draw.choice(WRITERS)
        if draw.randrange(40) == 0:
            write = draw.choice((write_long_lines, write_storm))
        write(draw, script)
        if script.is_text and draw.randrange(4) == 0:
            # A last line without a line feed.
            script.put_text(draw.choice((b"stage", b"check\r", b"#", b" ", b"cut\0", b"\r", b"load 1")))
        self.is_text, self.before, self.told = script.is_text, script.before, script.end()
        kinds = ("full", "closed", "gone")
        self.out = draw.choice(kinds) if draw.randrange(12) == 0 else "read"
        self.err = draw.choice(kinds) if draw.randrange(40) == 0 else "read"
        self.stdin = self.script
        if draw.randrange(60) == 0:
            self.stdin = draw.choice(("closed", "/dev/null", folder))
            self.told, self.is_text = 0, True
        self.words = draw.choice(([], [], [], [b"--help"], [b"x", b"\xff"]))

    def play(self, program):
        """Runs it; the known fault that was met, or none, and the kind of its end."""
        ended = self.ended = run([program, *self.words], self.folder, self.stdin, self.out, self.err)
        ended.check()
        fails = self.stdin in ("closed", self.folder) or self.out != "read" and self.told > 0
        # It ends at the first line that is no text, and nothing is printed for it and for the lines behind it.
        is_cut = not self.is_text and ended.status == 1 and not fails
        due = int(fails or is_cut)
        if ended.status != due:
            raise Violation(f"its exit status is {ended.status}, and {due} is due")
        said = ended.err.head
        if self.err == "read" and (said.count(b"\n"), said[:7]) != ((1, b"Error: ") if due else (0, b"")):
            raise Violation("what it told of an error is not as it should be")
        if self.out == "read":
            self.check_lines(self.before if is_cut else self.told)
        return LINE_ENDS_TURNS if is_cut else None, "failed" if due else "played"

    def check_lines(self, due):
        """A line for each command."""
        out = self.ended.out
        if out.lines != due:
            raise Violation(f"it printed {out.lines} lines for {due} commands")
        lines = out.head.split(b"\n")
        if out.bytes < HEAD and lines[-1] != b"":
            raise Violation("its last line has no end")
        for line in lines[:-1]:
            if not OUTCOME.fullmatch(line):
                raise Violation(f"it printed {line[:80]!r}")
