"""Runs of the program `label` for tools/fire, and what each of them promises."""

import os
import re
import stat
from xml.parsers import expat

from fire_files import (GOOD, NUMBERS, ODD_WORDS, SMALL, Written, bytes_at_random, damaged, huge_sheet, is_text,
                        number_word, sheet_at_random)
from fire_runs import Violation, run
from sheetfile import Refusal, read

USAGE = b"error: "
MARK = b"<!-- A picture by label of Vumeskar -->\n"

REFUSED = re.compile(rb"label: refusal (\d+), layer (\d) \((?:file|check|build)\), place (\d+): .+\n")

COUNTS = re.compile(rb"(\d+) tips?: (\d+) in .*, (\d+) on .*, (\d+) at .*, (\d+) refused; (\d+) bad lines?\n")

# Faults that are known and not mended yet.
NAME_IN_TWO_LINES = "a name with a line feed is told in two lines"
PICTURE_FOR_OUTPUT = "a picture takes the place of a closed output"

# One byte more than the largest sheet file has: no more of it matters.
MOST = 39_261

# Words in the place of a file's name that name none that can be read or written.
NO_FILES = [b".", b"missing", b"sheet/x", b"none/x", b"", b"-", b"-x", b"a" * 300, b"b/" * 2500, b"round",
            b"shut", b"\xc3\xa9" * 70, b"c" * 100_000, b"two\nlines", b"\x01\x1b[2J", b"a b"]
DEVICES = [b"/dev/null", b"/dev/zero", b"/dev/full", b"/proc/self/mem", b"/proc/self/maps"]
OPTIONS = [b"--svg", b"--stats", b"--stat", b"--svg=x", b"--", b"---", b"--SVG", b"--help", b"-h",
           b"--stats ", b"--\xff", b"--csv", b"--json", b"--strict", b"-V", b"--version", b"--csv=1"]
FLAGS = (b"stats", b"csv", b"json", b"strict")


def told_lines(data):
    """How many lines of tips `label` tells something of: all that are neither blank nor comments."""
    lines = data.split(b"\n")
    if lines[-1] == b"":
        lines.pop()
    fronts = [line.split(b"#")[0] for line in lines]
    return sum(len(front) > 1000 or front.strip(b" \t\r\x0c") != b"" for front in fronts)


def tip_line(draw, kind):
    if kind == "near":
        z = draw.randint(1, 9)
        near = [draw.randrange(14 * z), draw.randrange(12 * z), z]
        return b" ".join(b"%d" % v for v in near[:draw.choice((2, 2, 3))])
    if kind == "far":
        z = draw.choice((1, 1, 2, 1000003, 1048575, 1048576, 0))
        return b"%d %d %d" % (draw.randrange(8200 * max(z, 1)), draw.randrange(8200 * max(z, 1)), z)
    if kind == "long":
        word = draw.choice((b"6 5", b"#", b"x", b"\xff", b"1 2 3 4"))
        return word + draw.choice((b" ", b"0", b"\xc3\xa9")) * draw.choice((490, 996, 997, 998, 999, 2000))
    if kind == "bytes":
        return bytes_at_random(draw, 40)
    space = draw.choice((b" ", b" ", b"\t", b"  ", b"\x0b", b"\x0c", b"\r", b","))
    return space.join(number_word(draw) for _ in range(draw.randrange(6)))


def tips_at_random(draw):
    """The bytes of a file of tips, good or bad, of up to some 3,000 lines."""
    kinds = draw.choice((["near"], ["far"], ["near", "far"], ["words"], ["long", "near"], ["bytes"],
                         ["near", "far", "long", "words", "bytes"]))
    ends = draw.choice(([b"\n"], [b"\r\n"], [b"\n", b"\r\n", b"\r", b"\n\n", b"\n#", b"\0\n", b"\n \t\r\n"]))
    count = draw.choice((0, 1, 2, 7, 50, 300, 1023, 1024, 1025, 3000))
    data = b"".join(tip_line(draw, draw.choice(kinds)) + draw.choice(ends) for _ in range(count))
    how = draw.randrange(6)
    if how == 0:
        data = data.rstrip(b"\r\n")
    return damaged(draw, data) if how == 1 else bytes_at_random(draw, 30000) if how == 2 else data


def huge_tips(draw, path):
    """Writes millions of lines, or lines of 200 MB; how many of them are told."""
    out = Written(path)
    if draw.randrange(2):
        block = b"".join(tip_line(draw, draw.choice(("near", "far", "words"))) + b"\n" for _ in range(500))
        times = draw.choice((400, 2000, 4000))
        out.put(block, times, times * told_lines(block))
    else:
        for _ in range(draw.randint(1, 3)):
            piece = draw.choice((b"7", b"7 ", b" ", b"\0", b"\xff", b"-", b"9" * 999 + b" ", b"\r", b"#x"))
            out.put(piece, 200_000_000 // len(piece), 1 - piece.startswith(b"#"))
            out.put(b"\n")
            out.put(b"6 5\n", 1, 1)
    if draw.randrange(2):
        out.put(b"6 5", 1, 1)
    return out.end()


def asked(words):
    """The sheet, the tips, the picture and the flags; None where this is no use of it; `help` where help or the version is
    asked for, which is told if nothing before it is wrong."""
    files, svg, flags, words, has_options = [], None, set(), list(words), True
    while words:
        word = words.pop(0)
        name, has_value, value = word[2:].partition(b"=")
        if has_options and word == b"--":
            has_options = False
        elif has_options and (word.startswith((b"-h", b"-V")) or word in (b"--help", b"--version")):
            return "help"
        elif has_options and word.startswith(b"--") and name == b"svg":
            if svg is not None or not has_value and (not words or words[0].startswith(b"-") and words[0] != b"-"):
                return "help" if {b"-h", b"-V", b"--help", b"--version"} & set(words) else None
            svg = value if has_value else words.pop(0)
        elif has_options and word[2:] in FLAGS and word.startswith(b"--") and word[2:] not in flags:
            flags.add(word[2:])
        elif has_options and word.startswith(b"-") and word != b"-" or len(files) == 2:
            return "help" if {b"-h", b"-V", b"--help", b"--version"} & set(words) else None
        else:
            files.append(word)
    if not files or files == [b"-", b"-"] or svg == b"-" or b"csv" in flags and flags & {b"json", b"stats"}:
        return None
    return (*files, None)[:2] + (svg, flags)


def front(folder, name):
    """The first bytes of a file as far as they matter to a reader of sheets; None where it cannot be read."""
    try:
        with open(os.path.join(os.fsencode(folder), name) if name else b"", "rb", 0) as file:
            return file.read(MOST)
    except (OSError, ValueError):
        return None


def can_draw(folder, name):
    """Whether a picture of this name can be written: nothing is there, or a picture, and a part can be."""
    path = os.path.join(os.fsencode(folder), name) if name else b""
    if os.path.lexists(path) and not (os.path.isfile(path) and not os.path.islink(path)
                                      and (front(folder, name) or b"").startswith(MARK)):
        return False
    try:
        os.close(os.open(path + b".part" if name else b"", os.O_WRONLY | os.O_CREAT | os.O_EXCL, 0o644))
    except OSError:
        return False
    os.remove(path + b".part")
    return len(os.path.basename(path)) <= 255 and not path.endswith((b"/", b"/."))


def words_at_random(draw):
    """The words that the program is given."""
    if draw.randrange(5) == 0:
        names = [b"sheet", b"tips", b"picture", b"sheet", b"tips", *NO_FILES, *DEVICES, b"\xff\xfe",
                 *ODD_WORDS, b"%d" % draw.choice(NUMBERS[:-1])]
        pool = draw.choice((OPTIONS, names, OPTIONS[:2] + names))
        words = draw.choices(pool, k=draw.choice((0, 1, 2, 2, 3, 3, 4, 5, 6)))
        words = [word for word in words if b"\0" not in word]
        return words * draw.choice((1, 1, 1, 500)) if sum(map(len, words)) < 3000 else words[:4]
    words = [[b"sheet"]]
    if draw.randrange(20) == 0:
        words[0][0] = draw.choice(NO_FILES + DEVICES)
    if draw.randrange(4):
        words.append([b"tips" if draw.randrange(16) else draw.choice(NO_FILES + DEVICES + [b"sheet"])])
    if draw.randrange(3) == 0:
        target = draw.choice((b"picture", b"picture", b"picture", b"picture", b"sheet", b"tips", b".",
                              b"/dev/null", b"/dev/full", draw.choice(NO_FILES)))
        words.insert(draw.randrange(len(words) + 1), [b"--svg", target])
    for option in (b"--stats", b"--csv", b"--json", b"--strict"):
        if draw.randrange(5) == 0:
            words.insert(draw.randrange(len(words) + 1), [option])
    if draw.randrange(20) == 0:
        # An option twice, or a word too many.
        more = draw.choice(([b"--stats"], [b"--svg", b"picture"], [draw.choice(OPTIONS)], [b"tips"]))
        words.insert(draw.randrange(len(words) + 1), more)
    return [word for part in words for word in part]


def write_inputs(draw, folder):
    """Writes the files of a run; how many lines of tips are told."""
    is_huge = draw.randrange(60) == 0
    path = os.path.join(folder, "sheet")
    if is_huge and draw.randrange(3) == 0:
        huge_sheet(draw, path)
    else:
        sheet = draw.choice(SMALL) if is_huge else sheet_at_random(draw)
        with open(path, "wb") as out:
            out.write(sheet)
    os.symlink("round", os.path.join(folder, "round"))
    with open(os.path.join(folder, "shut"), "wb"):
        os.chmod(os.path.join(folder, "shut"), 0)
    path = os.path.join(folder, "tips")
    if is_huge:
        return huge_tips(draw, path)
    tips = tips_at_random(draw)
    with open(path, "wb") as out:
        out.write(tips)
    return told_lines(tips)


def check_picture(path):
    """A picture of a granted run is whole, and such that a reader of XML takes it."""
    with open(path, "rb") as file:
        if os.path.getsize(path) < 4_000_000:
            try:
                expat.ParserCreate().ParseFile(file)
            except expat.ExpatError as error:
                raise Violation(f"the picture is no XML: {error}") from error
        file.seek(0)
        if file.read(len(MARK)) != MARK:
            raise Violation("the picture does not begin as one")
        file.seek(-7, os.SEEK_END)
        if file.read() != b"</svg>\n":
            raise Violation("the picture does not end as one")


def check_counts(line, told):
    """The last line counts the tips and the bad lines."""
    counts = COUNTS.fullmatch(line)
    if not counts:
        raise Violation("its last line does not tell the counts")
    tips, *parts, bad = map(int, counts.groups())
    if tips != sum(parts) or tips + bad != told:
        raise Violation(f"its last line does not count {told} lines")


def check_refused(line, sheet, is_good):
    """A refused sheet is told with number and layer, and that of a bad file as a second reader tells it."""
    found = REFUSED.fullmatch(line)
    if not found:
        raise Violation("a refused sheet's line does not tell number and layer")
    number, layer, place = map(int, found.groups())
    if isinstance(sheet, Refusal):
        if (number, layer, place) != (sheet.number, 1, sheet.place):
            raise Violation(f"the reference refuses {sheet.number} at {sheet.place}")
        return
    is_of_rule = layer == 2 and 13 <= number <= 20
    if is_good or not (is_of_rule or (number, layer) == (21, 3)):
        raise Violation("the sheet should not be refused so")


class LabelRun:
    """One run: its words, what it is lent, and what is due."""

    def __init__(self, draw, folder):
        self.folder = folder
        told = write_inputs(draw, folder)
        self.words = words_at_random(draw)
        kinds = ("full", "closed", "gone")
        self.out = draw.choice(kinds) if draw.randrange(8) == 0 else "read"
        self.err = draw.choice(kinds) if draw.randrange(40) == 0 else "read"
        self.stdin = "closed" if draw.randrange(40) == 0 else "/dev/null"
        # What is there under the name of the picture is to stay, where it is none.
        self.before = {name: front(folder, name) for name in (b"sheet", b"tips")}
        self.asked = asked(self.words)
        self.due = self.find_due()
        if self.due == "answer":
            self.find_ends(told)

    def find_due(self):
        """What is due: `usage`, `help`, `failure`, a `refusal` of the file, or an `answer` where no rule is broken."""
        if not all(map(is_text, self.words)):
            return "failure"
        if self.asked is None:
            return "usage"
        if self.asked == "help":
            return "help"
        given = None if self.stdin == "closed" else b""
        data = given if self.asked[0] == b"-" else front(self.folder, self.asked[0])
        if data is None:
            return "failure"
        self.is_good = data in GOOD
        self.sheet = read(data)
        return "refusal" if isinstance(self.sheet, Refusal) else "answer"

    def find_ends(self, told):
        """Whether all files and the output are in order, and how many lines are due, where it is known."""
        _, tips, svg, _ = self.asked
        self.can_end = ((svg is None or can_draw(self.folder, svg))
                        and (tips is None or (self.stdin != "closed" if tips == b"-" else front(self.folder, tips) is not None))
                        and self.out == "read")
        self.told = told if tips == b"tips" else None
        self.lines = len(self.sheet.loops) if tips is None else self.told

    def play(self, program):
        """Runs it; the known fault that was met, or none, and the kind of its end."""
        # Tips without an end are cut off, where the program comes to them.
        tips = self.asked[1] if isinstance(self.asked, tuple) else None
        is_endless = tips in (b"/dev/zero", b"/dev/full")
        seconds = [1] if is_endless else []
        ended = run([program, *self.words], self.folder, self.stdin, self.out, self.err, *seconds)
        self.ended = ended
        if is_endless and ended.stopped:
            ended.stopped, ended.status = False, 0
            ended.check()
            return None, "stopped"
        ended.check()
        if any(front(self.folder, name) != data for name, data in self.before.items()):
            raise Violation("a file that is read is not as it was")
        if self.err != "read":
            return None, "unheard"
        if self.due in ("usage", "help") and ended.status != 1:
            return self.check_words()
        if ended.status == 2:
            raise Violation("its words are told to be wrong, and are not")
        return self.check_granted() if ended.status == 0 else self.check_failed()

    def check_words(self):
        """What is said of wrong words, or where help is asked for."""
        said = self.ended.err.head if self.ended.status == 2 else b""
        if self.due == "usage" and not said.startswith(USAGE):
            raise Violation("it is not told that its words are wrong")
        if self.due == "help" and self.ended.status == 0 and self.out == "read" and self.ended.out.bytes == 0:
            raise Violation("no help is told")
        return None, "words"

    def check_failed(self):
        """What a run that failed has said."""
        said, fault = self.ended.err.head, None
        if not said.startswith(b"label: ") or not said.endswith(b"\n") or said.count(b"\n") != 1:
            if not any(b"\n" in word and is_named(word, said) for word in self.words):
                raise Violation("a failure is not told in one line that begins `label: `")
            fault = NAME_IN_TWO_LINES
        if self.due == "usage" or self.due == "help" and self.out == "read":
            raise Violation("its words are not told to be wrong")
        if self.due == "refusal" or said.startswith(b"label: refusal"):
            if self.due not in ("refusal", "answer"):
                raise Violation(f"a refusal is told, and a {self.due} is due")
            check_refused(said, self.sheet, self.is_good)
            return fault, "refused"
        if self.due == "answer" and self.can_end and not (b"strict" in self.asked[3] and b"--strict" in said):
            raise Violation("it failed, and nothing is at fault")
        return fault, "failed"

    def check_granted(self):
        """What a run that ended well has printed and drawn."""
        ended = self.ended
        if self.due != "answer":
            raise Violation(f"it ended well, and a {self.due} is due")
        if ended.err.bytes:
            raise Violation("it ended well, and told an error")
        _, _, svg, flags = self.asked
        if self.out == "closed" and svg is not None:
            # The picture is opened where the output would be, and both go into it.
            return PICTURE_FOR_OUTPUT, "granted"
        if not self.can_end:
            raise Violation("it ended well, and could not write or read all")
        if self.lines is not None:
            self.check_lines(flags)
        path = svg and os.path.join(os.fsencode(self.folder), svg)
        if path:
            check_picture(path)
        return None, "granted"

    def check_lines(self, flags):
        """A line for each loop or tip, and those around them."""
        around = 1 if b"csv" in flags else 4 + (b"stats" in flags)
        if b"json" in flags:
            # The head, and the end of the rows, of the counts where there are tips, and of all.
            around = 4 if self.told is not None else 3
        if self.ended.out.lines != around + self.lines:
            raise Violation(f"it printed {self.ended.out.lines} lines, and {around + self.lines} are due")
        if self.told is not None and not flags & {b"csv", b"json"}:
            check_counts(self.ended.out.tail.splitlines(True)[-1], self.told)


def is_named(word, said):
    """Whether this is what is said of a name, with what is the matter behind it."""
    return said.startswith(b"label: " + word + b": ") and said.count(b"\n") == word.count(b"\n") + 1
