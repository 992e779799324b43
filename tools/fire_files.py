"""Files at random for tools/fire: sheets, and lines of all kinds."""

import random

from sheets import (AROUND, QUAD, SPRING, file, grid, grid_loops, joined_at_random, largest, like_spring,
                    row, scattered, sheet, spiral, split_at_random)

# Numbers near every limit, and words that are none.
NUMBERS = [0, 1, 2, 3, 4, 5, 7, 8, 12, 13, 14, 63, 64, 127, 128, 255, 256, 1023, 1024, 1027, 1028,
           2049, 2050, 3076, 3077, 6150, 6153, 6154, 8191, 8192, 8193, 8194, 16383, 16384,
           65534, 65535, 65536, 1048575, 1048576, 2097151, 2**31, 4000000000, 2**32 - 1, 2**32,
           8589934591, 8589934592, 2**63, 2**64 - 1, 2**64, 10**30, 10**300]
ODD_WORDS = [b"-1", b"-0", b"-65536", b"+5", b"+", b"-", b"--1", b"007", b"1.5", b"1e3", b"0x10",
             b"1,000", b"x", b"six", b"NaN", b"inf", b"\xd9\xa3", b"\xc2\xbd", b"\xe2\x88\x92" b"5",
             b"\xef\xbb\xbf" b"6", b"6\xc2\xa0" b"5", b"6\x00", b"\x00", b"#", b"1#", b"\x0b", b"\x0c",
             b"\x1b[31m", b"%s%n", b"'", b"\\n"]

# How many bytes are written at a time.
PIECE = 1 << 16


class Written:
    """A file that is written piece by piece, with how many lines are to be told of it."""

    def __init__(self, path):
        self.file = open(path, "wb")
        self.told = 0

    def put(self, piece, times=1, told=0):
        """The piece so many times; all these tell so many lines."""
        at_once = max(1, min(times, PIECE // max(1, len(piece))))
        for _ in range(times // at_once):
            self.file.write(piece * at_once)
        self.file.write(piece * (times % at_once))
        self.told += told

    def end(self):
        self.file.close()
        return self.told


def is_text(line):
    try:
        line.decode()
    except UnicodeDecodeError:
        return False
    return True


def number_word(draw):
    kind = draw.randrange(8)
    if kind < 4:
        return b"%d" % draw.choice(NUMBERS)
    if kind < 7:
        return b"%d" % draw.randrange(2 ** draw.choice((1, 4, 8, 13, 16, 33)))
    return draw.choice(ODD_WORDS)


def bytes_at_random(draw, most):
    return draw.randbytes(draw.randrange(most + 1))


def damaged(draw, data):
    """The data with one to six places changed, taken out, doubled or put in."""
    data = bytearray(data)
    for _ in range(draw.randint(1, 6)):
        at = draw.randrange(len(data) + 1)
        end = at + draw.choice((1, 1, 1, 2, 3, 7, 64))
        kind = draw.randrange(6)
        if kind < 3:
            data[at:at + 1] = bytes([draw.choice((0, 1, 127, 128, 255, draw.randrange(256)))])
        elif kind == 3:
            del data[at:end]
        elif kind == 4:
            data[at:at] = data[at:end]
        else:
            data[at:at] = bytes_at_random(draw, 8)
    return bytes(data)


def labels_at_random(draw, count):
    marks = b"<>&'\"]-?/ az~%\\"
    return [(numeral, bytes(draw.choice(marks) for _ in range(draw.randint(1, 63))))
            for numeral in draw.sample(range(1, 256), count)]


def drawn(draw, inner, edges):
    """The parts of a sheet that keeps the rules, with numerals and labels."""
    width, height = draw.choice(((2, 2), (3, 9), (12, 10), (60, 40), (8191, 2), (8191, 8191)))
    points, loops = split_at_random(draw, width, height, inner)
    loops = joined_at_random(draw, loops, edges)
    numerals = [draw.choice((0, 1, 2, 255, draw.randrange(256))) for _ in loops]
    labels = labels_at_random(draw, draw.choice((0, 1, 5, 255)))
    return width, height, points[4:], list(zip(numerals, loops)), labels


def labelled_grid(side):
    draw = random.Random(side)
    inner, loops = grid_loops(side, False)
    numbered = [(i % 256, loop) for i, loop in enumerate(loops)]
    return file(8000, 8000, inner, numbered, labels_at_random(draw, 255))


# Sheets that keep the rules, small and large.
SMALL = [SPRING, grid(3, False), grid(4, True), spiral(2), scattered(6, 40, 40, 6, 5),
         row(8, 8, [(2, 4), (4, 4), (6, 4)]), file(*drawn(random.Random(1), 9, 3))]
LARGE = [grid(32, False), grid(32, True), spiral(60), spiral(127), labelled_grid(16), labelled_grid(31),
         row(8191, 8191, [(4 + 7 * i, 4000 + 37 * i % 90) for i in range(1024)]),
         scattered(5, 8191, 8191, 400, 100)]
GOOD = SMALL * 3 + LARGE

# Loops about two inner vertices, and sheets that break a rule: 13 to 20 in this order.
TWO = [[0, 1, 5, 4], [1, 2, 5], [2, 3, 4, 5], [3, 0, 4]]
BROKEN = [sheet(4, 4, [(1, 2), (3, 2)], TWO[:3]), sheet(4, 4, [(1, 2), (1, 2)], TWO),
          sheet(4, 4, [(1, 2), (3, 2)], [TWO[0], TWO[1], [2, 3, 2, 5], TWO[3]]),
          like_spring([QUAD[::-1]] + AROUND[1:]),
          sheet(4, 4, [(1, 2), (3, 2)], [TWO[0], [1, 2, 4], TWO[2], TWO[3]]),
          sheet(4, 4, [(1, 2), (3, 2)], [[3, 0, 4], [1, 2, 4], [0, 1, 4, 2], [0, 2, 3, 4]]),
          sheet(4, 4, [(3, 2), (1, 2)], TWO),
          sheet(4, 4, [(1, 3), (3, 1)], [[0, 1, 2, 4], [0, 4, 2, 5], [0, 5, 2, 3]])]


def broken(draw):
    """A small sheet with a loop taken out, turned or changed, or a vertex moved."""
    width, height, inner, loops, labels = drawn(draw, draw.randrange(12), draw.randrange(4))
    for _ in range(draw.randint(1, 3)):
        kind = draw.randrange(5)
        i = draw.randrange(len(loops)) if loops else None
        if kind == 0 and inner:
            there = draw.choice(inner), (draw.randrange(1, width), draw.randrange(1, height))
            inner[draw.randrange(len(inner))] = draw.choice(there)
        elif i is None:
            continue
        elif kind == 1:
            del loops[i]
        elif kind == 2:
            loops[i] = (loops[i][0], loops[i][1][::-1])
        elif kind == 3:
            corners = list(loops[i][1])
            corners[draw.randrange(len(corners))] = draw.randrange(len(inner) + 4)
            loops[i] = (loops[i][0], corners)
        else:
            loops.append(draw.choice(loops))
    return file(width, height, inner, loops, labels)


def fields_at_random(draw):
    """A file in the order of its fields, with numbers of any size in them."""
    def some(most):
        return draw.choice((draw.randrange(most + 1), draw.randrange(most + 1), most + 1))

    inner = [(some(30), some(30)) for _ in range(draw.randrange(9))]
    loops = [(some(255), [some(len(inner) + 3) for _ in range(draw.randrange(7))])
             for _ in range(draw.randrange(7))]
    labels = [(some(255), bytes_at_random(draw, 9)) for _ in range(draw.randrange(3))]
    return file(draw.choice((31, some(8191))), draw.choice((31, some(8191))), inner, loops, labels)


def sheet_at_random(draw):
    """The bytes of a sheet file, good or bad."""
    kind = draw.randrange(16)
    data = draw.choice(GOOD)
    if kind < 6:
        return data
    if kind == 6:
        return file(*drawn(draw, draw.randrange(30), draw.randrange(9)))
    if kind == 7:
        return data[:draw.randrange(len(data))]
    if kind < 10:
        return damaged(draw, data)
    if kind == 10:
        return bytes([1]) + bytes_at_random(draw, 60)
    if kind == 11:
        return bytes_at_random(draw, 50000)
    if kind == 12:
        return fields_at_random(draw)
    if kind < 15:
        return draw.choice((broken(draw), broken(draw), draw.choice(BROKEN), damaged(draw, draw.choice(BROKEN))))
    return draw.choice((b"", largest(), largest() + b"\0", damaged(draw, largest()),
                        data + bytes_at_random(draw, 9), largest()[:-1]))


def huge_sheet(draw, path):
    """A file of 50 MB that begins as a good one does, or not."""
    out = Written(path)
    out.put(draw.choice((draw.choice(GOOD), largest(), b"")))
    out.put(draw.choice((b"\0", b"\x80", b"\xff", b"\x01", draw.randbytes(4096))) * 4096, 2)
    piece = draw.choice((b"\0" * PIECE, b"\x81" * PIECE, draw.randbytes(PIECE)))
    out.put(piece, 50_000_000 // PIECE)
    out.end()
