"""What a kernel tells of a tip, in exact whole numbers.

A tip (X, Y, Z) means the point (X/Z, Y/Z); a whole tip has Z = 1.
"""

# The largest numbers of a rational tip that is fit.
MOST_Z = 1_048_575
MOST_XY = 8_589_934_591

# Tips are made at whole points with coordinates up to this one.
MOST_MADE = 8_191

WORD, DOUBLE, QUAD = 2**16 - 1, 2**32 - 1, 2**64 - 1

# The largest number that each word of a tip may be, by its kernel.
KERNELS = {"whole": [WORD, WORD], "rational": [QUAD, QUAD, DOUBLE]}

# The same of the words after the tip: the sheet's W and H, the points a and b.
FRAME = [WORD] * 6


def numbers(words, most):
    """The numbers that the first words are; None where one is missing, is no
    number, or is larger than its type."""
    if len(words) < len(most):
        return None
    found = []
    for word, limit in zip(words, most):
        digits = word.removeprefix("+")
        if not (digits.isascii() and digits.isdigit()) or int(digits) > limit:
            return None
        found.append(int(digits))
    return found


def sign(d):
    return (d > 0) - (d < 0)


def side(tip, a, b):
    """-1, 0 or 1: right of the line from a to b, on it, left of it."""
    (x, y, z), (ax, ay), (bx, by) = tip, a, b
    return sign((bx - ax) * (y - ay * z) - (by - ay) * (x - ax * z))


def on_sheet(tip, width, height):
    x, y, z = tip
    return 0 <= x <= width * z and 0 <= y <= height * z


def fit(kernel, tip):
    x, y, z = tip
    if kernel == "whole":
        return True
    return 1 <= z <= MOST_Z and x <= MOST_XY and y <= MOST_XY


def tip_of(kernel, words):
    """The tip that the first words are; None where one is no number of it."""
    found = numbers(words, KERNELS[kernel])
    return found + [1] if found and kernel == "whole" else found


def told(kernel, words):
    """The outcome of a command that names a tip, a sheet and a line."""
    tip = tip_of(kernel, words)
    frame = numbers(words[len(KERNELS[kernel]):], FRAME)
    if tip is None or frame is None:
        return "no such number"
    if not fit(kernel, tip):
        return "ok unfit side 0 on no"
    width, height, ax, ay, bx, by = frame
    on = "yes" if on_sheet(tip, width, height) else "no"
    return f"ok fit side {side(tip, (ax, ay), (bx, by))} on {on}"


def made(kernel, words):
    """The outcome of a command that makes a tip at a whole point."""
    if kernel not in KERNELS:
        return "no such kernel"
    at = numbers(words, [WORD, WORD])
    if at is None:
        return "no such number"
    if max(at) > MOST_MADE:
        return "ok none"
    x, y = at
    return f"ok {x} {y}" if kernel == "whole" else f"ok {x} {y} 1"
