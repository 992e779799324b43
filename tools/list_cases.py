"""Cases of the turn list, for tools/turns_cases.py.

Most lists are of tips whose answers are named, with their counts of tests, in
place_cases.py, where they were found by hand. Of lists drawn at random and of
long ones the reference tells what place gives for each tip. Histories of turns
are in history_cases.py.
"""

import random

from generate_tips import MOST_XY, MOST_Z, of_kernel, random_tip
from layer_cases import LENT, PLATE, keeps, layered
from place_altered_cases import GARBAGE, mend, put
from place_cases import sealed
from sheets import SPRING, grid, scattered, spiral

# The worked whole tips of the spring sheet and one off it; what is told of each.
SPRING_LIST = ((6, 5), (9, 7), (1, 1), (13, 5))
SPRING_TOLD = ("3 0 0 tests 20", "1 6 0 tests 22", "2 0 4 tests 13", "refused 26")

SHORT, NOT_SEALED = "refused 12 4 0", "refused 28 4 0"
NO_NUMBER, NO_TIPS = "no such number", "no such tips"


def command(turn, entries, tips):
    return " ".join(map(str, (turn, entries, *(v for tip in tips for v in tip))))


def whole(s, entries, tips, expected=None):
    return s.do(command("list", entries, tips), expected)


def rational(s, entries, tips, expected=None):
    return s.do(command("listq", entries, tips), expected)


def granted(told):
    return f"ok {'; '.join(told)}".rstrip()


def spring_list(s, *changed):
    """The worked tips in one list; of some, (i, what is told now)."""
    whole(s, 4, SPRING_LIST, granted({**dict(enumerate(SPRING_TOLD)), **dict(changed)}.values()))


def spring_lists(s):
    for board in ("capacity 18", "blocks 512"):
        s.note(f"the worked tips of the spring sheet in lists, after {board}")
        s.do(board, "ok")
        sealed(s, SPRING)
        s.do("list 4 6 5 9 7 1 1 13 5", "ok 3 0 0 tests 20; 1 6 0 tests 22; "
             "2 0 4 tests 13; refused 26")
        s.do("listq 1 9 14 3", "ok 2 4 7 tests 12")
        s.note("unfit ones, ones off the sheet, the same one several times")
        s.do("listq 5 1 1 0 39 15 3 9 14 3 18 15 3 9 14 1048576",
             "ok refused 25; refused 26; 2 4 7 tests 12; 3 0 0 tests 20; refused 25")
        rational(s, 2, [(MOST_XY, 0, 1), (MOST_XY + 1, 0, 1)], "ok refused 26; refused 25")
        rational(s, 1, [(2**64 - 1, 2**64 - 1, 2**32 - 1)], "ok refused 25")
        rational(s, 2, [(9 * MOST_Z, 7 * MOST_Z, MOST_Z), (13, 13, 13)],
                 "ok 1 6 0 tests 22; 2 0 4 tests 13")
        whole(s, 3, [(1, 1)] * 3, granted(["2 0 4 tests 13"] * 3))
        whole(s, 2, [(65535, 65535), (9, 7)], "ok refused 26; 1 6 0 tests 22")
    s.note("every two of them, in either order")
    for i in range(4):
        for j in range(4):
            whole(s, 2, [SPRING_LIST[i], SPRING_LIST[j]],
                  granted([SPRING_TOLD[i], SPRING_TOLD[j]]))


def answers(s):
    s.note("12: fewer answers than tips; as many; more, up to the most there can be")
    s.do("capacity 18", "ok")
    sealed(s, SPRING)
    for entries in (0, 1, 2, 3):
        whole(s, entries, SPRING_LIST, SHORT)
    for entries in (4, 5, 300, 65535):
        whole(s, entries, SPRING_LIST, granted(SPRING_TOLD))
    rational(s, 0, [(9, 14, 3)], SHORT)
    rational(s, 2, [(9, 14, 3)], "ok 2 4 7 tests 12")
    s.note("12 before 25 and 26, which are of single tips")
    rational(s, 1, [(1, 1, 0), (13, 5, 1)], SHORT)
    s.note("no tips: granted with any answers, none too")
    for entries in (0, 1, 65535):
        whole(s, entries, [], "ok")
        rational(s, entries, [], "ok")
    s.note("nothing of the board changes, whether it is granted or not")
    for entries, expected in ((4, granted(SPRING_TOLD)), (3, SHORT)):
        keeps(s, command("list", entries, SPRING_LIST), expected)


def wrong_stages(s):
    def refusing():
        whole(s, 4, SPRING_LIST, NOT_SEALED)
        whole(s, 3, SPRING_LIST, SHORT)
        rational(s, 9, [(1, 1, 0)], NOT_SEALED)
        whole(s, 0, [], NOT_SEALED)

    s.note("28, and 12 before it: empty, loaded, checked, cut, after each round")
    s.do("capacity 18", "ok")
    refusing()
    s.load(SPRING, "ok")
    refusing()
    s.check("ok")
    refusing()
    s.do("cut", "ok")
    refusing()
    for _ in range(3):
        s.do("round")
        refusing()
    keeps(s, command("list", 4, SPRING_LIST), NOT_SEALED)
    s.do("seal", "ok")
    spring_list(s)
    s.note("28 and 12: wiped; a file that is refused")
    s.do("wipe", "ok")
    refusing()
    s.load(SPRING[:51], "refused 1 1 51")
    refusing()


def short_tables(s):
    s.note("12 before 28: a table too short that list is lent, as place is")
    for name, least in (("points", 1028), ("edges", 6154), ("strokes", 3077),
                        ("loops", 2050), ("live", 2050)):
        for length in (0, least - 1):
            s.do(f"short {name} {length}", "ok")
            said = SHORT if name in LENT["round"] else NOT_SEALED
            whole(s, 4, SPRING_LIST, said)
            whole(s, 3, SPRING_LIST, SHORT)
            whole(s, 0, [], said)
        if name in LENT["round"]:
            s.do(f"short {name} {least}", "ok")
            whole(s, 4, SPRING_LIST, NOT_SEALED)
            sealed(s, SPRING)
            spring_list(s)


def words(s):
    s.note("words of no list: the count of answers, how many there are, the numbers")
    s.do("capacity 18", "ok")
    for bad, said in (("x 6", NO_NUMBER), ("0 6", NO_TIPS), ("0 6 x", NO_NUMBER)):
        s.do("list " + bad, said)
    sealed(s, SPRING)
    for bad in ("", " x", " -1 6 5", " 65536 6 5", " x 6", " 65536 x", " 4.0 6 5"):
        s.do("list" + bad, NO_NUMBER)
        s.do("listq" + bad, NO_NUMBER)
    for bad in (" 1 6", " 1 x", " 0 6 5 9", " 1 6 x 9", " 65535 65536"):
        s.do("list" + bad, NO_TIPS)
    for bad in (" 1 6", " 1 6 5", " 1 x 5", " 1 6 5 1 6", " 0 6 5 1 x -1"):
        s.do("listq" + bad, NO_TIPS)
    for bad in (" 1 6 x", " 1 x 5", " 0 65536 5", " 1 6 65536", " 2 6 5 9 -7",
                " 2 6 5 x 7", " 0 6 5 9 7 1 1 13 +"):
        s.do("list" + bad, NO_NUMBER)
    for bad in (" 1 6 5 x", " 1 6 x 1", " 1 -6 5 1", " 1 6 5 4294967296",
                " 1 6 18446744073709551616 1", " 2 6 5 1 18446744073709551616 5 1"):
        s.do("listq" + bad, NO_NUMBER)
    s.note("zeros or a plus sign in front")
    s.do("list +04 006 +5 9 7 1 1 13 5", granted(SPRING_TOLD))
    s.do("listq 001 +9 0014 3", "ok 2 4 7 tests 12")


def one_after_another(s):
    s.note("another sheet after a wipe on the same board, and the first one again")
    s.do("blocks 512", "ok")
    sealed(s, SPRING)
    spring_list(s)
    sealed(s, PLATE)
    whole(s, 4, [(1, 1), (6, 5), (2, 2), (0, 1)],
          "ok 3 0 0 tests 3; refused 26; 1 2 0 tests 6; 2 0 3 tests 3")
    whole(s, 4, SPRING_LIST, "ok refused 26; refused 26; 3 0 0 tests 3; refused 26")
    s.note("28: wiped, then taken up to its last round")
    s.do("wipe", "ok")
    whole(s, 4, SPRING_LIST, NOT_SEALED)
    layered(s, SPRING)
    for _ in range(3):
        s.do("round")
    whole(s, 4, SPRING_LIST, NOT_SEALED)
    s.do("seal", "ok")
    spring_list(s)


def altered(s):
    # Beside the tops 16 and 17: (6, 5) comes to the nodes 8, 11, 14, 4, 13, 12
    # and 1; (9, 7) to 8, 11, 14, 4, 13 and 1; (1, 1) to 8, 11, 0 and 9; and the
    # rational tip to 8, 11 and 0. The second top is come to by (9, 7) alone.
    for board in ("capacity 18", "blocks 512"):
        s.note(f"27 of a tip, after {board}; the others are answered all the same")
        s.do(board, "ok")
        sealed(s, SPRING)
        wrong = "refused 27"
        for node, tips in ((1, (0, 1)), (12, (0,)), (17, (1,)), (0, (2,)), (11, (0, 1, 2))):
            put(s, node, GARBAGE)
            spring_list(s, *((i, wrong) for i in tips))
            mend(s, node)
        put(s, 9, GARBAGE)
        spring_list(s, (2, wrong))
        rational(s, 4, [(9, 14, 3), (1, 1, 1), (1, 1, 0), (9, 7, 1)],
                 "ok 2 4 7 tests 12; refused 27; refused 25; 1 6 0 tests 22")
        mend(s, 9)
        s.note("27 of all that are on the sheet; 25 and 26 come before it")
        s.alter("live 0 65535")
        spring_list(s, (0, wrong), (1, wrong), (2, wrong))
        rational(s, 3, [(1, 1, 0), (13, 5, 1), (9, 14, 3)],
                 "ok refused 25; refused 26; refused 27")
        s.note("12 before it, and no tips at all")
        whole(s, 3, SPRING_LIST, SHORT)
        whole(s, 0, [], "ok")
        s.alter("live 0 16")
        s.note("edges and loops are not lent to it; a vertex moved onto a tip")
        s.alter("edges 0 9 9")
        s.alter("loops 0 999 9 9")
        spring_list(s)
        s.alter("points 7 6 5")
        whole(s, 1, [(6, 5)], "ok 1 7 0 tests 6")


def tips_at_random(s, draw, kernel, count):
    """So many tips, of which one in twelve rational ones is not fit."""
    tips = [of_kernel(random_tip(draw, s.player.board), kernel) for _ in range(count)]
    if kernel == "rational":
        tips = [(x, y, draw.choice((0, MOST_Z + 1))) if draw.randrange(12) == 0 else (x, y, z)
                for x, y, z in tips]
    return tips


LISTS = {"whole": whole, "rational": rational}


def random_lists(s):
    draw = random.Random(1879)
    for number, (board, data) in enumerate((
            ("blocks 512", SPRING), ("capacity 8194", spiral(4)),
            ("blocks 512001", grid(8, True)),
            ("capacity 8194", scattered(4, 8191, 4000, 150, 120))), 1):
        s.note(f"lists of 1 to 20 tips at random, in sheet {number} of 4")
        s.do(board, "ok")
        sealed(s, data)
        for kernel, ask in LISTS.items():
            left = 75
            while left > 0:
                count = min(left, draw.randint(1, 20))
                left -= count
                tips = tips_at_random(s, draw, kernel, count)
                # Some have answers to spare, and some first have one too few.
                if draw.randrange(6) == 0:
                    ask(s, count - 1, tips, SHORT)
                ask(s, count + draw.choice((0, 0, 1, 50)), tips)


def long_lists(s):
    draw = random.Random(1880)
    for board, data in (("blocks 512001", scattered(5, 8191, 8191, 100, 80)),
                        ("capacity 18", SPRING)):
        s.note(f"lists of 500 tips, after {board}")
        s.do(board, "ok")
        sealed(s, data)
        for kernel, ask in LISTS.items():
            tips = tips_at_random(s, draw, kernel, 500)
            ask(s, 499, tips, SHORT)
            ask(s, 500, tips)


def list_cases(s):
    for part in (spring_lists, answers, wrong_stages, short_tables, words, one_after_another,
                 altered, random_lists, long_lists):
        part(s)
