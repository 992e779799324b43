"""Makes scripts of turns, each always the same for its seed; the reference plays along.

A script is of one kind: whole runs, broken sheets, damaged files, runs between which tables
are altered, turns in any order, short tables and stores. What it asks next depends on what
the reference's board holds; a board that differs from it would soon be asked something else.
"""

import random
from copy import deepcopy
from dataclasses import dataclass

from generate import filled, fullest, good
from generate_bad import (DAMAGES, WAYS, add_corner, at_limits, broken, damaged, list_again,
                          one_label_more, one_vertex_more)
from generate_changes import before, change
from generate_tips import centre, hostile_tip, of_kernel, of_whole
from history_cases import BOARDS, history
from list_cases import LISTS
from place_cases import place
from sketches import MOST_INNER, merge


@dataclass
class Scale:
    """How large a script is."""
    inner: int  # how many inner vertices a sheet has, at most
    sheets: int  # how many sheets there are, at most
    tips: int  # how many are asked of a sealed sheet
    changes: int  # how often a run is altered, at most
    looks: int  # one in so many turns is followed by a look at the board


def new_board(s, draw, inner, scarce=False):
    """A board over a store of either kind, with room for a sheet of so many inner vertices; or
    one that may have too little."""
    least, most = 2 * inner + 2, 8 * inner + 2
    count = draw.choice((draw.randint(0, least), draw.randint(least, most)) if scarce else
                        (most, most, 8194, 65535))
    if draw.randrange(2):
        s.do(f"capacity {count}", "ok")
    else:
        whole = 512 * -(-count // 18)
        s.do(f"blocks {draw.choice((whole, whole + 511, max(whole, 512001)))}", "ok")


def look(s, draw, scale):
    if draw.randrange(scale.looks) == 0:
        s.do(draw.choice(("stage", "tables", "live", "cards")))


def next_turn(draw, board, said):
    """The turn that leads on towards Sealed, now and then a seal that comes too early."""
    if board.stage == "Layered":
        last = said.startswith("refused 24") or draw.randrange(12) == 0
        return "seal" if last else "round"
    return {"Draft": "check", "Checked": "cut"}[board.stage]


def lead_on(s, draw, scale, turns=60):
    """Turns until the sheet is sealed, or one is refused that would be so again."""
    said = ""
    for _ in range(turns):
        board = s.player.board
        if board.stage == "Sealed":
            return
        said = s.do(next_turn(draw, board, said))
        if said.startswith("refused") and said[:10] not in ("refused 23", "refused 24"):
            return
        look(s, draw, scale)


def ask_list(s, draw, count):
    """A list of so many tips, into a table that is mostly long enough."""
    tips = [hostile_tip(draw, s.player.board) for _ in range(count)]
    kernel = draw.choice(tuple(LISTS))
    tips = [of_whole(tip) if kernel == "whole" else of_kernel(tip, kernel) for tip in tips]
    LISTS[kernel](s, max(0, count + draw.choice((0, 0, 0, 1, 40, -1))), tips)


def ask(s, draw, count):
    """About so many tips, alone and in lists."""
    while count > 0:
        if draw.randrange(3):
            tip = hostile_tip(draw, s.player.board)
            place(s, tip if draw.randrange(3) else of_whole(tip))
            count -= 1
        else:
            size = min(count, draw.choice((0, 1, 3, 8, 20)))
            ask_list(s, draw, size)
            count -= max(1, size)


def ask_wordings(s, draw, data, loops):
    for _ in range(draw.randrange(3)):
        kind = draw.choice((3, 3, 3, 1, 2))
        s.wording(data, kind, draw.choice((0, loops, draw.randint(0, loops))), draw.randrange(9))


def fresh(s, draw):
    """A Draft, in which a file can be loaded."""
    if s.player.board.stage != "Draft" or draw.randrange(3) == 0:
        s.do("wipe", "ok")


def run(s, draw, scale):
    """Whole runs of good sheets on one board; where its store was too small, one more that
    has exactly room for what was refused."""
    new_board(s, draw, scale.inner, draw.randrange(3) == 0)
    for _ in range(draw.randint(1, scale.sheets)):
        drawn = good(draw, scale.inner)
        whole_run(s, draw, scale, drawn)
        said = s.outcomes[-1]
        if said.startswith("refused 22"):
            s.do(f"capacity {said.split()[3]}", "ok")
            whole_run(s, draw, scale, drawn)


def whole_run(s, draw, scale, drawn):
    data = drawn.file()
    fresh(s, draw)
    s.load(data, "ok")
    s.check("ok")
    lead_on(s, draw, scale)
    if s.outcomes[-1].startswith("refused 22"):
        return
    ask(s, draw, scale.tips)
    ask_wordings(s, draw, data, len(drawn.loops))
    for command in ("cards", "live"):
        s.do(command)


def full_run(s, draw, scale):
    """A whole run of a sheet of the largest counts, and files that have one more of anything."""
    new_board(s, draw, MOST_INNER)
    drawn = fullest(draw)
    whole_run(s, draw, scale, drawn)
    s.do("wipe", "ok")
    for more in (list_again, add_corner, one_vertex_more, one_label_more):
        past = deepcopy(drawn)
        past.numerals = []
        more(draw, past)
        s.load(past.file())
        s.wording(past.file(), 3, 0, 0)


def broken_sheets(s, draw, scale):
    """For each rule a sheet that breaks it; where vertices alone were moved, they are moved
    back in the tables, and the sheet goes on to be sealed."""
    new_board(s, draw, scale.inner)
    for _ in range(draw.randint(1, scale.sheets)):
        drawn = good(draw, scale.inner)
        for rule in draw.sample(sorted(WAYS), min(len(WAYS), 2 * scale.sheets)):
            bad = broken(draw, drawn, rule)
            if bad is None:
                continue
            fresh(s, draw)
            s.load(bad.file(), "ok")
            said = s.do("check")
            if not said.startswith(f"refused {rule} 2 "):
                raise SystemExit(f"rule {rule} is broken, and told is {said}")
            look(s, draw, scale)
            s.do(draw.choice(("cut", "round", "seal", "check")))
            if bad.loops == drawn.loops and len(bad.points) == len(drawn.points):
                for v, (x, y) in enumerate(drawn.points):
                    if bad.points[v] != (x, y):
                        s.alter(f"points {v} {x} {y}")
                lead_on(s, draw, scale)
                ask(s, draw, scale.tips // 4)


def damaged_files(s, draw, scale):
    """Files with one thing wrong; of some that can be read, the tables and the check."""
    drawn = good(draw, min(scale.inner, 100))
    new_board(s, draw, scale.inner)
    for _ in range(8 * scale.sheets):
        data = damaged(draw, drawn)
        if draw.randrange(4) == 0:
            # The first of two faults is told.
            data = draw.choice(DAMAGES)(draw, data or b"\1")
        said = s.load(data)
        if draw.randrange(4) == 0:
            kind = draw.choice((1, 2, 3))
            s.wording(data, kind, draw.randint(0, len(drawn.loops)), 0)
        if said == "ok" or draw.randrange(8) == 0:
            s.tables()
            s.do("check")
            # What is checked is not loaded over.
            fresh(s, draw)


def altered_runs(s, draw, scale):
    """Runs of good sheets between whose turns tables and nodes are altered, and often put
    back: alone, several at once, at every stage."""
    new_board(s, draw, scale.inner)
    for _ in range(draw.randint(1, scale.sheets)):
        fresh(s, draw)
        s.load(good(draw, scale.inner).file(), "ok")
        for _ in range(draw.randint(1, scale.changes)):
            lead_on(s, draw, scale, draw.choice((0, 0, 1, 1, 2, 5, 60)))
            back = alter_some(s, draw)
            after_change(s, draw, scale, back)
            if draw.randrange(2):
                put_in(s, back)
        lead_on(s, draw, scale)
        ask(s, draw, scale.tips // 2)
        s.do(draw.choice(("cards", "live", "tables", "stage")))


def put_in(s, changes):
    for name, i, numbers in changes:
        s.do(" ".join(map(str, ("alter", name, i, *numbers))))


def alter_some(s, draw):
    """Some changes; what undoes them."""
    back = []
    for _ in range(draw.choice((1, 1, 1, 2, 4))):
        changes = change(draw, s.player.board)
        back = before(s.player.board, changes) + back
        put_in(s, changes)
    return back


def after_change(s, draw, scale, back):
    """What is asked once something was altered: the turn that is due, and others; of a sealed
    sheet tips, also such as were in the nodes that were altered."""
    board = s.player.board
    if board.stage == "Sealed":
        ask(s, draw, max(2, scale.tips // 4))
        at = board.held()[0]
        for name, _, numbers in back:
            if name == "nodes" and max(numbers[:3]) < len(at):
                place(s, centre([at[v] for v in numbers[:3]]))
    else:
        s.do(next_turn(draw, board, ""))
    if draw.randrange(3) == 0:
        s.do(draw.choice(("check", "cut", "round", "seal", "live", "cards", "tables", "stage")))


def any_order(s, draw, scale):
    """Turns in any order, of good, broken and damaged files."""
    drawn = [good(draw, min(scale.inner, 100)) for _ in range(3)]
    files = [d.file() for d in drawn for _ in range(4)]
    files += [damaged(draw, d) for d in drawn]
    bad = [broken(draw, d, draw.choice(sorted(WAYS))) for d in drawn]
    files += [d.file() for d in bad if d is not None]
    boards = (*BOARDS, *[f"capacity {8 * scale.inner + 2}", "blocks 512001"] * 12)
    history(s, draw, boards, lambda: draw.choice(files), set())


def stuck_rounds(s, draw, scale):
    """Vertices gathered at one point, where no hole that has two of them as corners can be
    cut; then put back one by one, with a round tried each time: so one is granted as soon as
    it takes out a vertex for each eighteen that are left."""
    new_board(s, draw, 100)
    drawn = filled(draw, min(draw.choice((17, 18, 18, 19, 36, 36, 37, 54, 72)), 3 * scale.inner))
    merge(draw, drawn, draw.randrange(20))
    s.load(drawn.file(), "ok")
    s.check("ok")
    s.do("cut", "ok")
    gathered = [(v, p) for v, p in enumerate(drawn.points) if v >= 4]
    draw.shuffle(gathered)
    x, y = draw.choice(drawn.points)
    for v, _ in gathered:
        s.alter(f"points {v} {x} {y}")
    for v, (x, y) in gathered:
        s.do("round")
        s.alter(f"points {v} {x} {y}")
    lead_on(s, draw, scale)
    s.do("cards")


def limit_files(s, draw, scale):
    """Files at the limits of all counts, or one past a limit."""
    new_board(s, draw, scale.inner)
    for _ in range(scale.sheets):
        data = at_limits(draw)
        fresh(s, draw)
        s.load(data)
        s.tables()
        s.wording(data, 3, draw.randrange(2051), 0)
        s.do("check")


# The least sizes that the documents name.
LEAST = {"points": 1028, "edges": 6154, "strokes": 3077, "loops": 2050, "live": 2050}


def short_tables(s, draw, scale):
    """Every turn over a table that is a little too short, or just long enough."""
    name = draw.choice(sorted(LEAST))
    length = LEAST[name] + draw.choice((-LEAST[name], -2, -1, 0, 1, 500))
    s.do(f"short {name} {length}", "ok")
    data = good(draw, scale.inner).file()
    turns = ["load " + data.hex(), "check", "cut", "round", "seal", "wipe", "tables", "stage"]
    for turn in draw.sample(turns, len(turns)):
        s.do(turn)
        ask(s, draw, draw.randrange(2))
    fresh(s, draw)
    s.load(data)
    lead_on(s, draw, scale)
    ask(s, draw, scale.tips // 2)


# The kinds of scripts, and how often each is made.
KINDS = {run: 6, broken_sheets: 3, damaged_files: 4, altered_runs: 8, stuck_rounds: 1,
         any_order: 3, short_tables: 1}

SMALL, MIDDLE = Scale(8, 3, 30, 12, 3), Scale(30, 2, 40, 12, 4)
LARGE, VAST = Scale(100, 2, 60, 8, 6), Scale(900, 1, 150, 6, 9)

# How many of a thousand scripts are of each scale: the reference is slow on large ones.
SCALES = (*[SMALL] * 500, *[MIDDLE] * 350, *[LARGE] * 143, *[VAST] * 7)


def script_of(s, seed):
    """One script of any kind and of any scale; one in a thousand is a run of a sheet of the
    largest counts."""
    # Any thousand seeds in a row come to each scale once, and small ones alternate with large.
    number = seed * 377 % len(SCALES)
    kind = full_run if number == len(SCALES) - 1 else limit_files if number % 71 == 0 else None
    script(s, seed, SCALES[number], kind)


def script(s, seed, scale, kind=None):
    """One script of this kind, or of any of those that are not too long."""
    draw = random.Random(seed)
    kind = kind or draw.choices(tuple(KINDS), KINDS.values())[0]
    s.note(f"{kind.__name__.replace('_', ' ')}, seed {seed}")
    kind(s, draw, scale)
