"""Histories of turns drawn at random, for tools/turns_cases.py.

Each is played on a new board, always the same for the same seed: files good and
bad, and all other turns, in an order that often leads on to Sealed. Every turn
has to be tried in every stage, or there is no script at all.
"""

import random
from functools import partial

from generate_bad import byte_changed, cut_off, longer
from layer_cases import PLATE
from list_cases import LISTS
from place_cases import place
from sheets import AROUND, QUAD, SPRING, eight, grid, like_spring, row, scattered, spiral

HISTORIES, TURNS = 60, 16

# What a history is played on: mostly room for all these sheets. With less than
# a sheet needs, cut or round are refused 22, and with a short table every turn
# that is lent it 12.
BOARDS = (*["capacity 90", "capacity 8194", "blocks 2560", "blocks 512001"] * 4,
          "capacity 4", "capacity 11", "capacity 18", "blocks 511", "blocks 512",
          "short points 1027", "short live 2049", "short strokes 3076")

FAN = eight([(2, 6)], [[0, 1, 2], [0, 2, 4], [2, 3, 4], [3, 0, 4]])

GOOD = (SPRING, PLATE, FAN, row(8, 8, [(2, 4), (4, 4), (6, 4)]), grid(3, False), spiral(1),
        scattered(6, 40, 40, 6, 5), scattered(7, 60, 60, 8, 10))

# The spring sheet without its last loop, with its first one turned, with one
# vertex moved onto another, with one moved across edges.
BROKEN = (like_spring(AROUND[:-1]), like_spring([QUAD[::-1]] + AROUND[1:]),
          like_spring(AROUND, moved={5: (3, 3)}), like_spring(AROUND, moved={4: (11, 8)}))

# The turns, and how often each is drawn where it does not lead on.
OFTEN = {"load": 3, "check": 2, "cut": 2, "round": 2, "seal": 2, "place": 3, "list": 5, "wipe": 1}


def stage_of(board):
    return "empty" if board.empty else board.stage


def leading_on(draw, board, said):
    """A turn that leads on to Sealed, or back to a new sheet, after what was said;
    None where the sheet is sealed."""
    if said.startswith(("refused 12", "refused 22")):
        return "wipe"
    if board.stage == "Draft":
        # A file that is refused or breaks a rule is followed by another one.
        bad = said.startswith("refused") and not said.startswith("refused 28")
        again = board.empty or bad or draw.randrange(4) == 0
        return "load" if again else "check"
    if board.stage == "Layered":
        # Some seals come too early, and some rounds too late.
        last = said.startswith("refused 24") or draw.randrange(5) == 0
        return "seal" if last else "round"
    return "cut" if board.stage == "Checked" else None


def file_at_random(draw):
    """A good file; or one that is cut off, has a byte too many or another byte
    somewhere, or whose sheet breaks a rule."""
    data, kind = draw.choice(GOOD), draw.randrange(10)
    if kind == 0:
        return cut_off(draw, data)
    if kind == 1:
        return longer(draw, data)
    if kind <= 3:
        return byte_changed(draw, data, 16)
    return draw.choice(BROKEN) if kind == 4 else data


def tip_at_random(draw, board, kernel):
    x, y = draw.randint(0, board.width + 1), draw.randint(0, board.height + 1)
    if kernel == "whole":
        return x, y
    z = draw.choice((0, 1, 2, 3, 7))
    return x * z + draw.randint(0, 1), y * z + draw.randint(0, 1), z


def play(s, draw, turn, some_file):
    board = s.player.board
    if turn == "load":
        s.load(some_file())
    elif turn in ("place", "list"):
        kernel = draw.choice(tuple(LISTS))
        if turn == "place":
            place(s, tip_at_random(draw, board, kernel))
        else:
            tips = [tip_at_random(draw, board, kernel) for _ in range(draw.randrange(5))]
            LISTS[kernel](s, max(0, len(tips) + draw.choice((-1, 0, 0, 1))), tips)
    else:
        s.do(turn)


def history(s, draw, boards, some_file, tried):
    """One history on one of these boards, and what it holds at its end."""
    s.do(draw.choice(boards), "ok")
    for _ in range(TURNS):
        board = s.player.board
        turn = leading_on(draw, board, s.outcomes[-1]) if draw.randrange(10) < 7 else None
        if turn is None:
            turn = draw.choices(tuple(OFTEN), OFTEN.values())[0]
        stage = stage_of(board)
        play(s, draw, turn, some_file)
        # Over a short table it is not the stage that decides.
        if not s.outcomes[-1].startswith("refused 12"):
            tried.add((turn, stage))
    for command in ("stage", "tables", "live", "cards"):
        s.do(command)


def history_cases(s):
    tried = set()
    for seed in range(HISTORIES):
        s.note(f"a history of turns at random, {seed + 1} of {HISTORIES}")
        draw = random.Random(seed)
        history(s, draw, BOARDS, partial(file_at_random, draw), tried)
    stages = ("empty", "Draft", "Checked", "Layered", "Sealed")
    never = [(turn, stage) for turn in OFTEN for stage in stages if (turn, stage) not in tried]
    if never:
        raise SystemExit(f"never tried in the histories: {never}")
