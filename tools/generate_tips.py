"""Makes tips of the sheet that a board holds: at places that are named, and at random.

A tip of two numbers is whole, one of three is rational. A board may hold anything, since
its tables may have been altered: what is no vertex is passed over.
"""

MILLION = 1_000_000

# The largest numbers of a fit rational tip.
MOST_Z, MOST_XY = 1_048_575, 8_589_934_591


def middle(a, b):
    """The tip in the middle of the line from a to b."""
    return a[0] + b[0], a[1] + b[1], 2


def beside(a, b):
    """A tip one part in a million left of the middle of the line from a to b."""
    (ax, ay), (bx, by) = a, b
    x, y = (ax + bx) * MILLION // 2, (ay + by) * MILLION // 2
    if abs(bx - ax) >= abs(by - ay):
        y += 1 if bx > ax else -1
    else:
        x += 1 if by < ay else -1
    return x, y, MILLION


def part_way(a, b, t, z):
    """The tip t parts of z of the way from a to b."""
    return a[0] * (z - t) + b[0] * t, a[1] * (z - t) + b[1] * t, z


def on_segment(draw, a, b, most_z):
    """A point of the segment from a to b, in parts of a Z at random."""
    z = draw.randint(1, most_z)
    return part_way(a, b, draw.randint(0, z), z)


def random_tip(draw, board):
    """A tip of one of five kinds, by turns as drawn: whole, rational, on an edge,
    on a side of a node, near a vertex. Some are off the sheet."""
    points, edges, _ = board.held()
    kind = draw.randrange(5)
    z = draw.choice((1, 2, 3, 1000, MILLION, MOST_Z, draw.randint(1, MOST_Z)))
    if kind == 0:
        return draw.randint(0, board.width + 1), draw.randint(0, board.height + 1)
    if kind == 1:
        return draw.randint(0, board.width * z), draw.randint(0, board.height * z), z
    if kind == 4:
        x, y = (max(0, w * z + draw.randint(-1, 1)) for w in draw.choice(points))
        return x, y, z
    a, b = draw.choice(edges) if kind == 2 else draw.choice(board.nodes).corners[:2]
    return part_way(points[a], points[b], draw.randint(0, z), z)


def of_kernel(tip, kernel):
    """A tip as the kernel takes it: where the point is not whole, one beside it."""
    x, y, z = (*tip, 1)[:3]
    return (x, y, z) if kernel == "rational" else (x // z, y // z)


def of_whole(tip):
    """A tip in two numbers of sixteen bits, whatever it is: the whole point below it, or the
    last one that there is."""
    x, y, z = (*tip, 1)[:3]
    return min(65535, x // max(1, z)), min(65535, y // max(1, z))


def centre(triangle):
    """The tip in the middle of three points."""
    return *(sum(p[i] for p in triangle) for i in (0, 1)), 3


def sides_of(node):
    a, b, c = node.corners
    return (a, b), (b, c), (c, a)


def some_z(draw):
    return draw.choice((1, 2, 3, 7, 1000, MILLION, MOST_Z, draw.randint(1, MOST_Z)))


def at_vertex(draw, board):
    x, y = draw.choice(board.held()[0])
    z = some_z(draw)
    return (x, y) if z == 1 else (x * z, y * z, z)


def of_some_side(draw, board, sides, made):
    """A tip that is made of the ends of one of these sides."""
    points = board.held()[0]
    sides = [(a, b) for a, b in sides if max(a, b) < len(points)]
    if not sides:
        return anywhere(draw, board)
    a, b = draw.choice(sides)
    return made(points[a], points[b])


def on_edge(draw, board):
    return of_some_side(draw, board, board.held()[1],
                        lambda a, b: on_segment(draw, a, b, some_z(draw)))


def diagonals(board):
    """The sides of bottom nodes that are no edges of the sheet."""
    return [side for node in board.nodes if node.count == 0
            for bit, side in zip((1, 2, 4), sides_of(node)) if not node.sides & bit]


def on_diagonal(draw, board):
    return of_some_side(draw, board, diagonals(board),
                        lambda a, b: on_segment(draw, a, b, some_z(draw)))


def on_upper_side(draw, board):
    sides = [side for node in board.nodes if node.count > 0 for side in sides_of(node)]
    return of_some_side(draw, board, sides,
                        lambda a, b: on_segment(draw, a, b, some_z(draw)))


def just_beside(draw, board):
    """One part in a million right or left of an edge or of a diagonal, anywhere on it."""
    def made(a, b):
        x, y, z = part_way(a, b, draw.randint(0, MILLION), MILLION)
        across, step = draw.randrange(2), draw.choice((-1, 1))
        # On a border this may be below 0, where there are no tips.
        return max(0, x + step * across), max(0, y + step * (1 - across)), z

    sides = diagonals(board) if draw.randrange(2) else board.held()[1]
    return of_some_side(draw, board, sides, made)


def in_node(draw, board):
    points = board.held()[0]
    corners = [node.corners for node in board.nodes if max(node.corners) < len(points)]
    if not corners:
        return anywhere(draw, board)
    return centre([points[v] for v in draw.choice(corners)])


def at_border(draw, board):
    """On a border, one step within it, or off the sheet by the least step that there is."""
    z = some_z(draw)
    w, h = board.width * z, board.height * z
    x, y = draw.randint(0, w), draw.randint(0, h)
    tip = draw.choice(((0, y), (1, y), (w, y), (max(0, w - 1), y), (w + 1, y),
                       (x, 0), (x, 1), (x, h), (x, max(0, h - 1)), (x, h + 1),
                       (w + 1, h + 1), (w, h), (0, h), (w, 0), (0, 0)))
    return tip if z == 1 and draw.randrange(2) else (*tip, z)


def unfit(draw, board):
    x, y = draw.randint(0, board.width), draw.randint(0, board.height)
    over = draw.choice((MOST_XY + 1, 2**64 - 1))
    return draw.choice(((x, y, 0), (x, y, MOST_Z + 1), (x, y, 2**32 - 1), (over, y, 1),
                        (x, over, MOST_Z), (0, 0, 0), (over, over, 0)))


def anywhere(draw, board):
    z = some_z(draw)
    x, y = draw.randint(0, board.width * z), draw.randint(0, board.height * z)
    return (x // z, y // z) if draw.randrange(2) else (x, y, z)


# The kinds of tips, and how often each is made.
KINDS = {at_vertex: 3, on_edge: 3, on_diagonal: 3, on_upper_side: 2, just_beside: 4, in_node: 2,
         at_border: 2, unfit: 1, anywhere: 2}


def hostile_tip(draw, board):
    """A tip of one of all kinds; of an empty board, one at no place of a sheet."""
    if board.empty:
        return draw.choice(((0, 0), (1, 1), (65535, 65535), (1, 1, 1), (1, 1, 0)))
    return draw.choices(tuple(KINDS), KINDS.values())[0](draw, board)
