"""Makes changes of a board's tables and of its store, as a caller may make them between turns.

A change is a list of what `alter` is told: the name of a table, an entry, its new numbers.
"""

import turns_script  # first, since it says where the reference's files are
from layers import fan, spokes

BEYOND = 65535


def around(draw, value, bound):
    """Another number for one that is below a bound: near it, at the bound, or anything."""
    return draw.choice((max(0, value - 1), min(BEYOND, value + 1), 0, max(0, bound - 1), bound,
                        bound + 1, BEYOND, draw.randrange(bound + 1), draw.randrange(bound + 1)))


def entry_of(draw, count, least=0):
    """An entry that is in use, mostly; else one behind."""
    if count <= least or draw.randrange(30) == 0:
        return draw.choice((count, count + 1, 2049, BEYOND))
    return draw.randrange(least, count)


def vertices(board):
    return len(board.held()[0])


def point(draw, board):
    """A vertex moved: within the sheet, onto another one or beside it, on a border, outside."""
    points = board.held()[0]
    v = entry_of(draw, len(points), draw.choice((0, 4, 4, 4)))
    x, y = draw.choice(points or [(0, 0)])
    if draw.randrange(2):
        x, y = draw.randint(0, board.width), draw.randint(0, board.height)
    if draw.randrange(4) == 0:
        x = around(draw, x, board.width)
    if draw.randrange(4) == 0:
        y = around(draw, y, board.height)
    return [("points", v, (x, y))]


def points_within(draw, board):
    """Some vertices moved within the sheet, so that the tables hold another one."""
    if board.width < 2 or board.inner == 0:
        return []
    return [("points", draw.randrange(4, board.inner + 4),
             (draw.randrange(1, board.width), draw.randrange(1, board.height)))
            for _ in range(draw.randint(1, 4))]


def points_changed(draw, board):
    """Two vertices, each at the point of the other; or both at one."""
    points = board.held()[0]
    if board.inner < 2:
        return []
    v, w = draw.sample(range(4, len(points)), 2)
    return [("points", v, points[w]), ("points", w, draw.choice((points[v], points[w])))]


def points_gathered(draw, board):
    """Many vertices at one point, where no hole that has two of them as corners can be cut."""
    if board.inner < 2:
        return []
    to = draw.choice(board.held()[0])
    return [("points", v, to) for v in range(4, board.inner + 4) if draw.randrange(4)]


def edge(draw, board):
    edges = board.held()[1]
    i = entry_of(draw, len(edges))
    numbers = list(edges[i]) if i < len(edges) else [0, 0]
    k = draw.randrange(2)
    numbers[k] = around(draw, numbers[k], vertices(board))
    return [("edges", i, numbers)]


def ring(start, corners):
    """All edges of a loop, of these corners."""
    return [("edges", start + j, (a, b))
            for j, (a, b) in enumerate(zip(corners, corners[1:] + corners[:1]))]


def loop_renamed(draw, board):
    """Other corners for a whole loop, so that it still closes up: from another one on, turned,
    in another order, one named twice, others of the sheet, those of another loop."""
    _, edges, loops = board.held()
    if not loops:
        return []
    _, start, k = draw.choice(loops)
    corners = [a for a, _ in edges[start:start + k]]
    kind = draw.randrange(6)
    if kind == 0 and corners:
        corners = corners[1:] + corners[:1]
    elif kind == 1:
        corners = corners[::-1]
    elif kind == 2:
        draw.shuffle(corners)
    elif kind == 5:
        _, other, k = draw.choice([loop for loop in loops if loop[2] == k])
        corners = [a for a, _ in edges[other:other + k]]
    elif corners:
        # With one more than there are, so that a corner and the edge before it name no vertex.
        source = corners if kind == 3 else range(vertices(board) + 1)
        corners[draw.randrange(len(corners))] = draw.choice(source)
    return ring(start, corners)


def loop_entry(draw, board):
    loops = board.held()[2]
    i = len(loops) - 1 if loops and draw.randrange(4) == 0 else entry_of(draw, len(loops))
    numbers = list(loops[i]) if i < len(loops) else [0, 0, 0]
    k = draw.choice((0, 1, 2, 2))
    numbers[k] = around(draw, numbers[k], (256, board.corners, vertices(board))[k])
    return [("loops", i, numbers)]


def loop_bound(draw, board):
    """The last corner of a loop is given to the next loop, or the other way round, so that the
    starts are right; both close up again."""
    _, edges, loops = board.held()
    if len(loops) < 2:
        return []
    i = draw.randrange(len(loops) - 1)
    (n, start, k), (m, _, j) = loops[i:i + 2]
    step = draw.choice((-1, 1))
    corners = [a for a, _ in edges[start:start + k + j]]
    return [("loops", i, (n, start, k + step)), ("loops", i + 1, (m, start + k + step, j - step)),
            *ring(start, corners[:k + step]), *ring(start + k + step, corners[k + step:])]


def live(draw, board):
    numbers = board.live_nodes()
    i = entry_of(draw, len(numbers))
    value = numbers[i] if i < len(numbers) else 0
    return [("live", i, (around(draw, value, len(board.nodes)),))]


def other_live(draw, board):
    """Other nodes live, in ascending order: such as were children, or are to be."""
    count = len(board.live_nodes())
    if not 0 < count <= min(40, len(board.nodes)):
        return []
    nodes = sorted(draw.sample(range(len(board.nodes)), count))
    return [("live", i, (number,)) for i, number in enumerate(nodes)]


def live_nodes(board):
    """The live numbers that are nodes."""
    return [k for k in board.live_nodes() if k < len(board.nodes)]


def spokes_of(board):
    """What the reference finds about the vertices that are left, whatever is altered."""
    return {v: found for v, found in spokes(board.nodes, live_nodes(board)).items()
            if v < vertices(board)}


def some_node(draw, board):
    """A live node, or any: those of high numbers are the ones that walks come to."""
    count = len(board.nodes)
    numbers = live_nodes(board)
    if numbers and draw.randrange(2):
        return draw.choice(numbers)
    return max(draw.randrange(count), draw.randrange(count))


def fan_changed(draw, board):
    """The live nodes of a vertex as a fan about other corners, which closes up as well: one of
    the sheet's corners becomes another one or the vertex itself, or all are drawn anew."""
    fans = {v: fan(found) for v, found in spokes_of(board).items() if fan(found)}
    if not fans:
        return []
    v, turning = draw.choice(list(fans.items()))
    noted = [p for _, p, _ in turning]
    outer = [i for i, p in enumerate(noted) if p < 4]
    if outer and draw.randrange(3):
        noted[draw.choice(outer)] = draw.choice((v, v, draw.randrange(4), draw.choice(noted)))
    else:
        some = (0, 1, 2, 3, v, draw.randrange(vertices(board)))
        noted = [draw.choice(some) for _ in turning]
    changes = []
    for (k, _, _), p, q in zip(turning, noted, noted[1:] + noted[:1]):
        corners = draw.choice(((v, p, q), (p, q, v), (q, v, p)))
        changes.append(("nodes", k, [*corners, *board.nodes[k].numbers()[3:]]))
    return changes


def no_vertex_left(draw, board):
    """All live nodes, or all but one, between corners of the sheet; where they are not too
    many."""
    if len(board.live_nodes()) > 40:
        return []
    return [("nodes", k, [*draw.choice(((0, 1, 2), (2, 3, 0))), *board.nodes[k].numbers()[3:]])
            for k in live_nodes(board)[draw.randrange(2):]]


def limits(board, k):
    """Below what each of the fourteen numbers of a node is, where nobody altered it."""
    return (*[vertices(board)] * 3, board.loops, 8, 9, *[k] * 8)


def node_number(draw, board):
    """One number of a node, or two; or an entry behind all nodes."""
    if not board.nodes or draw.randrange(30) == 0:
        k = len(board.nodes) + draw.choice((0, 1, 8000))
        return [("nodes", k, [draw.randrange(9) for _ in range(14)])]
    k = some_node(draw, board)
    numbers, most = board.nodes[k].numbers(), limits(board, k)
    for _ in range(draw.choice((1, 1, 2))):
        i = draw.choice((0, 1, 2, 3, 4, 5, 6, draw.randrange(14)))
        numbers[i] = around(draw, numbers[i], most[i])
    return [("nodes", k, numbers)]


def node(draw, board):
    """A node of other numbers: of another node, its corners in another order, all beyond."""
    if not board.nodes:
        return []
    k = some_node(draw, board)
    numbers, kind = board.nodes[k].numbers(), draw.randrange(5)
    if kind == 0:
        numbers = draw.choice(board.nodes).numbers()
    elif kind == 1:
        a, b, c = numbers[:3]
        numbers[:3] = draw.choice(((b, c, a), (c, b, a), (a, a, c), (a, b, a), (b, b, b)))
    elif kind == 2:
        children = numbers[6:6 + numbers[5]]
        draw.shuffle(children)
        numbers[6:6 + len(children)] = children
    elif kind == 3:
        numbers = [BEYOND] * 14
    else:
        numbers = [draw.randrange(bound + 1) for bound in limits(board, k)]
    return [("nodes", k, numbers)]


# What is altered at each stage, and how often: mostly what the next turns read.
OF_TABLES = {point: 3, points_within: 3, points_changed: 2, edge: 3, loop_renamed: 4,
             loop_entry: 3, loop_bound: 2, live: 1, node_number: 1}
OF_NODES = {point: 3, points_within: 3, points_changed: 2, points_gathered: 2, live: 3,
            other_live: 2, fan_changed: 3, no_vertex_left: 1, node_number: 6, node: 4, edge: 1,
            loop_entry: 1}


def change(draw, board):
    kinds = OF_NODES if board.nodes else OF_TABLES
    return draw.choices(tuple(kinds), kinds.values())[0](draw, board)


def before(board, changes):
    """What puts the entries of these changes back; of entries that there are not, nothing."""
    back = []
    for name, i, _ in reversed(changes):
        if name == "nodes":
            if i < len(board.nodes):
                back.append((name, i, board.nodes[i].numbers()))
        elif i < len(board.table[name]):
            entry = board.table[name][i]
            back.append((name, i, (entry,) if name == "live" else entry))
    return back
