"""Ways for wires that go round symbols: on a grid, with few bends, over no symbol and along no other wire."""
import heapq

STEP = 20
BEND = 60


def crosses(points, boxes):
    """Whether a line through these points goes through one of the boxes."""
    for (x, y), (u, v) in zip(points, points[1:]):
        left, right, top, bottom = min(x, u), max(x, u), min(y, v), max(y, v)
        if any(left < c and a < right and top < d and b < bottom for a, b, c, d in boxes):
            return True
        if any((x == u and a < x < c and top < d and b < bottom) or (y == v and b < y < d and left < c and a < right) for a, b, c, d in boxes):
            return True
    return False


def along(a, b, taken):
    """Whether the piece from a to b runs along one of the taken pieces, near enough to look like one line."""
    (x, y), (u, v) = a, b
    for (p, q), (r, s) in taken:
        if x == u and p == r and abs(x - p) < 6 and min(y, v) < max(q, s) and min(q, s) < max(y, v):
            return True
        if y == v and q == s and abs(y - q) < 6 and min(x, u) < max(p, r) and min(p, r) < max(x, u):
            return True
    return False


def lines_of(values, low, high):
    return sorted({*values, *range(int(low), int(high) + 1, STEP)})


def way(start, goal, boxes, taken, area):
    """The points of a way from start to goal inside the area (left, top, right, bottom), or None where there is none."""
    left, top, right, bottom = area
    xs, ys = lines_of((start[0], goal[0]), left, right), lines_of((start[1], goal[1]), top, bottom)
    column, row = {x: i for i, x in enumerate(xs)}, {y: i for i, y in enumerate(ys)}
    queue, seen, number = [(0, 0, start, None, None)], {}, 0
    while queue:
        cost, _, at, heading, before = heapq.heappop(queue)
        if (at, heading) in seen:
            continue
        seen[at, heading] = before
        if at == goal:
            return straightened(seen, (at, heading))
        i, j = column[at[0]], row[at[1]]
        for dx, dy in ((1, 0), (-1, 0), (0, 1), (0, -1)):
            if not (0 <= i + dx < len(xs) and 0 <= j + dy < len(ys)):
                continue
            to = (xs[i + dx], ys[j + dy])
            if crosses([at, to], boxes) or along(at, to, taken):
                continue
            more = abs(to[0] - at[0]) + abs(to[1] - at[1]) + (BEND if heading not in (None, (dx, dy)) else 0)
            number += 1
            heapq.heappush(queue, (cost + more, number, to, (dx, dy), (at, heading)))
    return None


def straightened(seen, last):
    """The way that led to the last place, with a point at its ends and at each bend."""
    places = []
    while last is not None:
        places.append(last[0])
        last = seen[last]
    points = places[::-1]
    kept = [p for i, p in enumerate(points) if i in (0, len(points) - 1)
            or not (points[i - 1][0] == p[0] == points[i + 1][0] or points[i - 1][1] == p[1] == points[i + 1][1])]
    return kept
