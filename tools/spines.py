"""Bays that stand upright between two bars: diameters of one and a half breakers, and what else leads from bar to bar.

A spine is the way of a bay from one bar to another over three breakers or more. Its items stand one below the other;
earth switches stand to the left, and each line to the right of the node that it leaves.
"""

COLUMN = 2
BREAKERS = 3


def way(items, start, goal, bars):
    """The items of a shortest way from a bar to another over nodes of the bay, and the nodes between; none without one."""
    before, queue = {start: None}, [start]
    for node in queue:
        if node == goal:
            break
        for item in items:
            if node in item.ends and len(set(item.ends)) == 2:
                other = next(end for end in item.ends if end != node)
                if other not in before and (other == goal or other not in bars):
                    before[other] = (node, item)
                    queue.append(other)
    if goal not in before:
        return None
    found, node = [], goal
    while before[node]:
        node, item = before[node]
        found.append((item, node))
    return [item for item, _ in reversed(found)], [node for _, node in reversed(found)][1:]


class Spine:
    """The places of one bay, its upper bar at row 0; `height` is the row of its lower bar. `fits` is false where the bay
    has more than the spine, its earth switches and lines that do not branch."""

    def __init__(self, items, found):
        self.items, self.upright, self.nodes, self.stubs = {}, {}, {}, {}
        chain, between = found
        self.left = [item for item in items if item not in chain]
        self.x, self.width, self.fits = COLUMN, 2 * COLUMN, True
        y = 1
        for item, node in zip(chain, [*between, None]):
            self.put(item, (self.x, y), True)
            if node is not None:
                self.nodes[node] = (self.x, y + 1)
                y = max(y + 2, self.beside(node, y + 1))
        self.height = y + 1
        self.fits = self.fits and not self.left

    def put(self, item, place, upright):
        self.items[item], self.upright[item] = place, upright
        self.width = max(self.width, place[0] + COLUMN)
        if item in self.left:
            self.left.remove(item)

    def hanging(self, node):
        """What is left at the node: that with one end, and the ways on."""
        at = [item for item in self.left if node in item.ends]
        return [item for item in at if len(set(item.ends)) == 1], [item for item in at if len(set(item.ends)) > 1]

    def beside(self, node, y):
        """Puts what hangs on a node of the spine beside it; the row below all of it."""
        single, ways = self.hanging(node)
        earths = [item for item in single if item.grounded]
        lines = [item for item in single if not item.grounded]
        for place, item in enumerate(earths):
            self.put(item, (self.x - COLUMN, y + 1.5 * place), False)
        if len(lines) + len(ways) > 1:
            self.fits = False
            return y
        if lines:
            self.put(lines[0], (self.x + COLUMN, y), False)
        foot = self.line(node, y) if ways else y
        return max(foot, y + 1.5 * len(earths) - 0.5)

    def line(self, node, y):
        """Puts a line to the right, item by item, with its earth switches below their nodes; the row below all of it."""
        x, foot = self.x, y
        while True:
            single, ways = self.hanging(node)
            ends = [item for item in single if not item.grounded]
            if x > self.x:
                for place, item in enumerate(item for item in single if item.grounded):
                    self.put(item, (x, y + 1.5 + 1.5 * place), True)
                    foot = max(foot, y + 3 + 1.5 * place)
                if len(ends) + len(ways) > 1:
                    self.fits = False
                    return foot
                if ends:
                    self.put(ends[0], (x + COLUMN, y), False)
                    return foot
            if not ways:
                return foot
            other = next(end for end in ways[0].ends if end != node)
            if other in self.nodes:
                self.fits = False
                return foot
            self.put(ways[0], (x + COLUMN, y), False)
            x, node = x + 2 * COLUMN, other
            self.nodes[node] = (x, y)


def spines_of(bays, bars):
    """The spines of a level with two bars, by bay; none where a bay leads from bar to bar in another way. `bays` has the
    items of each bay."""
    if len(bars) != 2:
        return {}
    found = {}
    for bay, items in bays.items():
        ends = {end for item in items for end in item.ends if end in bars}
        if len(ends) == 2:
            over = way(items, *bars, bars)
            spine = Spine(items, over) if over and sum(item.kind == "CBR" for item in over[0]) >= BREAKERS else None
            if spine is None or not spine.fits:
                return {}
            found[bay] = spine
    return found
