"""Where the symbols and the nodes of a drawing stand in its picture.

A place is a pair of units; a unit is UNIT pixels. By coordinates, each item stands where the drawing puts it. By
topology, each node that bays share is a horizontal bar at the top of its voltage level, each bay a group of columns
below it from the shared nodes outwards, and transformers stand between the levels.
"""
import math

from spines import spines_of

UNIT = 40


class Layout:
    """Places of items and nodes, which items are upright, the nodes drawn as bars, and the items whose wires bend near
    them. A bar that is drawn again for a further row of bays has a place for each; `rows` has the row of each item."""

    def __init__(self, drawing):
        self.drawing, self.stubs = drawing, {}
        self.rows, self.again = {}, {}
        self.items, self.upright, self.nodes, self.bars, self.bends = {}, {}, {}, set(), set()

    def bar_place(self, bar, item):
        """Where the bar stands for this item."""
        return self.again.get((bar, self.rows.get(item, 0)), self.nodes[bar])

    def size(self):
        places = list(self.items.values()) + list(self.nodes.values()) + list(self.again.values())
        xs, ys = [p[0] for p in places] or [0], [p[1] for p in places] or [0]
        return min(xs), min(ys), max(xs), max(ys)


def by_coordinates(drawing):
    layout = Layout(drawing)
    for node in drawing.nodes.values():
        layout.nodes[node.key] = node.place
        if node.bay in drawing.horizontal:
            layout.bars.add(node.key)
    for item in drawing.items:
        layout.items[item] = item.place
        layout.upright[item] = item.upright
        if len(item.ends) == 1 and item.ends[0] not in layout.bars:
            x, y = layout.nodes.get(item.ends[0], item.place)
            if (x == item.place[0]) != (y == item.place[1]):
                layout.upright[item] = x == item.place[0]
    return layout


# ---- by topology

ROW, COLUMN = 2, 2


def shared_nodes(drawing):
    """The nodes that become bars: those of several bays, and those of a bay that has nothing with two ends."""
    bays_at, busy = {}, set()
    for item in drawing.items:
        if item.bay and item.kind != "PTR":
            for end in item.ends:
                bays_at.setdefault(end, set()).add(item.bay)
            if len(item.ends) > 1:
                busy.add(item.bay)
    shared = {key for key, bays in bays_at.items() if len(bays) > 1}
    return shared | {n.key for n in drawing.nodes.values() if n.bay not in busy and bays_at.get(n.key)}


class BayLayout:
    """The columns of one bay, below bars at row 0: places of its items and of the nodes that are its own."""

    def __init__(self, items, bars, to_transformers):
        self.bars, self.transformers = bars, to_transformers
        self.items, self.upright, self.nodes = {}, {}, {}
        self.left = [i for i in items if i.kind != "PTR"]
        self.width = 0
        self.stubs = {}
        own = [end for item in self.left for end in item.ends if end not in bars]
        for end in dict.fromkeys(own):
            if any(end in i.ends and any(e in bars for e in i.ends) for i in self.left):
                self.root(end)
        for end in dict.fromkeys(own):
            if end not in self.nodes:
                self.root(end)
        for item in list(self.left):
            self.at_bar(item)

    def take(self, item, place, upright):
        self.left.remove(item)
        self.items[item], self.upright[item] = place, upright
        self.width = max(self.width, place[0] + COLUMN)

    def column(self):
        column = self.width
        self.width += COLUMN
        return column

    def root(self, node):
        """A node that hangs on bars, with what hangs on it; without a way to a bar it stands at the top."""
        if node in self.nodes:
            return
        above = [i for i in self.left if node in i.ends and any(e in self.bars for e in i.ends)]
        x = None
        for item in above:
            column = self.column()
            x = column if x is None else x
            self.take(item, (column, 1), True)
        if x is None:
            self.hang(node, self.column(), 0, False)
        else:
            self.hang(node, x, ROW, len(above) > 1)

    def hang(self, node, x, y, crowded):
        """Puts the node at this place and what hangs on it below: the first way on straight down, the rest beside."""
        self.nodes[node] = (x, y)
        below = self.transformers.get(node, 0) - (1 if y == 0 else 0)
        beside = [i for i in self.left if i.ends == [node] or (len(set(i.ends)) == 1 and node in i.ends)]
        ways = [i for i in self.left if node in i.ends and len(set(i.ends)) > 1]
        fresh = [i for i in ways if all(e == node or (e not in self.nodes and e not in self.bars) for e in i.ends)]
        stub = below > 0
        below = fresh[0] if fresh else None
        if stub and below is None:
            self.stubs[node] = x
        elif stub or any(e in self.bars for i in ways for e in i.ends):
            crowded = True
        if below is None and beside and not stub:
            last = [i for i in beside if not i.grounded] or beside
            below = last[-1]
            beside.remove(below)
        if crowded:
            y += 1
        for item in beside:
            self.take(item, (x + COLUMN, y), False)
            y += 1 if item is beside[-1] and not fresh else 1.5
        foot = y if not beside else y - 0.5
        if below is None:
            pass
        elif below in fresh:
            other = next(e for e in below.ends if e != node)
            twins = [i for i in fresh if set(i.ends) == set(below.ends)]
            self.take(below, (x, foot + 1), True)
            for twin in twins[1:]:
                self.take(twin, (self.column(), foot + 1), True)
            self.hang(other, x, foot + 2, len(twins) > 1)
        else:
            self.take(below, (x, foot + 1), True)
        if stub and node not in self.stubs:
            self.stubs[node] = self.column()
        for item in [i for i in ways if i in self.left]:
            other = next(e for e in item.ends if e != node)
            if other in self.bars:
                continue
            if other in self.nodes:
                self.between(item, node, other)
            else:
                column = self.column()
                self.take(item, (column, foot + 1), True)
                self.hang(other, column, foot + 2, False)

    def between(self, item, node, other):
        """An item between two nodes that stand already."""
        (x, y), (u, v) = self.nodes[node], self.nodes[other]
        if y == v and abs(x - u) == COLUMN and not any(i[1] == y and min(x, u) < i[0] < max(x, u) for i in self.items.values()):
            self.take(item, ((x + u) / 2, y), False)
        else:
            self.take(item, (self.column(), max(y, v) + 1), True)

    def at_bar(self, item):
        """An item that stands at bars alone."""
        self.take(item, (self.column(), 1), True)


# How wide a row of bays may be, and how much wider than tall a picture of several rows is best.
WIDEST, SHAPE = (44, 60, 80, 100, 120, 150, 180), 1.5


def by_topology(drawing):
    """The layout whose shape is best for a screen and for paper; where all bays stand in one row it is the first."""
    def badness(layout):
        left, top, right, bottom = layout.size()
        return abs(math.log(max(right - left, 1) / max(bottom - top, 1) / SHAPE))

    return min((laid_out(drawing, widest) for widest in WIDEST), key=badness)


def laid_out(drawing, widest):
    layout = Layout(drawing)
    layout.bars = shared_nodes(drawing)
    transformers = [i for i in drawing.items if i.kind == "PTR"]
    to_transformers = {}
    for end in [end for t in transformers for end in t.ends]:
        to_transformers[end] = to_transformers.get(end, 0) + 1
    levels = list(dict.fromkeys([n.level for n in drawing.nodes.values()]))
    y = 0
    for index, level in enumerate(levels):
        y = place_level(layout, level, index, y, transformers, to_transformers, widest)
    return layout


def bays_of(drawing, level):
    found = {}
    for item in drawing.items:
        if item.level == level and item.kind != "PTR":
            found.setdefault(item.bay, []).append(item)
    return found


def place_level(layout, level, index, top, transformers, to_transformers, widest):
    drawing = layout.drawing
    bars = [n.key for n in drawing.nodes.values() if n.level == level and n.key in layout.bars]
    above = [t for t in transformers if any(e in layout.nodes for e in t.ends) and t not in layout.items]
    above = [t for t in above if any(drawing.nodes[e].level == level for e in t.ends if e in drawing.nodes)]
    for t in above:
        x = next(layout.stubs.get(e, layout.nodes[e][0]) for e in t.ends if e in layout.nodes)
        while any(layout.items.get(o) and layout.items[o][1] == top + 1 and abs(layout.items[o][0] - x) < 2 for o in transformers):
            x += 2
        layout.items[t], layout.upright[t] = (x, top + 1), True
        if not any(e in layout.stubs for e in t.ends):
            layout.bends.add(t)
    base = top + (3 if above else 0)
    bays = bays_of(drawing, level)
    spines = spines_of(bays, bars) if not above else {}
    if spines:
        others = [BayLayout(items, layout.bars, to_transformers) for bay, items in bays.items() if bay not in spines]
        return place_spines(layout, bars, list(spines.values()), others, base) + 2
    groups = {bay: BayLayout(items, layout.bars, to_transformers) for bay, items in bays.items()}
    fed = {e: layout.items[t][0] for t in above for e in t.ends}
    up = [g for g in groups.values() if bars and any(n in fed for n in g.nodes)]
    height = max([max([p[1] for p in [*g.items.values(), *g.nodes.values()]]) for g in up], default=0)
    bar_top = base + height
    for i, bar in enumerate(bars):
        layout.nodes[bar] = (0, bar_top + i)
    bar_foot = bar_top + max(0, len(bars) - 1)
    place_groups(layout, up, fed, lambda y: bar_top - y)
    down = [g for g in groups.values() if g not in up]
    return place_rows(layout, down, fed, bar_foot if bars else base, widest, bars) + 2


def place_spines(layout, bars, spines, others, top):
    """Bays between two bars, side by side; then the bays of one bar, below it."""
    foot, right = top + max(spine.height for spine in spines), 0
    layout.nodes[bars[0]], layout.nodes[bars[1]] = (0, top), (0, foot)
    for spine in spines:
        stretched(spine, foot - top)
        copy(layout, spine, right, lambda y: top + y)
        right += spine.width + 1
    deepest = foot
    for group in others:
        below = foot if any(bars[1] in item.ends for item in group.items) else top
        copy(layout, group, right, lambda y: below + y)
        deepest = max([deepest] + [below + p[1] for p in [*group.items.values(), *group.nodes.values()]])
        right += group.width + 1
    return deepest + 1


def stretched(spine, height):
    """Puts the last item of a spine right above the lower bar, where other spines are longer."""
    last = max((item for item in spine.items if spine.upright[item] and spine.items[item][0] == spine.x), key=lambda item: spine.items[item][1])
    spine.items[last] = (spine.x, height - 1)


def place_groups(layout, groups, fed, to_y):
    right = 0
    wanted = [(min([fed[n] - g.nodes[n][0] for n in g.nodes if n in fed], default=0), g) for g in groups]
    for want, g in sorted(wanted, key=lambda w: w[0]):
        x = max(want, right)
        copy(layout, g, x, to_y)
        right = x + g.width + 1
    return right


def place_rows(layout, groups, fed, top, widest, bars):
    """Groups side by side; where they are wider than the page the later ones stand below, and the bars again above them."""
    foot, right, row = top, 0, 0
    for g in groups:
        want = min([fed[n] - g.nodes[n][0] for n in g.nodes if n in fed], default=0)
        x = max(want, right)
        if right > 0 and x + g.width > widest:
            row, right, x = row + 1, 0, 0
            top = foot + 3
            for i, bar in enumerate(bars):
                layout.again[bar, row] = (0, top + i)
            top += max(0, len(bars) - 1)
        copy(layout, g, x, lambda y: top + y)
        layout.rows.update((item, row) for item in g.items)
        foot = max([foot] + [top + p[1] for p in [*g.items.values(), *g.nodes.values()]])
        right = x + g.width + 1
    return foot + 1


def copy(layout, group, x, to_y):
    for item, (px, py) in group.items.items():
        layout.items[item], layout.upright[item] = (x + px, to_y(py)), group.upright[item]
    for node, (px, py) in group.nodes.items():
        layout.nodes[node] = (x + px, to_y(py))
    for node, px in group.stubs.items():
        if px != group.nodes[node][0]:
            layout.stubs[node] = x + px
