"""The picture itself: an SVG of a laid-out drawing, with the symbols of IEC 60617 and the colours of the states.

All colours have a contrast of at least 3 on white and on black, those of text of 4.5. States differ by the line's
form too: live is thick, unknown dashed. Nothing in it runs.
"""
from html import escape

import wires
from layout import UNIT

TEXT = "#767676"
# by voltage and earth: colour, width, dashes
STATES = {
    ("live", "free"): ("#dd2f36", 3, ""),
    ("live", "unknown"): ("#dd2f36", 3, "9 3"),
    ("live", "earthed"): ("#c02fb0", 4, ""),
    ("dead", "free"): ("#2f76d2", 2, ""),
    ("dead", "unknown"): ("#16874a", 2, "2 4"),
    ("dead", "earthed"): ("#16874a", 2, ""),
    ("unknown", "free"): ("#b36200", 2, "7 4"),
    ("unknown", "unknown"): ("#b36200", 2, "2 4"),
    ("unknown", "earthed"): ("#c02fb0", 2, "7 4"),
}
NO_STATE = (TEXT, 2, "")
REACH = 12
LEGEND = [
    (("live", "free"), "live"), (("dead", "free"), "dead"), (("dead", "earthed"), "dead, earthed"),
    (("unknown", "free"), "not known whether live"), (("dead", "unknown"), "dead, not known whether earthed"),
    (("live", "earthed"), "live and earthed"), (("unknown", "earthed"), "earthed, not known whether live"),
    (("unknown", "unknown"), "nothing known"), (("live", "unknown"), "live, not known whether earthed"),
]


class Picture:
    """`states` has (voltage, earth) by node path, `releases` (open, close, rule, rule) by switch path; `remarks` are pairs
    of a kind and a path."""

    def __init__(self, layout, words, releases, states, remarks=()):
        self.layout, self.drawing, self.remarks = layout, layout.drawing, remarks
        self.words, self.releases, self.states = words, releases, states
        left, top, right, bottom = layout.size()
        self.origin = (2.2 - left, 1.6 - top)
        self.width = (right - left + 5) * UNIT
        self.bottom = (bottom - top + 3.2) * UNIT
        self.parts, self.boxes, self.wires, self.labels = [], [], [], []
        self.used = set()

    def at(self, place):
        return ((place[0] + self.origin[0]) * UNIT, (place[1] + self.origin[1]) * UNIT)

    def style_of(self, key):
        node = self.drawing.nodes.get(key)
        state = self.states.get(node.path) if node else None
        if state:
            self.used.add(state)
        return STATES.get(state, NO_STATE)

    # ---- text and lines

    def add(self, text):
        self.parts.append(text)

    def line(self, points, style, extra=""):
        colour, width, dashes = style
        d = " ".join(f"{x:.1f},{y:.1f}" for x, y in points)
        dash = f' stroke-dasharray="{dashes}"' if dashes else ""
        self.add(f'<polyline points="{d}" fill="none" stroke="{colour}" stroke-width="{width}"{dash}{extra}/>')

    def text(self, x, y, words, size=11, anchor="start", weight="normal"):
        self.add(f'<text x="{x:.1f}" y="{y:.1f}" font-size="{size}" text-anchor="{anchor}" font-weight="{weight}" fill="{TEXT}">{escape(words)}</text>')

    # ---- ports

    def ports(self, item):
        """A point for each terminal of the item that is on a node, in order."""
        x, y = self.at(self.layout.items[item])
        targets = [self.at(self.layout.bar_place(e, item)) if e in self.layout.nodes else (x, y) for e in item.ends]
        reach = 18 if item.kind == "PTR" else REACH
        if self.layout.upright[item]:
            first, second, axis = (x, y - reach), (x, y + reach), 1
        else:
            first, second, axis = (x - reach, y), (x + reach, y), 0
        if len(item.ends) == 1:
            return [first if targets[0][axis] <= (x, y)[axis] else second]
        order = sorted(range(len(targets)), key=lambda i: targets[i][axis])
        points = [None] * len(targets)
        points[order[0]], points[order[-1]] = first, second
        for i in order[1:-1]:
            points[i] = (x + reach, y) if axis else (x, y + reach)
        return points

    def reach_bars(self):
        """Each bar, once for each row of bays: its node, and from where to where it goes over all terminals on it."""
        touched = {(bar, place): [] for bar, place in self.layout.nodes.items() if bar in self.layout.bars}
        for item in self.drawing.items:
            for end, (x, _) in zip(item.ends, self.ports(item)):
                if end in self.layout.bars:
                    beyond = 14 if self.layout.upright[item] else 0
                    touched.setdefault((end, self.layout.bar_place(end, item)), []).extend([x - beyond, x + beyond])
        return {key: (min(xs), max(xs)) for key, xs in touched.items() if xs}

    # ---- drawing

    def wire(self, item, end, port):
        """Draws the way from a terminal to its node."""
        style = self.style_of(end)
        x, y = port
        nx, ny = self.at(self.layout.bar_place(end, item))
        if end in self.layout.bars:
            points = [port, (x, ny)]
        elif item in self.layout.bends and nx != x:
            mid = y + (14 if ny > y else -14)
            points = [port, (x, mid), (nx, mid), (nx, ny)]
        elif self.layout.upright[item]:
            points = [port, (x, ny), (nx, ny)]
        else:
            points = [port, (nx, y), (nx, ny)]
        points = [p for i, p in enumerate(points) if i == 0 or p != points[i - 1]]
        points = self.round_symbols(item, end, points)
        if len(points) > 1:
            self.line(points, style)
            self.wires += [(item, end, a, b) for a, b in zip(points, points[1:])]

    def bodies(self, item):
        """What a wire of the item must not go through: every other symbol, and the middle of its own."""
        for other, place in self.layout.items.items():
            (x, y), half = self.at(place), 21 if other.kind == "PTR" else 18
            half = 10 if other is item else half
            yield (x - half, y - half, x + half, y + half)

    def round_symbols(self, item, end, points):
        """The wire as it is, or where it would go through a symbol another that goes round."""
        bodies = list(self.bodies(item))
        if end in self.layout.bars or not wires.crosses(points, bodies):
            return points
        taken = [(a, b) for _, other, a, b in self.wires if other != end]
        return wires.way(points[0], points[-1], bodies, taken, (10, 10, self.width - 10, self.bottom - 10)) or points

    def dots(self):
        """Where the lines of a node meet from three sides or more."""
        lines = {}
        for _, end, a, b in self.wires:
            lines.setdefault(end, []).append((a, b))
        for item in self.drawing.items:
            for end, port in zip(item.ends, self.ports(item)):
                lines.setdefault(end, []).append((port, self.at(self.layout.items[item])))
        for end, pieces in lines.items():
            for x, y in dict.fromkeys(point for piece in pieces for point in piece):
                sides = set()
                for (a, b), (c, d) in pieces:
                    if min(a, c) <= x <= max(a, c) and min(b, d) <= y <= max(b, d):
                        sides |= {((u > x) - (u < x), (v > y) - (v < y)) for u, v in ((a, b), (c, d))} - {(0, 0)}
                if len(sides) > 2:
                    yield end, x, y

    def render(self):
        spans = self.reach_bars()
        for item in self.drawing.items:
            for end, port in zip(item.ends, self.ports(item)):
                if end in self.layout.nodes:
                    self.wire(item, end, port)
        for (bar, place), (low, high) in spans.items():
            colour, width, dashes = self.style_of(bar)
            y = self.at(place)[1]
            self.line([(low, y), (high, y)], (colour, width + 2, dashes), ' stroke-linecap="round"')
            self.wires.append((None, bar, (low, y), (high, y)))
        for end, x, y in self.dots():
            self.add(f'<circle cx="{x:.1f}" cy="{y:.1f}" r="3.5" fill="{self.style_of(end)[0]}"/>')
        for item in self.drawing.items:
            self.symbol(item)
        for (bar, place), (low, high) in spans.items():
            node = self.drawing.nodes[bar]
            name = f"{node.bay.rsplit('/', 1)[-1]}/{node.name}" if node.bay else node.name
            name += " (continued)" if place != self.layout.nodes[bar] else ""
            y = self.at(place)[1]
            self.label([(low - 6, y + 4, "end"), (high + 6, y + 4, "start"), (low, y - 8, "start"), (high, y - 8, "end")], name, 12, "bold")
        for item in self.drawing.items:
            self.name(item)
        self.bay_names()
        self.level_names()
        return self.page()

    def level_names(self):
        """Each voltage level's name and voltage, above what belongs to it."""
        for level, words in self.drawing.levels.items():
            own = [place for item, place in self.layout.items.items() if item.level == level and item.kind != "PTR"]
            own += [place for key, place in self.layout.nodes.items() if self.drawing.nodes[key].level == level]
            if not own:
                continue
            x, y = self.at((min(p[0] for p in own), min(p[1] for p in own)))
            left = max(8, x - 60)
            self.label([(left, y + dy, "start") for dy in (-22, -34, -10, -46, 14, 26)] + [(8, y - 22, "start"), (left, y - 22, "start")], words, 11, "bold")

    def symbol(self, item):
        x, y = self.at(self.layout.items[item])
        ports = self.ports(item)
        style = self.style_of(item.ends[0]) if item.ends else NO_STATE
        other = self.style_of(item.ends[1]) if len(item.ends) > 1 else style
        px, py = ports[0] if ports else (x, y - REACH)
        turn = 0 if (px, py) == (x, y - REACH) or py < y else 180 if py > y else 270 if px < x else 90
        is_many = item.kind == "PTR" and len(ports) > 2
        turn = 0 if is_many else turn
        long = 12 if len(item.ends) > 1 else 17
        half = (10, long) if turn in (0, 180) else (long, 10)
        if item.kind == "PTR":
            half = (20 if is_many else 14, 20)
        left, top = half
        if item.kind in ("CBR", "DIS") and self.words.get(item.path) not in ("on", "off"):
            left, top = (left + 9, top) if turn in (0, 180) else (left, top + 9)
        self.boxes.append((item, x - left, y - top, x + half[0], y + half[1]))
        self.add(f'<g transform="translate({x:.1f} {y:.1f}) rotate({turn})"><title>{escape(self.title(item))}</title>')
        self.add('<rect x="-13" y="-16" width="26" height="32" fill="none" stroke="none" pointer-events="all"/>')
        if is_many:
            parts = many_windings(ports, (x, y), [self.style_of(end)[0] for end in item.ends])
        else:
            parts = SYMBOLS.get(item.kind, box)(item, self.words.get(item.path), style[0], other[0], turn)
        for part in parts:
            self.add(part)
        self.add("</g>")

    def title(self, item):
        lines = [item.path + (f" ({item.description})" if item.description else "")]
        if item.path in self.words:
            lines.append(f"word: {self.words[item.path]}")
        if item.path in self.releases:
            opens, closes, opening, closing = self.releases[item.path]
            lines.append("EnaOpn: " + ("1" if opens else f"0, {opening}"))
            lines.append("EnaCls: " + ("1" if closes else f"0, {closing}"))
        lines += [f"remark: {kind}" for kind, path in self.remarks if path == item.path]
        return "\n".join(lines)

    def name(self, item):
        x, y = self.at(self.layout.items[item])
        width = 7 * len(item.name)
        marks = item.path in self.releases
        tall = 26 if marks else 12
        wide = max(width, 26 if marks else 0)
        reach = 21 if item.kind == "PTR" else 16 if not self.layout.upright[item] and (item.grounded or item.kind in ("IFL", "GEN")) else 13
        places = [
            (x + reach, y - tall / 2, "start"), (x - reach - wide, y - tall / 2, "end"),
            (x - wide / 2, y + 15, "middle"), (x - wide / 2, y - 15 - tall, "middle"),
            (x + 10, y + 9, "start"), (x + 10, y - 9 - tall, "start"), (x - 10 - wide, y + 9, "end"), (x - 10 - wide, y - 9 - tall, "end"),
            (x + reach + 10, y - tall / 2, "start"), (x - reach - wide - 10, y - tall / 2, "end"),
            *((side, y - tall / 2 + dy, "start") for dy in (-16, 16, -28, 28) for side in (x + reach, x - reach - wide)),
        ]
        if not self.layout.upright[item]:
            places = places[2:4] + places[:2] + places[4:]
        left, top, _ = next((p for p in places if self.is_free(p[0], p[1], wide, tall, item)), places[0])
        self.labels.append((left, top, left + wide, top + tall, item.path))
        self.text(left, top + 10, item.name)
        if marks:
            opens, closes, *_ = self.releases[item.path]
            self.mark(left, top + 14, "O", opens)
            self.mark(left + 14, top + 14, "C", closes)

    def mark(self, x, y, letter, released):
        """A release is a full box, a denial an empty one that is struck out, both in the colour of text, which is no state's."""
        if released:
            self.add(f'<rect x="{x:.1f}" y="{y:.1f}" width="12" height="11" rx="2" fill="{TEXT}" stroke="{TEXT}"/>')
            self.add(f'<text x="{x + 6:.1f}" y="{y + 9:.1f}" font-size="9" text-anchor="middle" font-weight="bold" fill="#ffffff">{letter}</text>')
        else:
            self.add(f'<rect x="{x:.1f}" y="{y:.1f}" width="12" height="11" rx="2" fill="none" stroke="{TEXT}"/>')
            self.add(f'<text x="{x + 6:.1f}" y="{y + 9:.1f}" font-size="9" text-anchor="middle" fill="{TEXT}">{letter}</text>')
            self.add(f'<path d="M{x:.1f} {y + 11:.1f}l12 -11" stroke="{TEXT}" stroke-width="1.5" fill="none"/>')

    def is_free(self, left, top, wide, tall, item):
        right, bottom = left + wide, top + tall
        for other, a, b, c, d in self.boxes:
            if left < c and a < right and top < d and b < bottom:
                return False
        for a, b, c, d, _ in self.labels:
            if left < c + 6 and a < right + 6 and top < d + 1 and b < bottom + 1:
                return False
        for _, _, (x, y), (u, v) in self.wires:
            if min(x, u) - 2 < right and left < max(x, u) + 2 and min(y, v) - 2 < bottom and top < max(y, v) + 2:
                return False
        return left > 0

    def label(self, places, words, size, weight="normal"):
        """Text at the first place that is free; of places with no room, the last."""
        wide = 0.62 * size * len(words)
        for x, y, anchor in places:
            left = x - (wide if anchor == "end" else wide / 2 if anchor == "middle" else 0)
            if self.is_free(left, y - size, wide, size + 2, None):
                break
        self.labels.append((left, y - size, left + wide, y + 2, words))
        self.text(x, y, words, size, anchor, weight)

    def bay_names(self):
        """Each bay's name below it, or above where there is no room."""
        for bay, description in self.drawing.bays.items():
            points = [self.at(self.layout.items[i]) for i in self.drawing.items if i.bay == bay]
            own = [n.key for n in self.drawing.nodes.values() if n.bay == bay]
            if not points or all(key in self.layout.bars for key in own) and own:
                continue
            x = min(p[0] for p in points)
            low, high = max(p[1] for p in points), min(p[1] for p in points)
            right = max(p[0] for p in points)
            name = bay.rsplit("/", 1)[-1]
            places = [(x, low + 36 + 8 * i, "middle") for i in range(4)] + [((x + right) / 2, low + 36 + 8 * i, "middle") for i in range(4)]
            sides = range(int(low) - 20, int(high) + 20, -6) if low > high + 60 else [int(low) + 4]
            places += [place for y in sides for place in ((x - 16, y, "end"), (right + 16, y, "start"))]
            places += [((x + right) / 2, high - 28, "middle"), (x - 16, high, "end"), (x - 30, high - 14, "end"), (x, low + 44, "middle")]
            self.label(places, name, 13, "bold")

    def page(self):
        y = self.bottom + 14
        self.text(20, y, self.drawing.title, 13, weight="bold")
        y = self.legend(y + 20)
        for kind, path in self.remarks:
            self.text(20, y, f"remark {kind} {path}", weight="bold")
            y += 17
        width = max(self.width, 300, *(right + 8 for _, _, right, _, _ in self.labels), *(40 + 7 * len(kind + path) for kind, path in self.remarks))
        head = f'<svg xmlns="http://www.w3.org/2000/svg" width="{width:.0f}" height="{y + 6:.0f}" viewBox="0 0 {width:.0f} {y + 6:.0f}" font-family="DejaVu Sans, Arial, sans-serif">'
        # a printed picture is as large as the page
        head += "<style>@media print { svg:root { width: 100%; height: 100%; } }</style>"
        return "\n".join([head, f"<title>{escape(self.drawing.title)}</title>", *self.parts, "</svg>"]) + "\n"

    def legend(self, y):
        """What the colours and the marks mean, from there down; where it ends."""
        for state, words in LEGEND:
            if state in self.used:
                self.line([(20, y - 4), (60, y - 4)], STATES[state])
                self.text(68, y, words)
                y += 17
        if self.releases:
            self.mark(20, y - 10, "O", True)
            self.mark(36, y - 10, "C", False)
            self.text(68, y, "opening released; closing denied")
            y += 17
        return y

    # ---- what an engineer would not print

    def faults(self):
        """Symbols over another, lines through a symbol, labels over anything."""
        for i, (item, a, b, c, d) in enumerate(self.boxes):
            for other, e, f, g, h in self.boxes[i + 1 :]:
                if a < g and e < c and b < h and f < d:
                    yield f"{item.path} stands over {other.path}"
            for owner, end, (x, y), (u, v) in self.wires:
                if owner is not item and min(x, u) < c - 2 and a + 2 < max(x, u) and min(y, v) < d - 4 and b + 4 < max(y, v):
                    yield f"a line of {end} goes through {item.path}"
                elif owner is not item and x == u and a + 2 < x < c - 2 and min(y, v) < d - 4 and b + 4 < max(y, v):
                    yield f"a line of {end} goes through {item.path}"
                elif owner is not item and y == v and b + 4 < y < d - 4 and min(x, u) < c - 2 and a + 2 < max(x, u):
                    yield f"a line of {end} goes through {item.path}"
        for i, (a, b, c, d, name) in enumerate(self.labels):
            for e, f, g, h, other in self.labels[i + 1 :]:
                if a < g and e < c and b < h and f < d:
                    yield f"the name of {name} stands over that of {other}"
            for item, e, f, g, h in self.boxes:
                if a < g and e < c and b < h and f < d:
                    yield f"the name of {name} stands over {item.path}"
            for _, end, (x, y), (u, v) in self.wires:
                if min(x, u) < c and a < max(x, u) and min(y, v) < d and b < max(y, v) or x == u and a < x < c and min(y, v) < d and b < max(y, v) or y == v and b < y < d and min(x, u) < c and a < max(x, u):
                    yield f"the name of {name} stands on a line of {end}"


# ---- symbols, each drawn upright with its first terminal at (0, -12); they give SVG elements

def stroke(colour, width=2):
    return f'stroke="{colour}" stroke-width="{width}" fill="none"'


def contact(item, word, colour, other, turn):
    """A switch: the blade at (0, 8), its fixed contact at (0, -8) with the cross of a breaker or the bar of a disconnector."""
    yield f'<path d="M0 -12V-8" {stroke(colour, 3)}/>'
    if item.kind == "CBR":
        yield f'<path d="M-4.5 -12.5L4.5 -3.5M4.5 -12.5L-4.5 -3.5" {stroke(colour, 2.2)}/>'
    else:
        yield f'<path d="M-6 -8H6" {stroke(colour, 2.2)}/>'
    if word == "on":
        yield f'<path d="M0 9V-8" {stroke(colour, 5)}/>'
    elif word == "off":
        yield f'<path d="M0 9L-9 -7" {stroke(other, 2.2)}/>'
    else:
        yield f'<path d="M0 9L-5 -8" {stroke("#b36200", 2.2)} stroke-dasharray="3 2"/>'
        side = -14 if turn in (0, 90) else 14
        yield f'<text x="{side}" y="5" font-size="14" font-weight="bold" text-anchor="middle" fill="#b36200"{upright(turn, side, 0)}>?</text>'
    if item.grounded:
        earth = "#16874a" if word == "on" else TEXT
        yield f'<path d="M0 8V12M-7 12H7M-4.5 14.5H4.5M-2 17H2" {stroke(earth)}/>'
    else:
        yield f'<path d="M0 8V12" {stroke(other, 3)}/>'


def upright(turn, x, y):
    return f' transform="rotate({-turn} {x} {y})"' if turn else ""


def infeed(item, word, colour, other, turn):
    """A line that may bring voltage: an arrow towards the node, full where it is on."""
    fill = colour if word == "on" else "none"
    edge = colour if word in ("on", "off") else "#b36200"
    yield f'<path d="M0 -12V-7M0 -9L7 5H-7Z" fill="{fill}" stroke="{edge}" stroke-width="2"/>'
    yield f'<path d="M0 5V14" {stroke(edge)}/>'
    if word not in ("on", "off"):
        yield f'<text x="0" y="4" font-size="10" font-weight="bold" text-anchor="middle" fill="#b36200"{upright(turn, 0, 0)}>?</text>'


def machine(item, word, colour, other, turn):
    edge = colour if word in ("on", "off", None) else "#b36200"
    fill = colour if word == "on" else "none"
    letter = "G" if item.kind == "GEN" else "M"
    ink = "#ffffff" if word == "on" else edge
    yield f'<path d="M0 -12V-9" {stroke(edge)}/><circle cx="0" cy="2" r="11" fill="{fill}" stroke="{edge}" stroke-width="2"/>'
    yield f'<text x="0" y="6.5" font-size="12" font-weight="bold" text-anchor="middle" fill="{ink}"{upright(turn, 0, 2)}>{letter if word in ("on", "off", None) else letter + "?"}</text>'


def windings(item, word, colour, other, turn):
    yield f'<circle cx="0" cy="-7" r="11" {stroke(colour)}/><circle cx="0" cy="7" r="11" {stroke(other)}/>'


def many_windings(ports, place, colours):
    """A circle for each winding, towards its terminal."""
    for (x, y), colour in zip(ports, colours):
        yield f'<circle cx="{(x - place[0]) * 0.4:.1f}" cy="{(y - place[1]) * 0.4:.1f}" r="11" {stroke(colour)}/>'


def current_transformer(item, word, colour, other, turn):
    yield f'<path d="M0 -12V12" {stroke(colour)}/><circle cx="0" cy="0" r="6" {stroke(colour)}/>'


def voltage_transformer(item, word, colour, other, turn):
    yield f'<path d="M0 -12V-8" {stroke(colour)}/><circle cx="0" cy="-2" r="6" {stroke(colour)}/><circle cx="0" cy="6" r="6" {stroke(TEXT)}/>'


def arrester(item, word, colour, other, turn):
    yield f'<path d="M0 -12V-8M-5 -8H5V8H-5ZM0 -8V0M-3 -2L0 3L3 -2" {stroke(colour)}/><path d="M0 8V12M-7 12H7M-4 14.5H4" {stroke(TEXT)}/>'


def cable(item, word, colour, other, turn):
    if len(item.ends) > 1:
        yield f'<path d="M0 -12V12" {stroke(colour)}/><path d="M-5 -9H5L0 -3ZM-5 9H5L0 3Z" fill="{colour}" stroke="none"/>'
    else:
        yield f'<path d="M0 -12V12" {stroke(colour)}/><path d="M-5 -6H5L0 2Z" fill="{colour}" stroke="none"/><path d="M-4 8L0 13L4 8" {stroke(colour)}/>'


def line_end(item, word, colour, other, turn):
    yield f'<path d="M0 -12V12M-5 6L0 13L5 6" {stroke(colour)}/>'


def capacitor(item, word, colour, other, turn):
    yield f'<path d="M0 -12V-3M-8 -3H8" {stroke(colour)}/><path d="M-8 3H8M0 3V10M-7 10H7M-4 13H4" {stroke(TEXT)}/>'


def box(item, word, colour, other, turn):
    yield f'<path d="M0 -12V-8M-9 -8H9V8H-9ZM0 8V{12 if len(item.ends) > 1 else 8}" {stroke(colour)}/>'
    yield f'<text x="0" y="3" font-size="8" text-anchor="middle" fill="{TEXT}"{upright(turn, 0, 0)}>{escape(item.kind[:3])}</text>'


SYMBOLS = {
    "CBR": contact, "DIS": contact, "IFL": infeed, "GEN": machine, "MOT": machine, "PTR": windings, "CTR": current_transformer,
    "VTR": voltage_transformer, "SAR": arrester, "CAB": cable, "LIN": line_end, "CAP": capacitor,
}
