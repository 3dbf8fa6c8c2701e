"""The picture of `tools/picture`, as a page needs it: each switch in each of its positions, a token for each colour of a
node, and both faces of each release. The page shows what holds."""
import re
from html import escape

import layout
import symbols
from drawing import Drawing

WORDS = ("off", "on", "intermediate")
GREY = "#767676"


class DeskPicture(symbols.Picture):
    def __init__(self, drawn):
        switches = [item.path for item in drawn.drawing.items if item.is_switch]
        super().__init__(drawn, dict.fromkeys(switches, "off"), {path: (False, False, "-", "-") for path in switches}, {})
        self.numbers = {key: number for number, key in enumerate(self.drawing.nodes)}
        self.naming = None

    def style_of(self, key):
        return (f"@{self.numbers[key]}@", 2, "") if key in self.numbers else symbols.NO_STATE

    def symbol(self, item):
        if item.path not in self.words:
            self.add(f'<g class="item" data-path="{escape(item.path)}">')
            super().symbol(item)
            self.add("</g>")
            return
        word, boxes = self.words[item.path], len(self.boxes)
        self.add(f'<g class="switch" data-path="{escape(item.path)}" tabindex="0" role="button">')
        for now in WORDS:
            self.words[item.path] = now
            self.add(f'<g data-word="{now}">')
            super().symbol(item)
            self.add("</g>")
        self.add("</g>")
        self.words[item.path] = word
        # the box of the position that is not known is the widest, and the last
        del self.boxes[boxes:-1]

    def title(self, item):
        return item.path + (f" ({item.description})" if item.description else "")

    def name(self, item):
        self.naming = item.path
        super().name(item)
        self.naming = None

    def mark(self, x, y, letter, released):
        word = {"O": "open", "C": "close"}.get(letter)
        if self.naming is None or word is None:
            return
        for free in (True, False):
            self.add(f'<g class="mark" data-mark="{word}" data-of="{escape(self.naming)}" data-free="{int(free)}">')
            super().mark(x, y, letter, free)
            self.add("</g>")

    def legend(self, y):
        """The page has its own."""
        return y

    def page(self):
        svg = super().page()
        svg = re.sub(r'stroke="@(\d+)@"', rf'stroke="{GREY}" data-stroke="\1"', svg)
        return re.sub(r'fill="@(\d+)@"', rf'fill="{GREY}" data-fill="\1"', svg)


def drawn(station):
    """The picture of a drawing, and what the page knows of it beside."""
    drawing = Drawing(station)
    use = layout.by_coordinates if drawing.has_places else layout.by_topology
    picture = DeskPicture(use(drawing))
    svg = picture.render()
    data = {
        "title": drawing.title,
        "nodes": [node.path for node in drawing.nodes.values()],
        "items": [{"path": item.path, "switch": item.is_switch} for item in drawing.items],
        "states": {f"{voltage} {earth}": style for (voltage, earth), style in symbols.STATES.items()},
        "legend": [[" ".join(state), words] for state, words in symbols.LEGEND],
    }
    return picture, svg, data
