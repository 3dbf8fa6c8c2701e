"""The picture of an extension: NEW as a single-line diagram, with what is new, and with what `compare OLD NEW` says of each
operation. All switches stand open in it, since it shows no positions.

The marks differ by form, not by colour alone: same is a full box, kept an empty one, changed an empty one that is struck
out, new the letter alone. What only NEW has is drawn thick.
"""
from symbols import TEXT, Picture

NEW = ("#2f76d2", 4, "")
OLD = (TEXT, 2, "")
KEPT, CHANGED = "#b36200", "#dd2f36"
WORDS = ("new", "same", "kept", "changed", "gone")
MEANING = {
    "same": "judged as before",
    "kept": "as before while all that is new is open",
    "changed": "judged otherwise",
    "new": "only the new station has it",
}


def compared(text):
    """What `compare` says of each switch of NEW: the words of opening and closing and their changes, by path."""
    found, changes = {}, None
    for line in text.splitlines():
        word, *rest = line.split(" ", 2)
        if word in WORDS and len(rest) == 2:
            changes = []
            if word != "gone":
                found.setdefault(rest[1], {})[rest[0]] = (word, changes)
        elif word in ("stricter", "looser"):
            changes.append(line)
    return found


class Extension(Picture):
    """`old` is the drawing of OLD, `found` what `compared` gives."""

    def __init__(self, layout, old, found):
        marks = {path: (both["open"], both["close"], "-", "-") for path, both in found.items()}
        super().__init__(layout, {i.path: "off" for i in layout.drawing.items if i.is_switch}, marks, {})
        self.old_nodes = {node.path for node in old.nodes.values()}

    def style_of(self, key):
        node = self.drawing.nodes.get(key)
        return OLD if node is None or node.path in self.old_nodes else NEW

    def title(self, item):
        lines = [item.path + (f" ({item.description})" if item.description else "")]
        for name, (word, changes) in zip(("open", "close"), self.releases.get(item.path, ())):
            lines.append(f"{name}: " + ", ".join([word, *changes]))
        return "\n".join(lines)

    def mark(self, x, y, letter, said):
        word = said[0]
        colour = {"same": TEXT, "kept": KEPT, "changed": CHANGED, "new": NEW[0]}[word]
        if word != "new":
            fill = colour if word == "same" else "none"
            self.add(f'<rect x="{x:.1f}" y="{y:.1f}" width="12" height="11" rx="2" fill="{fill}" stroke="{colour}"/>')
        ink = "#ffffff" if word == "same" else colour
        self.add(f'<text x="{x + 6:.1f}" y="{y + 9:.1f}" font-size="9" text-anchor="middle" font-weight="bold" fill="{ink}">{letter}</text>')
        if word == "changed":
            self.add(f'<path d="M{x:.1f} {y + 11:.1f}l12 -11" stroke="{colour}" stroke-width="1.5" fill="none"/>')

    def legend(self, y):
        said = {both[0] for two in self.releases.values() for both in two[:2]}
        for word, words in MEANING.items():
            if word in said:
                self.mark(20, y - 10, "O", (word,))
                self.mark(36, y - 10, "C", (word,))
                self.text(68, y, f"{word}: {words}")
                y += 17
        if any(node.path not in self.old_nodes for node in self.drawing.nodes.values()):
            self.line([(20, y - 4), (60, y - 4)], NEW)
            self.text(68, y, "new")
            y += 17
        return y
