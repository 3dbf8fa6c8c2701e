"""The single-line diagram of an SSD file, as a picture needs it: nodes, equipment and transformers with their places.

It is read with the XML reader of Python's library, for drawings that the program accepts. Coordinates are those of
IEC 61850-6 (namespace SCLcoordinates): each is counted from the element in which it stands.
"""
import csv
import xml.etree.ElementTree as ET

COORDINATES = "{http://www.iec.ch/61850/2003/SCLcoordinates}"


class Node:
    """A connectivity node, by its key; its path is what the program calls it."""

    def __init__(self, key, path, level, bay, place):
        self.key, self.path, self.level, self.bay, self.place = key, path, level, bay, place

    @property
    def name(self):
        return self.path.rsplit("/", 1)[-1]


class Item:
    """Equipment or a transformer. `nodes` has the key of each terminal, None for a grounded one."""

    def __init__(self, path, kind, nodes, level, bay, place, upright, description):
        self.path, self.kind, self.nodes, self.level, self.bay = path, kind, nodes, level, bay
        self.place, self.upright, self.description = place, upright, description

    @property
    def name(self):
        return self.path.rsplit("/", 1)[-1]

    @property
    def ends(self):
        return [n for n in self.nodes if n is not None]

    @property
    def grounded(self):
        return None in self.nodes

    @property
    def is_switch(self):
        return self.kind in ("CBR", "DIS", "IFL", "GEN")


class Drawing:
    """`bays` names each bay, in document order, with its description, `levels` each voltage level by its path, with its
    voltage where one is given; `horizontal` has the bays drawn as a busbar."""

    def __init__(self, file):
        self.nodes, self.items, self.bays, self.levels, self.horizontal = {}, [], {}, {}, set()
        root = ET.parse(file).getroot()
        self.scl = root.tag[: root.tag.index("}") + 1] if "}" in root.tag else ""
        self.title = ""
        for substation in self.children(root, "Substation"):
            self.title = self.title or substation.get("desc") or substation.get("name")
            self.read(substation, substation.get("name"), place_of(substation, (0, 0)) or (0, 0), None, None)

    def children(self, element, name):
        return element.findall(self.scl + name)

    def read(self, element, path, origin, level, bay):
        for child in element:
            name = child.tag.removeprefix(self.scl) if isinstance(child.tag, str) else ""
            inner = f"{path}/{child.get('name')}"
            place = place_of(child, origin)
            if name == "VoltageLevel":
                self.levels[inner] = " ".join([child.get("name") or "", *self.voltage(child)]).strip()
                self.read(child, inner, place or origin, inner, None)
            elif name == "Bay":
                self.bays[inner] = child.get("desc") or ""
                if child.get(COORDINATES + "dir") == "horizontal":
                    self.horizontal.add(inner)
                self.read(child, inner, place or origin, level, inner)
            elif name == "ConnectivityNode" and child.get("name") != "grounded":
                key = child.get("pathName") or inner
                self.nodes[key] = Node(key, inner, level, bay, place)
            elif name == "ConductingEquipment":
                self.add(child, child.get("type"), inner, self.terminals(child), place, level, bay)
            elif name == "PowerTransformer":
                windings = self.children(child, "TransformerWinding")
                self.add(child, "PTR", inner, [n for w in windings for n in self.terminals(w)], place, level, bay)

    def voltage(self, level):
        """A level's voltage as one word, such as 110 kV, if it is given."""
        for voltage in self.children(level, "Voltage"):
            if (voltage.text or "").strip():
                yield f"{voltage.text.strip()} {voltage.get('multiplier') or ''}{voltage.get('unit') or 'V'}"

    def add(self, element, kind, path, nodes, place, level, bay):
        upright = element.get(COORDINATES + "dir") != "horizontal"
        self.items.append(Item(path, kind, nodes, level, bay, place, upright, element.get("desc") or ""))

    def terminals(self, element):
        keys = []
        for terminal in self.children(element, "Terminal"):
            key = terminal.get("connectivityNode")
            if key is None:
                key = "/".join(terminal.get(n, "") for n in ("substationName", "voltageLevelName", "bayName", "cNodeName"))
            last = terminal.get("cNodeName") or key.rsplit("/", 1)[-1]
            keys.append(None if last == "grounded" else key)
        return keys

    @property
    def has_places(self):
        """Whether every item that is drawn has a place, and every node has one."""
        return all(i.place for i in self.items) and all(n.place for n in self.nodes.values())


def place_of(element, origin):
    x, y = element.get(COORDINATES + "x"), element.get(COORDINATES + "y")
    try:
        return (origin[0] + float(x), origin[1] + float(y))
    except (TypeError, ValueError):
        return None


def words_of(drawing, file):
    """The word of each switch by its path; lost where the file names none."""
    words = {item.path: "lost" for item in drawing.items if item.is_switch}
    with open(file, newline="", encoding="utf-8-sig") as text:
        words.update(row for row in csv.reader(text) if len(row) == 2)
    return words
