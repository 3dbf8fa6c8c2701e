#!/usr/bin/env python3
"""The releases of a station by the definitions alone: a second answer, to compare with that of `check`.

    examples/by_definition.py STATION POSITIONS

reads the drawing with the XML reader of Python's library, takes the definitions of docs/DEFINITIONS.md at their
word, tries every reading, and prints the line `O C RO RC PATH` of each switch. It shares no code with the program
and proves nothing. It is made for drawings that the program accepts: it looks for no fault in them.
"""
import csv
import itertools
import sys
import xml.etree.ElementTree as ET

SCL = "{http://www.iec.ch/61850/2003/SCL}"


class Switch:
    def __init__(self, path, kind, ends):
        self.path, self.kind, self.ends = path, kind, ends


class Station:
    """Switches in document order, links with the mark of a bond, and the nodes of the taps."""

    def __init__(self, file):
        self.switches, self.links, self.taps = [], [], []
        root = ET.parse(file).getroot()
        for substation in root.findall(SCL + "Substation"):
            self.read(substation, substation.get("name"))

    def read(self, element, path):
        for child in element:
            name = child.tag.removeprefix(SCL)
            if name in ("VoltageLevel", "Bay"):
                self.read(child, f"{path}/{child.get('name')}")
            elif name == "ConductingEquipment":
                self.equipment(child.get("type"), f"{path}/{child.get('name')}", terminals(child))
            elif name == "PowerTransformer":
                nodes = [n for winding in child.findall(SCL + "TransformerWinding") for n in terminals(winding) if n]
                self.link(nodes, False)
                self.taps += nodes

    def equipment(self, kind, path, ends):
        nodes = [n for n in ends if n]
        if kind == "DIS" and len(nodes) == 1:
            kind = "earthing"
        if kind in ("CBR", "DIS", "earthing", "IFL", "GEN"):
            self.switches.append(Switch(path, "infeed" if kind in ("IFL", "GEN") else kind, nodes))
            self.taps += nodes if kind in ("IFL", "GEN") else []
        else:
            self.link(nodes, kind in ("CTR", "CAB", "LIN", "GIL"))
            if len(nodes) == 1 and kind not in ("VTR", "SAR", "CTR"):
                self.taps += nodes

    def link(self, nodes, bond):
        self.links += [(a, b, bond) for a, b in zip(nodes, nodes[1:]) if a != b]


def terminals(element):
    """The node of each terminal by its key, None for a grounded one."""
    nodes = []
    for terminal in element.findall(SCL + "Terminal"):
        key = terminal.get("connectivityNode")
        if key is None:
            key = "/".join(terminal.get(n) for n in ("substationName", "voltageLevelName", "bayName", "cNodeName"))
        last = terminal.get("cNodeName") or key.split("/")[-1]
        nodes.append(None if last == "grounded" else key)
    return nodes


def reach(station, start, closed, bonds_only=False):
    """The nodes joined to the start: through closed breakers and disconnectors and through links."""
    edges = [s.ends for s, c in zip(station.switches, closed) if c and s.kind in ("CBR", "DIS")]
    edges += [(a, b) for a, b, bond in station.links if bond or not bonds_only]
    seen, todo = {start}, [start]
    while todo:
        node = todo.pop()
        for a, b in edges:
            for here, there in ((a, b), (b, a)):
                if here == node and there not in seen:
                    seen.add(there)
                    todo.append(there)
    return seen


def coupled(station, start, closed):
    return reach(station, start, [c or s.kind == "CBR" for s, c in zip(station.switches, closed)])


def has_closed(station, nodes, closed, kind):
    return any(c and s.kind == kind and s.ends[0] in nodes for s, c in zip(station.switches, closed))


def breaks(station, number, closes, positions):
    """The rule that the operation breaks in these positions of all switches, or `-`."""
    switch = station.switches[number]
    opened, shut = list(positions), list(positions)
    opened[number], shut[number] = False, True
    node = switch.ends[0]
    if closes and switch.kind == "earthing" and has_closed(station, coupled(station, node, opened), opened, "infeed"):
        return "R1"
    if closes and switch.kind in ("CBR", "DIS"):
        nodes = coupled(station, node, shut)
        if has_closed(station, nodes, shut, "infeed") and has_closed(station, nodes, shut, "earthing"):
            return "R2"
    if closes and switch.kind == "infeed" and has_closed(station, coupled(station, node, opened), opened, "earthing"):
        return "R2"
    if switch.kind == "DIS":
        sides = [reach(station, n, opened) for n in switch.ends]
        live = any(has_closed(station, side, opened, "infeed") for side in sides)
        loaded = all(any(tap in side for tap in station.taps) for side in sides)
        if live and loaded and switch.ends[1] not in reach(station, node, opened, bonds_only=True):
            return "R3"
    return "-"


def words_of(station, file):
    words = {s.path: "lost" for s in station.switches}
    with open(file, newline="", encoding="utf-8-sig") as text:
        words.update((path, word) for path, word in csv.reader(text))
    return [words[s.path] for s in station.switches]


def choices(words):
    return [{"off": (False,), "on": (True,)}.get(word, (False, True)) for word in words]


def broken_rules(station, words):
    """For each switch the rules that opening it, and that closing it, breaks in some reading of the words."""
    readings = list(itertools.product(*choices(words)))
    for number in range(len(station.switches)):
        yield [{breaks(station, number, closes, r) for r in readings} - {"-"} for closes in (False, True)]


def reading_of(station, words, number, shown):
    """The positions that the `+` lines of a denial show; None where they do not name what they should."""
    unsure = [i for i, word in enumerate(words) if word not in ("off", "on") and i != number]
    paths = {s.path: i for i, s in enumerate(station.switches)}
    if [paths.get(path) for _, path in shown] != unsure:
        return None
    reading = [word == "on" for word in words]
    for word, path in shown:
        reading[paths[path]] = word == "on"
    return reading


def faults(station, words, text):
    """What is wrong with a text of `check` by the definitions."""
    lines = text.splitlines()
    for number, rules in enumerate(broken_rules(station, words)):
        path = station.switches[number].path
        line = lines.pop(0) if lines else ""
        fields = line.split(" ", 4)
        if len(fields) != 5 or fields[4] != path or fields[:2] != [str(int(not r)) for r in rules]:
            yield f"{path}: '{line}', by the definitions {rules}"
            return
        for closes, name in ((False, "open"), (True, "close")):
            shown = []
            while lines and lines[0].startswith(f"+ {name} "):
                shown.append(lines.pop(0).split(" ", 3)[2:])
            rule = fields[2 + closes]
            if not rules[closes]:
                wrong = rule != "-" or shown != []
            else:
                reading = reading_of(station, words, number, shown)
                wrong = reading is None or breaks(station, number, closes, reading) != rule
            if wrong:
                yield f"{path}: {name} is shown as {rule} with {shown}, by the definitions {rules[closes] or '-'}"
    if lines:
        yield f"the text goes on: {lines[0]}"


def main(station_file, positions_file):
    station = Station(station_file)
    words = words_of(station, positions_file)
    for switch, rules in zip(station.switches, broken_rules(station, words)):
        print(*(int(not r) for r in rules), *("/".join(sorted(r)) or "-" for r in rules), switch.path)


if __name__ == "__main__":
    if len(sys.argv) != 3:
        sys.exit(__doc__)
    main(*sys.argv[1:])
