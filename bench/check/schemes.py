#!/usr/bin/env python3
"""Drawings of the schemes by which stations are built, of any size, with positions; the same at each call.

    bench/check/schemes.py                  names each scheme, its sizes, and what a size counts
    bench/check/schemes.py FOLDER           writes each scheme in each size into the folder: the drawing, and positions of
                                            which none, some and all are known
    bench/check/schemes.py FOLDER SCHEME    writes one scheme

The names are those of the examples: QA is a breaker, QB a disconnector, QC an earthing switch, E a line that may feed.
"""
import pathlib
import sys
from typing import Callable, NamedTuple

sys.dont_write_bytecode = True
sys.path.insert(0, str(pathlib.Path(__file__).resolve().parents[1]))
import common

KINDS = {"QA": "CBR", "QB": "DIS", "QC": "DIS", "E1": "IFL", "E2": "IFL"}


class Station:
    """Bays in document order, by their voltage level, and the word in service of each switch by its path."""

    def __init__(self):
        self.levels, self.transformers, self.words = {}, "", {}

    def bay(self, name, rows=(), level="V1"):
        """Adds a bay of rows `SWITCH NODE [NODE] WORD`. A node without a bay's name is the bay's own, and a busbar's bay
        has the node B alone."""
        nodes, items = {} if rows else {"B": None}, []
        for row in rows:
            switch, *ends, word = row.split()
            nodes.update(dict.fromkeys(end for end in ends if "/" not in end))
            if switch[:2] == "QC":
                ends.append("grounded")
            terminals = [end if "/" in end else f"{name}/{end}" for end in ends]
            items.append(common.equipment(switch, KINDS[switch[:2]], terminals, f"S/{level}"))
            self.words[f"S/{level}/{name}/{switch}"] = word
        self.levels.setdefault(level, []).append(common.bay(name, nodes, items))

    def busbars(self, number):
        """Adds busbars W1, W2 and so on, each a bay of its own."""
        for i in range(1, number + 1):
            self.bay(f"W{i}")

    def transformer(self, name, *nodes):
        """Adds a transformer between these nodes, each named by its whole path."""
        ends = (f'<Terminal connectivityNode="{node}" cNodeName="{node.split("/")[-1]}"/>' for node in nodes)
        windings = "".join(f'<TransformerWinding name="{i}">{end}</TransformerWinding>' for i, end in enumerate(ends, 1))
        self.transformers += f'<PowerTransformer name="{name}">{windings}</PowerTransformer>'

    def drawing(self):
        """The text of the drawing."""
        levels = (f'<VoltageLevel name="{name}">{"".join(bays)}</VoltageLevel>' for name, bays in self.levels.items())
        return f'<SCL><Substation name="S">{self.transformers}{"".join(levels)}</Substation></SCL>'

    def bays(self):
        """How many bays have switches."""
        return len({path.rsplit("/", 1)[0] for path in self.words})

    def known(self, share):
        """The words of no switch, of every second one, or of all."""
        return {"none": {}, "some": dict(list(self.words.items())[::2]), "all": self.words}[share]


# ---- the bays

def coupler(station, name, one, two):
    """A coupler between two busbars, in service."""
    station.bay(name, [f"QB1 {one}/B k1 on", "QA1 k1 k2 on", f"QB2 k2 {two}/B on"])


def feeder(station, name, one, two, on_one, more=()):
    """A feeder that stands on the one or the other busbar."""
    first, second = ("on", "off") if on_one else ("off", "on")
    rows = [f"QB1 {one}/B n1 {first}", f"QB2 {two}/B n1 {second}", "QA1 n1 n2 on", "QB9 n2 n3 on", "QC9 n3 off", "E1 n3 on"]
    station.bay(name, [*rows, *more])


def diameter(station, name, earthing, second_line=True):
    """A diameter of one and a half breakers with two lines, all closed: 15 switches, or 21 with an earthing switch on
    both sides of each breaker. Where it has no second line, a transformer stands at its node l2."""
    rows, above = [], "W1/B"
    for breaker, (a, b, below) in zip("123", (("a", "b", "c"), ("d", "e", "f"), ("g", "h", "W2/B"))):
        earths = [f"QC{breaker}{side} {node} off" for side, node in (("1", a), ("2", b)) if earthing]
        rows += [f"QB{breaker}1 {above} {a} on", f"QA{breaker} {a} {b} on", f"QB{breaker}2 {b} {below} on", *earths]
        above = below
    for line, node in (("1", "c"), ("2", "f")):
        rows += [f"QB9{line} {node} l{line} on", f"QC9{line} l{line} off"]
        rows += [f"E{line} l{line} on"] if line == "1" or second_line else []
    station.bay(name, rows)


# ---- the schemes

def double_busbar(feeders):
    station = Station()
    station.busbars(2)
    coupler(station, "K0", "W1", "W2")
    for i in range(1, feeders + 1):
        feeder(station, f"Q{i}", "W1", "W2", i % 2 == 1)
    return station


def two_sections(feeders, side_of):
    """Two double busbars, W1 and W2 beside W3 and W4, with four couplers; `side_of` says on which a feeder stands."""
    station = Station()
    station.busbars(4)
    for name, one, two in (("K1", 1, 2), ("K2", 3, 4), ("K3", 1, 3), ("K4", 2, 4)):
        coupler(station, name, f"W{one}", f"W{two}")
    for i in range(feeders):
        side = side_of(i, feeders)
        feeder(station, f"Q{i + 1}", f"W{2 * side + 1}", f"W{2 * side + 2}", i // 2 % 2 == 0)
    return station


def sections_in_blocks(feeders):
    return two_sections(feeders, lambda i, count: int(2 * i >= count))


def sections_in_turn(feeders):
    return two_sections(feeders, lambda i, count: i % 2)


def transfer_bus(feeders):
    """A double busbar with a transfer bus W3, which no feeder uses."""
    station = Station()
    station.busbars(3)
    coupling = ["QB1 W1/B k1 on", "QB2 W2/B k1 off", "QA1 k1 k2 on", "QB20 k2 W2/B on", "QB7 k2 W3/B off", "QC7 W3/B off"]
    station.bay("K0", coupling)
    for i in range(1, feeders + 1):
        feeder(station, f"Q{i}", "W1", "W2", i % 2 == 1, ["QB7 n3 W3/B off"])
    return station


def ring(lines):
    """Lines in a ring, with a breaker between each two neighbours that has earthing switches on both sides."""
    station = Station()
    for i in range(1, lines + 1):
        here, there = f"L{i}/r", f"L{i % lines + 1}/r"
        station.bay(f"L{i}", ["QB9 r l on", "QC9 l off", "E1 l on"])
        station.bay(f"K{i}", [f"QB1 {here} k1 on", "QA1 k1 k2 on", f"QB2 k2 {there} on", "QC1 k1 off", "QC2 k2 off"])
    return station


def diameters_of_15(number):
    return diameters(number, False)


def diameters_of_21(number):
    return diameters(number, True)


def diameters(number, earthing):
    station = Station()
    station.busbars(2)
    for i in range(1, number + 1):
        diameter(station, f"D{i}", earthing)
    return station


def two_unlike_diameters(_):
    """A diameter with two lines, and one with a line and a transformer to a lower voltage: 15, 14 and 3 switches."""
    station = Station()
    station.busbars(2)
    diameter(station, "D1", False)
    diameter(station, "D2", False, second_line=False)
    station.bay("T1", ["QB1 t n on", "QA1 n b on", "E1 b on"], "V2")
    station.transformer("T1", "S/V1/D2/l2", "S/V2/T1/t")
    return station


class Scheme(NamedTuple):
    what: str
    make: Callable[[int], Station]
    sizes: tuple
    unit: str


SCHEMES = [
    Scheme("double busbar", double_busbar, (10, 20, 40, 60), "feeders"),
    Scheme("two sections, feeders in blocks", sections_in_blocks, (10, 20, 40, 60), "feeders"),
    Scheme("two sections, feeders in turn", sections_in_turn, (10, 20, 40, 60), "feeders"),
    Scheme("transfer bus", transfer_bus, (10, 20, 40, 60), "feeders"),
    Scheme("ring", ring, (4, 8, 16, 32), "lines"),
    Scheme("diameters of 15", diameters_of_15, (2, 4, 8), "diameters"),
    Scheme("diameters of 21", diameters_of_21, (2, 4, 8), "diameters"),
    Scheme("unlike diameters", two_unlike_diameters, (2,), "diameters"),
]
SHARES = ("none", "some", "all")


def written(folder, name, station):
    """Writes a drawing and its positions, and says where: the drawing, and by share known the positions."""
    drawing = pathlib.Path(folder, f"{name}.ssd")
    drawing.write_text(station.drawing())
    files = {share: pathlib.Path(folder, f"{name}_{share}.csv") for share in SHARES}
    for share, file in files.items():
        file.write_text(common.positions(station.known(share)))
    return drawing, files


def main(words):
    if not words:
        for scheme in SCHEMES:
            print(f"{scheme.make.__name__:22} {', '.join(map(str, scheme.sizes)):16} {scheme.unit:10} {scheme.what}")
        return
    chosen = [scheme for scheme in SCHEMES if words[1:] in ([], [scheme.make.__name__])]
    if not chosen or words[0].startswith("-") or len(words) > 2:
        sys.exit(__doc__)
    pathlib.Path(words[0]).mkdir(exist_ok=True)
    for scheme in chosen:
        for size in scheme.sizes:
            written(words[0], f"{scheme.make.__name__}_{size}", scheme.make(size))


if __name__ == "__main__":
    main(sys.argv[1:])
