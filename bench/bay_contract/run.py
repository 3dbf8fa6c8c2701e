#!/usr/bin/env python3
"""Times the alphabets of all parts of double busbars of 3, 40 and 60 feeders, which are alike, and those of parts with 24
disconnectors that have 4,096 contractions on the way.

Build the program first: (cd crates/bench_parts && rt run -- graphs 4 3 5 4). A time is the shortest of nine runs,
without the reading of the drawing.
"""
import pathlib
import sys

sys.path.insert(0, str(pathlib.Path(__file__).resolve().parents[1]))
import common
from common import Figure, bay, drawing, equipment

# the most that it should take, in milliseconds, by feeders
MOST = {3: None, 40: 2, 60: None}


# so for one widest part, and for eight of them that are alike
WIDE_MOST = {1: 500, 8: None}


def wide(name, nodes=12):
    """A part whose nodes each have a disconnector to the one busbar, and then each one to the other."""
    items = [equipment(f"QB{i}", "DIS", ["W1/B", f"{name}/n{i}"]) for i in range(nodes)]
    items += [equipment(f"QC{i}", "DIS", [f"{name}/n{i}", "W2/B"]) for i in range(nodes)]
    return bay(name, [f"n{i}" for i in range(nodes)], items)


def widest(parts):
    """The drawing of two busbars and so many such parts."""
    return drawing([bay("W1", ["B"], []), bay("W2", ["B"], [])] + [wide(f"P{i}") for i in range(parts)])


def timed(program, text):
    """The letters, and the milliseconds, of the shortest of nine runs."""
    with common.folder() as folder:
        pathlib.Path(folder, "drawing.ssd").write_text(text)
        runs = [common.printed([program, "alphabets", "time"], cwd=folder).splitlines() for _ in range(9)]
    return runs[0][0].split()[1], min(int(lines[1].split()[1]) for lines in runs) / 1000


def figures():
    program = common.program("bench_parts")
    for feeders, most in MOST.items():
        letters, spent = timed(program, common.double_busbar(feeders)[0])
        yield Figure(f"alphabets of {feeders} feeders", spent, "ms", most, f"{letters} letters")
    for parts, most in WIDE_MOST.items():
        letters, spent = timed(program, widest(parts))
        yield Figure(f"alphabets of {parts} of the widest parts", spent, "ms", most, f"{letters} letters")


common.main(__doc__, figures)
