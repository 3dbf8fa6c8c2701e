#!/usr/bin/env python3
"""Times `breaks`, the central rules on one vector, on the largest station that the limits allow: 1,024 nodes in a
chain, 2,048 links along it, 2,048 taps, and as many switches as the limit has.

Build the program first: ./interlock --prove. It is asked to `check` the station with no word lost and with nine lost.
Each operation is released, so with n words lost the program tries 2^n readings for each, and calls `breaks` once for
each; what is timed is the difference of the two runs. Every disconnector lies beside a link, so each of its operations
needs all labellings that an operation can need.
"""
import pathlib
import sys

sys.path.insert(0, str(pathlib.Path(__file__).resolve().parents[1]))
import common
from common import Figure, bay, equipment

NODES, LINKS, TAPS, SWITCHES, LOST = 1024, 2048, 2048, 20, 9


def station():
    def at(*numbers):
        return [f"Q/n{n}" for n in numbers]

    items = [equipment(f"D{i}", "DIS", at(50 * i, 50 * i + 1)) for i in range(SWITCHES - 1)]
    items.append(equipment("E", "IFL", at(NODES - 1)))
    for i in range(LINKS):
        first = NODES - 2 - i % (NODES - 1)
        items.append(equipment(f"C{i}", "CAB", at(first, first + 1)))
    items += [equipment(f"T{i}", "MOT", at(i % NODES)) for i in range(TAPS - 1)]
    return common.drawing([bay("Q", [f"n{n}" for n in range(NODES)], items)])


def words(lost):
    names = [f"D{i}" for i in range(SWITCHES - 1)] + ["E"]
    return {f"S/V1/Q/{n}": "lost" if i < lost else "on" if n == "E" else "off" for i, n in enumerate(names)}


def figures():
    program = common.program()
    with common.folder() as folder:
        drawing, csv = pathlib.Path(folder, "station.ssd"), pathlib.Path(folder, "positions.csv")
        drawing.write_text(station())
        seconds = {}
        for lost in (0, LOST):
            csv.write_text(common.positions(words(lost)))
            text = common.printed([program, "check", drawing, csv])
            assert sum(line.startswith("1 1 - - ") for line in text.splitlines()) == SWITCHES, text
            seconds[lost] = common.best([program, "check", drawing, csv], 3).seconds
    calls = 2 * SWITCHES * (2**LOST - 1)
    yield Figure(f"breaks, {NODES} nodes, of {calls} calls", (seconds[LOST] - seconds[0]) / calls * 1e3, "ms", 1)


common.main(__doc__, figures)
