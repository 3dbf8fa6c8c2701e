#!/usr/bin/env python3
"""Times `audit` of many hand-written equations on a double busbar of 40 feeders.

Build the program first: ./interlock --prove. There is one block for each operation of each feeder: eight name the switches
of their own bay, four are `never`. Then one block of twelve switches, whose 4,096 positions are all asked. A time is the
shortest of three runs of the whole program.
"""
import pathlib
import sys

sys.path.insert(0, str(pathlib.Path(__file__).resolve().parents[1]))
import common
from common import Figure

FEEDERS = 40


def block(operation, path, conditions):
    return "".join([f"{operation} {path}\n", *(f"when {word} {switch}\n" for word, switch in conditions), "end\n"])


def feeder(name):
    """The blocks of a feeder, as they are written by hand."""
    q = {switch: f"S/V1/{name}/{switch}" for switch in ("QB1", "QB2", "QA1", "QB9", "QC9", "E1")}
    yield block("open", q["QA1"], [])
    yield block("close", q["QA1"], [("off", q["QC9"])])
    yield block("open", q["QC9"], [])
    yield block("close", q["QC9"], [("off", q["QB9"]), ("off", q["E1"])])
    for switch in ("QB1", "QB2", "QB9"):
        yield block("open", q[switch], [("off", q["QA1"])])
        yield f"close {q[switch]}\nnever\nend\n"
    yield block("open", q["E1"], [])
    yield f"close {q['E1']}\nnever\nend\n"


def wide():
    """A block of the coupler that names twelve switches."""
    paths = [f"S/V1/{bay}/{switch}" for bay in ("Q1", "Q2") for switch in ("QB1", "QB2", "QA1", "QB9", "QC9", "E1")]
    return block("close", "S/V1/K0/QA1", [("off", path) for path in paths])


def figures():
    program = common.program()
    with common.folder() as folder:
        drawing, text = pathlib.Path(folder, "station.ssd"), pathlib.Path(folder, "blocks.txt")
        drawing.write_text(common.double_busbar(FEEDERS)[0])
        blocks = [one for i in range(1, FEEDERS + 1) for one in feeder(f"Q{i}")]
        text.write_text("".join(blocks))
        yield Figure(f"audit of {len(blocks)} blocks", common.best([program, "audit", drawing, text], 3, 1).seconds, "s", 1)
        text.write_text(wide())
        yield Figure("audit of one block of twelve switches", common.best([program, "audit", drawing, text], 3, 1).seconds, "s")


common.main(__doc__, figures)
