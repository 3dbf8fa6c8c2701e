#!/usr/bin/env python3
"""Times the reading of drawings as stations, and measures the memory that it takes.

Build the program first: ./interlock --prove. It is asked to `check` the drawing with an empty positions file, so what
is timed is the reading of the drawing and the start of the process. The drawings:

- large: a station at its limits of parts and nodes, in a text of 200,000 elements of which most are skipped, as the
  logical nodes in the drawing of a tool are
- nodes: 58,000 nodes and as many loads with a terminal each, so that every name and every terminal is looked up
  before the drawing is refused at its 1,025th node
- long: 10,000 nodes below a bay with a name of 10,000 bytes, whose paths are written out

A time is the shortest of seven runs, the memory the most that the process had at once.
"""
import pathlib
import sys

sys.path.insert(0, str(pathlib.Path(__file__).resolve().parents[1]))
import common
from common import Figure, bay

REFUSED = 5


def large():
    nodes = [f"n{n}" for n in range(5)]
    return common.drawing([bay(f"Q{b}", nodes, ['<LNode lnClass="XSWI"/>'] * 990) for b in range(200)])


def nodes(count):
    loads = [f'<ConductingEquipment name="{n}" type="X"><Terminal connectivityNode="S/V1/Q/{n}"/></ConductingEquipment>' for n in range(count)]
    return common.drawing([bay("Q", range(count), loads)])


def long(count, length):
    return common.drawing([bay("Q" * length, range(count), [])])


def figures():
    program = common.program()
    drawings = [("large", large(), 0, 1000), ("nodes", nodes(58_000), REFUSED, None), ("long", long(10_000, 10_000), REFUSED, None)]
    with common.folder() as folder:
        csv = pathlib.Path(folder, "positions.csv")
        csv.write_text("")
        for name, text, status, most in drawings:
            assert len(text) <= common.LIMIT, name
            drawing = pathlib.Path(folder, f"{name}.ssd")
            drawing.write_text(text)
            run = common.best([program, "check", drawing, csv], status=status)
            yield Figure(f"read_ssd, {name}, {len(text):,} bytes", run.seconds * 1e3, "ms", most, f"{run.peak:.0f} MiB")


common.main(__doc__, figures)
