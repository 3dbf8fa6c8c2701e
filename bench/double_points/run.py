#!/usr/bin/env python3
"""Times the reading of positions files of 8 MiB, the most that a file may have: one of blank lines with a record at
its end, which is read, and one whose first record has a path of 8 MiB, which is refused.

Build the program first: ./interlock --prove. It is asked to `check` a drawing of one switch, so what is timed is the
reading of the positions and the start of the process. A time is the shortest of seven runs.
"""
import pathlib
import sys

sys.path.insert(0, str(pathlib.Path(__file__).resolve().parents[1]))
import common
from common import Figure, bay, equipment

RECORD = "S/V1/Q/E,on\n"


def figures():
    program = common.program()
    files = {
        "read, blank lines and one record": ("\n" * (common.LIMIT - len(RECORD)) + RECORD, 0),
        "refused, one path": ("p" * (common.LIMIT - len(",on\n")) + ",on\n", 6),
    }
    with common.folder() as folder:
        drawing, csv = pathlib.Path(folder, "station.ssd"), pathlib.Path(folder, "positions.csv")
        drawing.write_text(common.drawing([bay("Q", ["n"], [equipment("E", "IFL", ["Q/n"])])]))
        for name, (text, status) in files.items():
            csv.write_text(text)
            run = common.best([program, "check", drawing, csv], status=status)
            yield Figure(f"positions of 8 MiB {name}", run.seconds * 1e3, "ms")


common.main(__doc__, figures)
