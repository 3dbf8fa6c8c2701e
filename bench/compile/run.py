#!/usr/bin/env python3
"""Times `compile` on double busbars of 3, 40 and 60 feeders, and holds its memory against the text that it writes.

Build the program first: ./interlock --prove. A time is the shortest of seven runs of the whole program, from its
start to its end. The text is held once: the most memory at once, less that of `check` on the same drawing, is held
against the text and the nodes that it is made of.
"""
import pathlib
import subprocess
import sys

sys.path.insert(0, str(pathlib.Path(__file__).resolve().parents[1]))
import common
from common import Figure

# the most that `compile` may take, in seconds, by feeders
MOST = {3: None, 40: 0.5, 60: None}


def figures():
    program = common.program()
    with common.folder() as folder:
        drawing, csv = pathlib.Path(folder, "station.ssd"), pathlib.Path(folder, "positions.csv")
        for feeders, most in MOST.items():
            text, words = common.double_busbar(feeders)
            drawing.write_text(text)
            csv.write_text(common.positions(words))
            run = common.best([program, "compile", drawing])
            check = common.best([program, "check", drawing, csv])
            wrote = subprocess.run([program, "compile", drawing], capture_output=True, check=True).stdout
            note = f"{len(wrote) / 1e6:.3g} MB of text, {run.peak:.0f} MiB at most, check {check.peak:.0f} MiB"
            yield Figure(f"compile of {feeders} feeders", run.seconds, "s", most, note)
            yield Figure("  of it the judge, as in check", check.seconds, "s")


common.main(__doc__, figures)
