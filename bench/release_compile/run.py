#!/usr/bin/env python3
"""Times the graphs of all bays of double busbars of 3, 40 and 60 feeders, and the verdicts of all operations where no
position is known.

Build the program first: (cd crates/bench_parts && rt run -- graphs 4 3 5 4). A time is the shortest of nine runs,
without the reading of the drawing.
"""
import pathlib
import sys

sys.path.insert(0, str(pathlib.Path(__file__).resolve().parents[1]))
import common
from common import Figure

# the most that the graphs should take, in milliseconds, by feeders
MOST = {3: None, 40: 30, 60: 40}


def figures():
    program = common.program("bench_parts")
    for feeders, most in MOST.items():
        with common.folder() as folder:
            pathlib.Path(folder, "drawing.ssd").write_text(common.double_busbar(feeders)[0])
            runs = [common.printed([program, "verdicts", "time"], cwd=folder).split() for _ in range(9)]
        denied = runs[0][3]
        built = min(int(words[1]) for words in runs) / 1000
        judged = min(int(words[5]) for words in runs) / 1000
        yield Figure(f"graphs of {feeders} feeders", built, "ms", most)
        yield Figure(f"verdicts of {feeders} feeders", judged, "ms", None, f"{denied} denied")


common.main(__doc__, figures)
