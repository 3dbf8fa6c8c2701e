#!/usr/bin/env python3
"""Times graphs of 40 layers and 8,000,000 edges on one core: built, reached and reduced.

Build the program first: (cd crates/bench_parts && rt run -- graphs 4 3 5 4). The first graph has 20 choices
and 10,000 nodes in each layer, and no two nodes are joined; the second has 2 choices, 100,000 nodes and 2 labels, so
that its last layers shrink. A graph takes 4 bytes for each edge, 2 for each node and 24 for each layer.
"""
import pathlib
import re
import sys

sys.path.insert(0, str(pathlib.Path(__file__).resolve().parents[1]))
import common
from common import Figure

# layers, choices, nodes in a layer, labels; and what each step may take, where there is a target
GRAPHS = [((40, 20, 10_000, 10_000), (2, 0.1, 4)), ((40, 2, 100_000, 2), (None, None, None))]


def figures():
    program = common.program("bench_parts")
    for sizes, targets in GRAPHS:
        text = common.printed(["taskset", "-c", "0", program, "graphs", *sizes, "time"])
        edges = int(re.search(r"^nodes \d+, edges (\d+)", text, re.M).group(1))
        spent = [int(n) for n in re.findall(r"\d+", re.search(r"^us to .*$", text, re.M).group(0))]
        for step, microseconds, most in zip(("built", "reached", "reduced"), spent, targets):
            name = f"{sizes[0]} layers, {sizes[1]} choices, {edges:,} edges {step}"
            yield Figure(name, microseconds / 1e6, "s", most)


common.main(__doc__, figures)
