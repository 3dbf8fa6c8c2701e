#!/usr/bin/env python3
"""Times `compose` of two contractions of 4, 10, 16 and 30 kept nodes, and counts what a call allocates.

Build the program first: (cd crates/bench_parts && rt run -- graphs 4 3 5 4). It composes the same two values again
and again and drops each result. The values keep the same nodes, which stand in a row. Joined, each joins the nodes in
pairs, one pair beside the other, so that together they join them all, and every row of marks has a mark: as much work as
there can be. Alone, neither joins any: as little work as there can be.

A time is the shortest of nine runs on one core, by the call, with its drop. Allocations are the calls of `malloc` and
`realloc`, counted by a library that is loaded before the C library and that `cc` builds here: the difference of two
runs, by the call.
"""
import pathlib
import subprocess
import sys

sys.path.insert(0, str(pathlib.Path(__file__).resolve().parents[1]))
import common
from common import Figure, bay, equipment

CALLS = 200_000
COUNTER = """
#define _GNU_SOURCE
#include <dlfcn.h>
#include <stdio.h>
#include <stdlib.h>
static unsigned long calls;
void *malloc(size_t size) {
    static void *(*real)(size_t);
    if (!real) real = (void *(*)(size_t))dlsym(RTLD_NEXT, "malloc");
    calls++;
    return real(size);
}
void *realloc(void *old, size_t size) {
    static void *(*real)(void *, size_t);
    if (!real) real = (void *(*)(void *, size_t))dlsym(RTLD_NEXT, "realloc");
    calls++;
    return real(old, size);
}
__attribute__((destructor)) static void report(void) { fprintf(stderr, "%lu\\n", calls); }
"""


def row(nodes):
    """The drawing of an even number of nodes in a row, a motor at each, and a disconnector between each two neighbours. Every
    second one stands in the bay P0, and the others in P1, with an infeed at the first node and an earthing switch at the
    last: so the closed switches of each bay touch all nodes."""
    def at(*numbers):
        return [f"P0/n{n}" for n in numbers]

    gaps = [equipment(f"QB{i}", "DIS", at(i, i + 1)) for i in range(nodes - 1)]
    ends = [equipment("E", "IFL", at(0)), equipment("QC", "DIS", [*at(nodes - 1), "P1/grounded"])]
    motors = [equipment(f"M{i}", "MOT", at(i)) for i in range(nodes)]
    return common.drawing([bay("P0", [f"n{i}" for i in range(nodes)], gaps[0::2] + motors), bay("P1", [], gaps[1::2] + ends)])


def times(program, folder):
    """nanoseconds by the call, of the joined values and of those alone"""
    best = {}
    for _ in range(9):
        for line in common.printed(["taskset", "-c", "0", program, "compositions", CALLS, "time"], cwd=folder).splitlines():
            if line.endswith("ns in all"):
                name, spent = line.split(":")
                spent = int(spent.split()[0]) / CALLS
                best[name] = min(best.get(name, spent), spent)
    return best


def allocations(program, folder, counter):
    """allocations by the call: each run makes the calls for the joined values and for those alone"""
    first, second = (
        int(subprocess.run([program, "compositions", str(calls)], cwd=folder, env={"LD_PRELOAD": counter},
                           capture_output=True, text=True, check=True).stderr.split()[-1])
        for calls in (1000, 2000)
    )
    return (second - first) / 2000


def figures():
    program = common.program("bench_parts")
    with common.folder() as folder:
        source, counter = pathlib.Path(folder, "counter.c"), str(pathlib.Path(folder, "counter.so"))
        source.write_text(COUNTER)
        subprocess.run(["cc", "-O2", "-shared", "-fPIC", "-o", counter, source, "-ldl"], check=True)
        for nodes in (4, 10, 16, 30):
            pathlib.Path(folder, "drawing.ssd").write_text(row(nodes))
            best, asked = times(program, folder), allocations(program, folder, counter)
            note = f"{best['alone']:.0f} ns where no two nodes are joined, {asked:.1f} allocations"
            yield Figure(f"compose, {nodes} kept nodes", best["joined"], "ns", note=note)


common.main(__doc__, figures)
