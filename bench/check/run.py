#!/usr/bin/env python3
"""Times `check` and `explain` on double busbars of 3, 40 and 60 feeders, and `check` on each scheme of schemes.py.

    bench/check/run.py [PROGRAM]

Build the program first: ./interlock --prove. With 40 feeders there are 243 switches, 486 operations, and 159 unknown
positions. A time is the shortest of seven runs of the whole program, from its start to its end, or that of one run which
takes over a second; beside it stands the most memory at once. A run has at most two minutes of a processor and 8 GiB;
where it gives no answer its status stands beside the figure. A growth is the exponent of the number of bays with which
the time grows: the slope of the straight line that fits the logarithms best, by least squares.
"""
import math
import pathlib
import resource
import sys

sys.path.insert(0, str(pathlib.Path(__file__).resolve().parents[1]))
import common
import schemes
from common import Figure

# the most that `check` may take, in seconds, by feeders; and for two of the positions less
MOST = {3: None, 40: 0.05, 60: 0.1}
LESS = {(40, "most unknown"): 0.02, (60, "none known"): 0.04}
# The most that `check` may take on a scheme, in seconds, by the name of its maker and size. Two sections with feeders
# in turn and the ring are known to be slow, and the others were not timed on a calm machine: none has a target yet.
TARGETS = {}
SECONDS, MEMORY = 120, 8 << 30


def feeders_figures(program, folder):
    """Double busbars, as `make` writes them."""
    drawing, csv = pathlib.Path(folder, "station.ssd"), pathlib.Path(folder, "positions.csv")
    for feeders, most in MOST.items():
        text, words = common.double_busbar(feeders)
        drawing.write_text(text)
        for what, known in (("all known", words), ("most unknown", common.unknown(words)), ("none known", {})):
            csv.write_text(common.positions(known))
            run = common.best([program, "check", drawing, csv])
            limit = LESS.get((feeders, what), most)
            yield Figure(f"check of {feeders} feeders, {what}", run.seconds, "s", limit, f"{run.peak:.0f} MiB")
        explain = [program, "explain", drawing, csv, "open", "S/V1/Q1/QB1"]
        yield Figure(f"explain of one operation, {feeders} feeders, none known", common.best(explain).seconds, "s")


def timed(words):
    """The shortest of seven runs; the first where it takes over a second, or the one that gives no answer."""
    runs = [common.run(words)]
    while len(runs) < 7 and runs[-1].status == 0 and runs[0].seconds < 1:
        runs.append(common.run(words))
    return min(runs) if runs[-1].status == 0 else runs[-1]._replace(seconds=math.inf)


def growth(times):
    """The slope of the line that fits the logarithms of these pairs of bays and seconds best."""
    points = [(math.log(bays), math.log(seconds)) for bays, seconds in times]
    x_mean, y_mean = (sum(values) / len(points) for values in zip(*points))
    return sum((x - x_mean) * (y - y_mean) for x, y in points) / sum((x - x_mean) ** 2 for x, _ in points)


def scheme_figures(program, folder, scheme):
    """A scheme in each of its sizes, with none, some and all positions known, and its growth."""
    times = {share: [] for share in schemes.SHARES}
    for size in scheme.sizes:
        station = scheme.make(size)
        drawing, files = schemes.written(folder, "scheme", station)
        for share, csv in files.items():
            run = timed([program, "check", drawing, csv])
            ended = run.seconds < math.inf
            note = f"{station.bays()} bays, {len(station.words)} switches, "
            note += f"{run.peak:.0f} MiB" if ended else f"no answer, status {run.status}"
            most = TARGETS.get((scheme.make.__name__, size))
            yield Figure(f"{scheme.what}: {size} {scheme.unit}, {share} known", run.seconds, "s", most, note)
            times[share] += [(station.bays(), run.seconds)] if ended else []
    for share, pairs in times.items():
        if len(pairs) > 1:
            yield Figure(f"{scheme.what}: growth with bays, {share} known", growth(pairs), "as exponent")


def figures():
    program = common.program()
    resource.setrlimit(resource.RLIMIT_AS, (MEMORY, MEMORY))
    resource.setrlimit(resource.RLIMIT_CPU, (SECONDS, SECONDS))
    with common.folder() as folder:
        yield from feeders_figures(program, folder)
        for scheme in schemes.SCHEMES:
            yield from scheme_figures(program, folder, scheme)


common.main(__doc__, figures)
