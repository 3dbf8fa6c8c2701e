#!/usr/bin/env python3
"""Runs `check` on a thousand drawings, as a utility would on all that it has, and says how many stations that is a minute.

    bench/check/stock.py [PROGRAM]

Build the program first: ./interlock --prove. The drawings are those of schemes.py in many sizes, each with a name of its
own and with none, some or all positions known, the same at each call; every hundredth is cut in half, so that it is
refused. They are written into a folder of its own, which goes at the end. As many run at once as there are processors.
The count of stations by status stands beside the figure, and a status that is not as it must be ends the script with 1.
"""
import collections
import concurrent.futures
import os
import pathlib
import subprocess
import sys
import time

sys.path.insert(0, str(pathlib.Path(__file__).resolve().parents[1]))
import common
import schemes
from common import Figure

NUMBER = 1_000
# By maker, the sizes that a station has in a utility's stock.
SIZES = [
    (schemes.double_busbar, range(3, 31)),
    (schemes.sections_in_blocks, range(4, 31)),
    (schemes.sections_in_turn, range(4, 17)),
    (schemes.transfer_bus, range(3, 25)),
    (schemes.ring, range(3, 9)),
    (schemes.diameters_of_15, range(1, 7)),
    (schemes.diameters_of_21, range(1, 5)),
    (schemes.two_unlike_diameters, range(2, 3)),
]
DONE, REFUSED = 0, 5


def written(folder):
    """Writes the drawings and their positions: for each the words of `check` and the status that it must end with."""
    for number in range(NUMBER):
        make, sizes = SIZES[number % len(SIZES)]
        turn = number // len(SIZES)
        station = make(sizes[turn % len(sizes)])
        text = station.drawing().replace('name="S"', f'name="Station{number}"').replace('"S/', f'"Station{number}/')
        cut = number % 100 == 99
        drawing, csv = (pathlib.Path(folder, f"{number:04}.{kind}") for kind in ("ssd", "csv"))
        drawing.write_text(text[: len(text) // 2] if cut else text)
        words = station.known(schemes.SHARES[turn % len(schemes.SHARES)])
        csv.write_text(common.positions({f"Station{number}{path[1:]}": word for path, word in words.items()}))
        yield ["check", drawing, csv], REFUSED if cut else DONE


def status_of(program, words):
    streams = {"stdin": subprocess.DEVNULL, "stdout": subprocess.DEVNULL, "stderr": subprocess.DEVNULL}
    return subprocess.run([program, *words], **streams).returncode


def figures():
    program = common.program()
    with common.folder() as folder:
        stock = list(written(folder))
        start = time.monotonic()
        with concurrent.futures.ThreadPoolExecutor(os.cpu_count()) as pool:
            statuses = list(pool.map(lambda station: status_of(program, station[0]), stock))
        minutes = (time.monotonic() - start) / 60
    counts = ", ".join(f"{count} with status {status}" for status, count in sorted(collections.Counter(statuses).items()))
    yield Figure(f"stations by {os.cpu_count()} processors", NUMBER / minutes, "a minute", None, counts)
    wrong = sum(status != wanted for status, (_, wanted) in zip(statuses, stock))
    yield Figure("stations with another status than they must have", wrong, "stations", 0)


common.main(__doc__, figures)
