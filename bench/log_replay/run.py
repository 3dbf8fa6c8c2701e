#!/usr/bin/env python3
"""Times `replay` of a log of 20,000 records on a double busbar of 64 bays: a coupler and 63 feeders.

Build the program first: ./interlock --prove. In the log each switch stands and is read first. Then feeder after feeder
opens or closes its breaker: the command, a message to each other bay and its answer, the drive, and a message to each
other bay that it is over. Every fourth feeder is commanded to open its line disconnector instead, under load, which is
denied. A second log has 20,000 records of which every other restarts a bay or is a tick, so that each round is lost.

A time is that of the processor, the least of five runs of the whole program. The graphs of the station are made in each
run; what they take is timed by a log that says where the switches stand and no more, and taken off in the figures of a
log alone.
"""
import itertools
import pathlib
import sys

sys.path.insert(0, str(pathlib.Path(__file__).resolve().parents[1]))
import common
from common import Figure

FEEDERS = 63
RECORDS = 20_000


def start(words):
    """Where the switches stand, and the words that are read of them."""
    return [f"at,{path},{word}" for path, word in words.items()] + [f"sense,{path},{word}" for path, word in words.items()]


def operations(words):
    """The records of one operation after the other, numbering the messages as the bays do."""
    others, number = FEEDERS, 0
    for turn in itertools.count():
        bay = f"S/V1/Q{turn % FEEDERS + 1}"
        denied = turn % 4 == 3 and words[f"{bay}/QA1"] == "on"
        switch = f"{bay}/QB9" if denied else f"{bay}/QA1"
        wanted = "off" if words[switch] == "on" else "on"
        yield f"command,{switch},{'close' if wanted == 'on' else 'open'}"
        for _ in range(2 * others):
            number += 1
            yield f"deliver,{number}"
        if not denied:
            words[switch] = wanted
            yield from (f"begin,{switch}", f"end,{switch}", f"sense,{switch},{wanted}")
        for _ in range(others):
            number += 1
            yield f"deliver,{number}"


def losses(words):
    """Commands whose rounds are lost."""
    for turn in itertools.count():
        bay = f"S/V1/Q{turn % FEEDERS + 1}"
        yield f"command,{bay}/QA1,open"
        yield f"restart,{bay}"


def figures():
    program = common.program()
    drawing, words = common.double_busbar(FEEDERS)
    logs = {
        "where the switches stand": start(words)[:len(words)],
        "operations": list(itertools.islice(itertools.chain(start(words), operations(dict(words))), RECORDS)),
        "rounds that are lost": list(itertools.islice(itertools.chain(start(words), losses(words)), RECORDS)),
    }
    with common.folder() as folder:
        station, log = pathlib.Path(folder, "station.ssd"), pathlib.Path(folder, "log.csv")
        station.write_text(drawing)
        spent = 0
        for what, records in logs.items():
            log.write_text("".join(record + "\n" for record in records))
            run = min((common.run([program, "replay", station, log]) for _ in range(5)), key=lambda run: run.processor)
            assert run.status == 0
            lines = common.printed([program, "replay", station, log]).splitlines()
            granted = sum(line.split()[2] == "granted" for line in lines if line[0].isdigit())
            denied = sum(line.split()[2] == "denied" for line in lines if line[0].isdigit())
            note = f"{len(records)} records, {granted} granted, {denied} denied, {run.peak:.0f} MiB"
            yield Figure(f"replay of 64 bays: {what}", run.processor, "s", None, note)
            if spent:
                yield Figure(f"replay of 64 bays: {what}, the log alone", run.processor - spent, "s", 1)
            spent = spent or run.processor


common.main(__doc__, figures)
