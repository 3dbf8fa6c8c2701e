#!/usr/bin/env python3
"""Runs the commands on damaged drawings, positions, logs, orders, equations, lines, record files and words.

    bench/hostile/damaged.py [COUNT [SEED [WORKERS]]]      2,000 runs, seed 1 and 2 workers where they are not given

Build the program first: ./interlock --prove. Each run takes the files of an example, damages one of them, the input or
a word in one to six places (a byte is flipped, a piece is cut out, doubled, moved, or comes out of another file, a
number or a mark that means something is put in, the end is cut off), and runs a command on it.

- The run must end by itself within a minute and in 2 GiB, with a status of the command, with the line of that status
  on standard error and nothing more, and with nothing on standard output where a file is refused.
- Status 2 must come exactly where the words are those of no command.
- A run of `stored` must end and write as `node` does that goes on from the record of its file. The file that it leaves
  must stand for the record that this `node` kept last. Status 4 must come exactly where the file has not 64 bytes.

What was seen is counted, with the time of the processor. A run that does not end so is kept in a folder that is named;
its part, of at most 500 runs, ends there, and the status is 1. The same seed makes the same runs, whatever the count of
workers.
"""
import collections
import multiprocessing
import os
import pathlib
import re
import resource
import sys
import tempfile
import time

sys.path.insert(0, str(pathlib.Path(__file__).resolve().parents[1]))
from cases import FORMS, LAST_SEQUENCE, case, stock
from common import TOP
from running import lay, runner
from stored_stops import EMPTY, SIZE, SLOT, record_of

PROGRAM = TOP / "crates/interlock/out/interlock"
SECONDS, PART = 60, 500

# The line of each status on standard error.
STATION = rb"([1-9]|1[0134]) at \d+|12 at \d+ count \d+|15 limit \d+ count \d+|16 part \d+ step \d+|1[78] bay \d+"
LINE = {
    0: rb"", 1: rb"", 2: rb"interlock: usage\n", 4: rb"interlock: write fault\n",
    5: rb"interlock: station refused (" + STATION + rb")\n",
    6: rb"interlock: input refused ([1-9]|1[0-4]) line \d+\n",
    7: rb"interlock: premise [1-7] line \d+\n",
}


def is_text(word):
    try:
        word.decode()
    except UnicodeDecodeError:
        return False
    return True


def is_usage(one):
    """Whether the words are those of no command, by their written form."""
    if any(not word or word.startswith(b"-") or not is_text(word) for word in one.words):
        return True
    if one.command in ("make", "work") and not re.fullmatch(rb"[2-9]|[1-5][0-9]|60", one.words[0]):
        return True
    return one.command == "make" and one.words[1] not in (b"station", b"positions", b"log")


def fault(one, done):
    """What is wrong with the end of a run, if anything."""
    status, out = done.status, done.out
    if status is None:
        return f"no end within {SECONDS} seconds"
    if status not in FORMS[one.command].statuses or (status == 2) != is_usage(one):
        return f"status {status}"
    if not re.fullmatch(LINE[status], done.err):
        return f"status {status}, and on standard error {done.err!r}"
    if out and (status in (2, 4, 5) or (status == 6 and one.command not in ("node", "stored"))):
        return f"status {status}, and on standard output {out[:200]!r}"
    if out and not out.endswith(b"\n"):
        return f"status {status}, and the last line is cut: {out[-200:]!r}"
    return None


# ---- a stored session beside a node

def newest_sequence(image):
    """The greatest sequence of an open slot, 0 where none is open."""
    slots = (image[:SLOT], image[SLOT:SIZE])
    return max((int.from_bytes(slot[1:9], "big") for slot in slots if slot[0] == 1), default=0)


def wanted_of_stored(runs, one):
    """How a stored session must end, as its status, its line and its text, and the record for which its file must stand
    then; no record where the file must stay as it is. `node` runs on the same lines, from the record of the file."""
    image = one.files.get("kept", bytes(SIZE))
    record = record_of(image[:SIZE]) if len(image) >= SIZE else EMPTY
    node = runs.run(["node", "station", one.words[1]], b"kept " + record.hex().encode() + b"\n" + one.given)
    refused = re.fullmatch(rb"interlock: input refused 10 line (\d+)\n", node.err)
    if node.status != 0 and not refused:
        return node.status, node.err, b"", None
    if len(image) != SIZE:
        return 4, b"interlock: write fault\n", b"", None
    if newest_sequence(image) > LAST_SEQUENCE or (refused and int(refused[1]) == 1):
        return 6, b"interlock: input refused 12 line 0\n", b"", None
    lines = node.out.splitlines(keepends=True)
    kept = [bytes.fromhex(line[5:].decode()) for line in lines if line.startswith(b"keep ")]
    err = b"interlock: input refused 10 line %d\n" % (int(refused[1]) - 1) if refused else b""
    out = b"".join(line for line in lines if not line.startswith(b"keep "))
    return node.status, err, out, kept[-1] if kept else record


def fault_of_stored(runs, one, done):
    """What is wrong with a stored session or with the file that it left, if anything."""
    given = one.files.get("kept")
    left = pathlib.Path("kept").read_bytes() if os.path.exists("kept") else None
    status, err, out, record = wanted_of_stored(runs, one)
    if (done.status, done.err, done.out) != (status, err, out):
        return f"status {done.status}, {done.err!r} and {done.out!r}, not {status}, {err!r} and {out!r} as by `node`"
    if record is None:
        return None if left == given else f"the file was {given!r}, and is {left!r}"
    if left is None or left[SIZE:] != (given or b"")[SIZE:] or record_of(left[:SIZE]) != record:
        return f"the file is {left!r}, and must stand for {record.hex()}"
    return None


# ---- the runs

def keep(one, number, wrong):
    """Keeps the files of a run that did not end as it must: what to say of it."""
    kept = tempfile.mkdtemp(prefix="damaged-")
    for name, text in {**one.files, "input": one.given}.items():
        pathlib.Path(kept, name).write_bytes(text)
    return f"run {number}: {one.command} {one.words} in {kept}: {wrong}"


def work(part):
    """Runs the cases of a part: how many ended with each status, how long each command took of a processor, the longest
    run, and the first fault."""
    seed, numbers = part
    resource.setrlimit(resource.RLIMIT_AS, (2 << 30, 2 << 30))
    examples, seen, spent, longest = stock(), collections.Counter(), collections.Counter(), (0.0, "")
    with runner(PROGRAM, SECONDS) as runs:
        for number in numbers:
            one = case(seed, number, examples)
            lay(one.files)
            done = runs.run([one.command.split()[0], *one.words], one.given)
            wrong = fault(one, done) or (one.command == "stored" and fault_of_stored(runs, one, done))
            if wrong:
                return seen, spent, longest, keep(one, number, wrong)
            seen[one.command, done.status] += 1
            spent[one.command] += done.seconds
            longest = max(longest, (done.seconds, one.command))
    return seen, spent, longest, None


def told(seen, spent):
    """A line for each command: how often it ended with each status, and how long it took."""
    for command, form in FORMS.items():
        ends = {status: seen[command, status] for status in sorted(form.statuses) if seen[command, status]}
        if ends:
            each = 1000 * spent[command] / sum(ends.values())
            counts = ", ".join(f"{count} with status {status}" for status, count in ends.items())
            yield f"{command:11} {counts}; {each:.1f} ms each"


def main(words):
    if "-h" in words or "--help" in words:
        sys.exit(__doc__.strip())
    if not PROGRAM.exists():
        sys.exit("build the program first: ./interlock --prove")
    count, seed, workers = (int(word) for word in (words + ["2000", "1", "2"][len(words):]))
    step, start = max(1, min(PART, count // workers)), time.monotonic()
    parts = [(seed, range(first, min(first + step, count))) for first in range(0, count, step)]
    seen, spent, longest, faults = collections.Counter(), collections.Counter(), (0.0, ""), 0
    with multiprocessing.Pool(workers) as pool:
        for counts, seconds, most, wrong in pool.imap_unordered(work, parts):
            seen, spent, longest = seen + counts, spent + seconds, max(longest, most)
            if wrong:
                print(wrong, flush=True)
                faults += 1
    print(*told(seen, spent), sep="\n")
    end = f"{faults} did not end as they must" if faults else "no crash, no hang"
    print(f"{sum(seen.values())} runs, seed {seed}: {end}, the longest {longest[0]:.2f} s ({longest[1]});", end=" ")
    print(f"{time.monotonic() - start:.0f} s in all")
    sys.exit(1 if faults else 0)


if __name__ == "__main__":
    main(sys.argv[1:])
