#!/usr/bin/env python3
"""Refuses each allocation of each command in turn.

    bench/hostile/refused_allocations.py [COMMAND..]      all commands where none is named

Build the program first: ./interlock --prove. It needs cc: a library of a few lines of C stands between the program and
malloc. For N = 1, 2, 3 .. up to the last allocation of a run:

- where memory is refused from the Nth allocation on, the run must end with status 8, with the line `interlock: out of
  memory` on standard error, and with a front of the whole text on standard output
- where the Nth alone is refused it must end so too, or, where the standard library asks again for less, with the status
  and the text of a run with ample memory

The whole text is what a run with ample memory writes; that of `check` is worked by hand below. The station is a busbar
with two feeders of a disconnector and an infeed each, both on. `stored` begins with a file that stands for a record
(`stored-anew`: with none), and the file that a run leaves must stand for the record after some number of the lines, as
`node` tells it, no fewer than those of whose text a byte was written. Four runs
are made at a time.
"""
import collections
import multiprocessing
import os
import pathlib
import subprocess
import sys
import tempfile
from typing import NamedTuple, Optional

sys.path.insert(0, str(pathlib.Path(__file__).resolve().parents[1]))
from common import TOP, bay, drawing, equipment
from running import Ended, lay, runner

sys.path.insert(0, str(TOP / "examples"))
from stored_stops import RECORD, SIZE, SLOT, looked_at, record_of

LINE = b"interlock: out of memory\n"
PROGRAM = TOP / "crates/interlock/out/interlock"
SECONDS, PART = 60, 50
SWITCHES = {f"S/V1/{name}/{switch}": "on" for name in ("Q1", "Q2") for switch in ("QB1", "E1")}
FEEDERS = [bay(q, ["n"], [equipment("QB1", "DIS", ["W/B", f"{q}/n"]), equipment("E1", "IFL", [f"{q}/n"])]) for q in ("Q1", "Q2")]
LOG = [f"{kind},{path},{word}" for kind in ("at", "sense") for path, word in SWITCHES.items()]
LOG += ["command,S/V1/Q1/QB1,open", "deliver,1", "deliver,2", "deliver,3", "command,S/V1/Q1/E1,open", "deliver,4", "restart,S/V1/Q2", "deliver,5"]
LOG += ["begin,S/V1/Q1/E1", "end,S/V1/Q1/E1", "sense,S/V1/Q1/E1,off", "command,S/V1/Q1/QB1,open", "tick,S/V1/Q1"]
THIRD = bay("Q3", ["n"], [equipment("QB1", "DIS", ["W/B", "Q3/n"]), equipment("E1", "IFL", ["Q3/n"])])
FILES = {
    "station": drawing([bay("W", ["B"], []), *FEEDERS]),
    "extended": drawing([bay("W", ["B"], []), *FEEDERS, THIRD]),
    "positions": "".join(f"{path},{word}\n" for path, word in SWITCHES.items()),
    "log": "".join(record + "\n" for record in LOG),
    "order": "open S/V1/Q1/E1\nopen S/V1/Q1/QB1\nclose S/V1/Q1/QB1\n",
    "equations": "open S/V1/Q1/QB1\nwhen off S/V1/Q1/E1\nor\nwhen off S/V1/Q2/QB1\nend\nclose S/V1/Q2/E1\nnever\nend\n",
}
# The file of `stored`: two slots that are open, with the empty record in each.
FILE = b"".join((b"\1" + sequence.to_bytes(8, "big")).ljust(SLOT, b"\0") for sequence in (1, 2))
LINES = b"sense on S/V1/Q1/QB1\nsense on S/V1/Q1/E1\ncommand open S/V1/Q1/QB1\nframe 020201000000010001e0\ntick\ncommand open S/V1/Q1/E1\n"
LINES += b"tick\nsense off S/V1/Q1/E1\nframe 010201000000010000\ntick\nrestart\nframe 01\n"

# By hand: a disconnector would break or make load (R3), and the infeeds are free.
CHECKED = "".join(f"{releases} S/V1/{name}/{switch}\n" for name in ("Q1", "Q2") for releases, switch in (("0 0 R3 R3", "QB1"), ("1 1 - -", "E1")))

# The words of each command, its input, and its text where that is worked by hand.
COMMANDS = {
    "check": (["check", "station", "positions"], b"", CHECKED.encode()),
    "explain": (["explain", "station", "positions", "open", "S/V1/Q1/QB1"], b"", None),
    "explain-all": (["explain", "station", "positions"], b"", None),
    "why": (["why", "station", "positions", "open", "S/V1/Q1/QB1"], b"", None),
    "station": (["station", "station"], b"", None),
    "program": (["program", "station"], b"", None),
    "compare": (["compare", "station", "extended"], b"", None),
    "tests": (["tests", "station"], b"", None),
    "state": (["state", "station", "positions"], b"", None),
    "order": (["order", "station", "positions", "order"], b"", None),
    "replay": (["replay", "station", "log"], b"", None),
    "node": (["node", "station", "S/V1/Q1"], LINES, None),
    "audit": (["audit", "station", "equations"], b"", None),
    "make": (["make", "2", "station"], b"", None),
    "make-positions": (["make", "2", "positions"], b"", None),
    "make-log": (["make", "2", "log"], b"", None),
    "plan": (["plan", "station"], b"", None),
    "compile": (["compile", "station"], b"", None),
    "trips": (["trips", "station", "log"], b"", None),
    "work": (["work", "2"], b"", None),
    "stored": (["stored", "station", "S/V1/Q1", "kept"], LINES, None),
    "stored-anew": (["stored", "station", "S/V1/Q1", "kept"], LINES, None),
}

# Refuses what malloc and realloc are asked for from the FIRST_REFUSED-th request to the LAST_REFUSED-th, and
# writes how many requests there were into the file `requests`.
REFUSER = r"""
#include <errno.h>
#include <stdio.h>
#include <stdlib.h>
extern void *__libc_malloc(size_t);
extern void *__libc_realloc(void *, size_t);
static long requests, first, last;
__attribute__((constructor)) static void start(void) {
    first = atol(getenv("FIRST_REFUSED"));
    last = atol(getenv("LAST_REFUSED"));
    requests = 0;
}
static int refuses(void) {
    requests++;
    if (requests < first || requests > last) return 0;
    errno = ENOMEM;
    return 1;
}
void *malloc(size_t size) { return refuses() ? 0 : __libc_malloc(size); }
void *realloc(void *old, size_t size) { return refuses() ? 0 : __libc_realloc(old, size); }
__attribute__((destructor)) static void end(void) {
    long counted = requests;
    last = 0;
    FILE *file = fopen("requests", "w");
    if (file) { fprintf(file, "%ld", counted); fclose(file); }
}
"""


class Sweep(NamedTuple):
    """A command: its name and the library; the run with ample memory, and how many allocations it made; and the record
    after each number of lines and the text of each line, where it is a stored session."""
    name: str
    library: str
    whole: Optional[Ended] = None
    count: int = 0
    told: tuple = ()
    texts: tuple = ()

    def run(self, runs, first, last):
        """A run with these allocations refused: how it ended, how many it asked for, and the file that it left."""
        words, given, _ = COMMANDS[self.name]
        files = {name: text.encode() for name, text in FILES.items() if name in words}
        lay({**files, "kept": FILE} if self.name == "stored" else files)
        ended = runs.run(words, given, {"LD_PRELOAD": self.library, "FIRST_REFUSED": str(first), "LAST_REFUSED": str(last)})
        return ended, int(read("requests") or 0), read("kept")


class Wrong(Exception):
    """A run that did not end as it must."""


def read(name):
    """The bytes of a file, if there is one."""
    return pathlib.Path(name).read_bytes() if os.path.exists(name) else None


def refuser(folder):
    """The library that refuses, built in the folder."""
    source, library = pathlib.Path(folder, "refuser.c"), pathlib.Path(folder, "refuser.so")
    source.write_text(REFUSER)
    subprocess.run(["cc", "-O1", "-shared", "-fPIC", "-o", library, source], check=True)
    return str(library)


def records(runs):
    """The record after each number of lines, and the text of each line, as `node` tells them."""
    told, texts, before = [bytes(RECORD)], [], 0
    lines = LINES.splitlines(keepends=True)
    lay({"station": FILES["station"].encode()})
    for count in range(1, len(lines) + 1):
        text = runs.run(COMMANDS["node"][0], b"".join(lines[:count])).out.decode().splitlines()
        new, before = text[before:], len(text)
        kept = [bytes.fromhex(line[5:]) for line in new if line.startswith("keep ")]
        told.append(kept[-1] if kept else told[-1])
        texts.append([line for line in new if not line.startswith("keep ")])
    return tuple(told), tuple(texts)


def begin(name, library):
    """The sweep of a command, after a run with ample memory."""
    with runner(PROGRAM, SECONDS) as runs:
        told, texts = records(runs) if name.startswith("stored") else ((), ())
        whole, count, left = Sweep(name, library).run(runs, 0, 0)
    by_hand = COMMANDS[name][2]
    if whole.status not in (0, 1) or (by_hand is not None and whole.out != by_hand):
        raise Wrong(f"{name}: the run with ample memory ended with status {whole.status}\n{whole.out}\n{whole.err}")
    if told and record_of(left) != told[-1]:
        raise Wrong(f"{name}: with ample memory it left {left.hex()}, and not the record {told[-1].hex()}")
    return Sweep(name, library, whole, count, told, texts)


def how(sweep, n, ended, left):
    """How a run with a refused allocation ended: for want of memory, or well, as with ample memory. The file of a stored
    session must stand for a record that its text allows."""
    where = f"{sweep.name}, allocation {n}"
    if sweep.told:
        try:
            looked_at(bytes(SIZE) if left is None else left, ended.out.decode().splitlines(), sweep.told, sweep.texts, where)
        except SystemExit as end:
            raise Wrong(str(end)) from None
    if ended[:3] == sweep.whole[:3]:
        return "well"
    if ended.status != 8 or ended.err != LINE or not sweep.whole.out.startswith(ended.out):
        raise Wrong(f"{where}: status {ended.status}\n{ended.out}\n{ended.err}")
    return "wanting"


def refused(runs, sweep, n):
    """Refuses each allocation from the nth on, and then the nth alone: how that run ended."""
    ended, _, left = sweep.run(runs, n, sys.maxsize)
    if how(sweep, n, ended, left) == "well":
        raise Wrong(f"{sweep.name}, allocation {n}: the run went on though all from it on were refused")
    ended, asked, left = sweep.run(runs, n, n)
    end = how(sweep, n, ended, left)
    if end == "well" and asked <= sweep.count:
        raise Wrong(f"{sweep.name}, allocation {n}: the run went on and did not ask again")
    return end


def part(sweep, numbers):
    """Refuses each of these allocations in turn: how often a run ended so where one alone was refused."""
    with runner(PROGRAM, SECONDS) as runs:
        return collections.Counter(refused(runs, sweep, n) for n in numbers)


def swept(pool, name, library):
    """Refuses all allocations of a command, and says what was seen."""
    sweep = pool.apply(begin, (name, library))
    parts = [(sweep, range(first, min(first + PART, sweep.count + 1))) for first in range(1, sweep.count + 1, PART)]
    ends = sum(pool.starmap(part, parts, chunksize=1), collections.Counter())
    print(f"{name:14} {sweep.count:6} allocations: refused from each on, status 8, its line and a front of the text; each", end="")
    print(f" alone, the same for {ends['wanting']}, and for {ends['well']} the library asks again", flush=True)


def main(names):
    if "-h" in names or "--help" in names:
        sys.exit(__doc__.strip())
    if not PROGRAM.exists():
        sys.exit("build the program first: ./interlock --prove")
    with tempfile.TemporaryDirectory() as place, multiprocessing.Pool(4) as pool:
        library = refuser(place)
        try:
            for name in names or COMMANDS:
                swept(pool, name, library)
        except Wrong as wrong:
            sys.exit(str(wrong))


if __name__ == "__main__":
    main(sys.argv[1:])
