#!/usr/bin/env python3
"""The least stack with which each command still runs, with a small and with a large input.

    bench/hostile/stack.py [WORD..]        only the commands that are named

Build the program first: ./interlock --prove. A run under a stack of so many KiB (`ulimit -s`) works where it ends with
the status and writes the text that it ends with and writes under 8 MiB, three times over, since the system puts the start
of the stack at a place that differs by some KiB from run to run. The least stack is found by doubling and bisection, to
4 KiB. It must not grow with the input by more than the 16 KiB by which two searches may differ, and the script ends with
1 where it does. Beside it stands the least stack of the program with no words, which is what the system itself asks for.
"""
import hashlib
import pathlib
import resource
import subprocess
import sys

sys.path.insert(0, str(pathlib.Path(__file__).resolve().parents[1]))
import common

STEP, FULL, SPREAD = 4, 8_192, 16
SMALL, LARGE = 2, 60
SWITCH = "S/V1/Q1/QA1"


def nested(depth, times):
    """A drawing with private elements in one another, beside one another."""
    inner = ("<a>" * depth + "</a>" * depth) * times
    return common.double_busbar(SMALL)[0].replace("</SCL>", inner + "</SCL>")


def blocks(words):
    """Hand-written equations of every operation."""
    return "".join(f"{way} {path}\nwhen off {SWITCH}\nend\n" for path in words for way in ("open", "close"))


def inputs(feeders):
    """The files of a double busbar of so many feeders, and its lines of `node`, three for each feeder."""
    text, words = common.double_busbar(feeders)
    log = "".join(f"at,{path},{word}\n" for path, word in words.items())
    log += "".join(f"command,S/V1/Q{n % feeders + 1}/QA1,open\n" for n in range(100 * feeders))
    order = "".join(f"{'close' if n % 2 else 'open'} {SWITCH}\n" for n in range(100 * feeders))
    files = {"station": text, "none": "", "all": common.positions(words)}
    files.update({"log": log, "order": order, "equations": blocks(words)})
    return files, f"command open {SWITCH}\ntick\nwithdraw\n" * feeders


COMMANDS = {
    "check": ["check", "station", "none"],
    "explain": ["explain", "station", "none", "close", "S/V1/Q1/QC9"],
    "state": ["state", "station", "none"],
    "order": ["order", "station", "all", "order"],
    "replay": ["replay", "station", "log"],
    "trips": ["trips", "station", "log"],
    "plan": ["plan", "station"],
    "compile": ["compile", "station"],
    "audit": ["audit", "station", "equations"],
    "node": ["node", "station", "S/V1/Q1"],
    "stored": ["stored", "station", "S/V1/Q1", "record"],
}


def cases():
    """Each command with its words, files and lines for the small input and for the large one."""
    small, large = inputs(SMALL), inputs(LARGE)
    for name, words in COMMANDS.items():
        yield name, (words, *small), (words, *large)
    for name in ("station", "positions", "log"):
        yield f"make {name}", (["make", str(SMALL), name], {}, ""), (["make", str(LARGE), name], {}, "")
    yield "work", (["work", str(SMALL)], {}, ""), (["work", str(LARGE)], {}, "")
    shallow, deep = ({**small[0], "station": nested(*size)} for size in ((1, 1), (62, 1_600)))
    yield "check of elements in one another", (COMMANDS["check"], shallow, ""), (COMMANDS["check"], deep, "")


def ended(program, words, lines, folder, kib):
    """How a run ends under so much stack: its status, and the sum of what it writes."""
    pathlib.Path(folder, "record").unlink(missing_ok=True)
    limit = lambda: resource.setrlimit(resource.RLIMIT_STACK, (kib << 10, kib << 10))
    done = subprocess.run([program, *words], cwd=folder, env={}, input=lines.encode(), capture_output=True, preexec_fn=limit)
    return done.returncode, hashlib.sha256(done.stdout).digest()


def least(program, words, files, lines):
    """The least stack with which it works, in KiB, and the status of the run."""
    with common.folder() as folder:
        for name, text in files.items():
            pathlib.Path(folder, name).write_text(text)
        wanted = ended(program, words, lines, folder, FULL)
        works = lambda kib: all(ended(program, words, lines, folder, kib) == wanted for _ in range(3))
        high = STEP
        while high < FULL and not works(high):
            high *= 2
        low = high // 2
        while high - low > STEP:
            middle = (low + high) // (2 * STEP) * STEP
            low, high = (low, middle) if works(middle) else (middle, high)
    return high, wanted[0]


def main(only):
    if "-h" in only or "--help" in only:
        sys.exit(__doc__.strip())
    program, grown = common.TOP / "crates/interlock/out/interlock", False
    if not program.exists():
        sys.exit("build the program first: ./interlock --prove")
    print(f"{'no words':34} {least(program, [], {}, '')[0]:6} KiB", flush=True)
    for name, small, large in cases():
        if only and not any(word in name.split() for word in only):
            continue
        (first, status), (second, other) = least(program, *small), least(program, *large)
        grows = second > first + SPREAD
        statuses = f"status {status}, {other}"
        print(f"{name:34} {first:6} KiB, large {second:6} KiB   {statuses}{'   grows' if grows else ''}", flush=True)
        grown |= grows
    sys.exit(1 if grown else 0)


main(sys.argv[1:])
