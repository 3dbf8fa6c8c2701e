"""What the scripts of bench/ share: the programs that they time, drawings, a clock, and the form of a figure.

Each run.py has a docstring (what it measures, and how the program is built), a function `figures` that yields
`Figure`s, and the line `common.main(__doc__, figures)`. The figures are printed one a line, each with the most
that it may be, where there is a target; the status is 1 where one is over it. The first argument, if any, is
the path of the program in place of the one in the repository.
"""
import os
import pathlib
import subprocess
import sys
import tempfile
from typing import NamedTuple, Optional

sys.dont_write_bytecode = True
TOP = pathlib.Path(__file__).resolve().parents[1]
LIMIT = 8_388_608


class Figure(NamedTuple):
    what: str
    value: float
    unit: str
    most: Optional[float] = None
    note: str = ""

    def __str__(self):
        size = abs(self.value)
        shown = f"{self.value:,.0f}" if size >= 100 else f"{self.value:.3g}"
        target = f"  (at most {self.most:g})" if self.most is not None else ""
        return f"{self.what:52} {shown:>10} {self.unit}{target}{'  ' + self.note if self.note else ''}"


class Run(NamedTuple):
    seconds: float
    peak: float
    status: int
    processor: float = 0.0


def main(doc, figures):
    """Prints the figures; ends with 1 where one is over its target."""
    if "-h" in sys.argv or "--help" in sys.argv:
        sys.exit(doc.strip())
    over = False
    for figure in figures():
        print(figure, flush=True)
        over |= figure.most is not None and figure.value > figure.most
    sys.exit(1 if over else 0)


def program(crate="interlock"):
    """The program of a crate as it was proved and built."""
    path = pathlib.Path(sys.argv[1]) if len(sys.argv) > 1 else TOP / f"crates/{crate}/out/{crate}"
    if not path.exists():
        how = "./interlock --prove" if crate == "interlock" else "(cd crates/bench_parts && rt run -- graphs 4 3 5 4)"
        sys.exit(f"{path} is not there; build it first: {how}")
    return path.resolve()


def folder():
    """A folder of its own, which goes at the end."""
    return tempfile.TemporaryDirectory(prefix="bench-")


# A small process of its own starts what is measured, since Linux counts the memory of the one that starts a process as
# that process's own until it begins: what is below some 10 MiB is not seen.
STARTER = """
import os, sys, time
null = os.open(os.devnull, os.O_WRONLY)
actions = [(os.POSIX_SPAWN_DUP2, null, 1), (os.POSIX_SPAWN_DUP2, null, 2)]
start = time.monotonic()
child = os.posix_spawn(sys.argv[1], sys.argv[1:], os.environ, file_actions=actions)
_, status, usage = os.wait4(child, 0)
print(time.monotonic() - start, usage.ru_maxrss / 1024, os.waitstatus_to_exitcode(status), usage.ru_utime + usage.ru_stime)
"""


def run(words):
    """Runs the words with nothing on the streams: seconds, the most memory at once in MiB, the status, and the seconds of
    a processor."""
    seconds, peak, status, processor = printed([sys.executable, "-S", "-c", STARTER, *words]).split()
    return Run(float(seconds), float(peak), int(status), float(processor))


def best(words, times=7, status=0):
    """The shortest of several runs, each of which must end with the status."""
    runs = [run(words) for _ in range(times)]
    wrong = [r.status for r in runs if r.status != status]
    if wrong:
        sys.exit(f"status {wrong[0]}, not {status}: {' '.join(map(str, words))}")
    return min(runs)


def printed(words, **more):
    """What the words print; they must end with 0."""
    words = [str(word) for word in words]
    return subprocess.run(words, capture_output=True, text=True, check=True, **more).stdout


# ---- drawings

def node(name):
    return f'<ConnectivityNode name="{name}"/>'


def equipment(name, kind, terminals, level="S/V1"):
    """Equipment whose terminals are named BAY/NODE."""
    ends = "".join(f'<Terminal connectivityNode="{level}/{t}" cNodeName="{t.split("/")[1]}"/>' for t in terminals)
    return f'<ConductingEquipment name="{name}" type="{kind}">{ends}</ConductingEquipment>'


def bay(name, nodes, items):
    return f'<Bay name="{name}">{"".join(map(node, nodes))}{"".join(items)}</Bay>'


def drawing(bays):
    """The drawing of a substation S with one voltage level V1."""
    level = f'<VoltageLevel name="V1">{"".join(bays)}</VoltageLevel>'
    return f'<SCL><Substation name="S">{level}</Substation></SCL>'


def positions(words):
    """The positions file of these words by path."""
    return "".join(f"{path},{word}\n" for path, word in words.items())


def feeder(name, odd):
    """A feeder of a double busbar: its switches by name, with the positions when it is in service."""
    q, on, off = name, "on", "off"
    items = [
        equipment("QB1", "DIS", ["W1/B", f"{q}/n1"]),
        equipment("QB2", "DIS", ["W2/B", f"{q}/n1"]),
        equipment("QA1", "CBR", [f"{q}/n1", f"{q}/n2"]),
        equipment("QB9", "DIS", [f"{q}/n2", f"{q}/n3"]),
        equipment("QC9", "DIS", [f"{q}/n3", f"{q}/grounded"]),
        equipment("E1", "IFL", [f"{q}/n3"]),
    ]
    words = {"QB1": on if odd else off, "QB2": off if odd else on, "QA1": on, "QB9": on, "QC9": off, "E1": on}
    return bay(q, ["n1", "n2", "n3"], items), {f"S/V1/{q}/{switch}": word for switch, word in words.items()}


def double_busbar(feeders):
    """The drawing of a double busbar with a coupler and so many feeders, and the words of its switches."""
    coupler = bay("K0", ["k1", "k2"], [
        equipment("QB1", "DIS", ["W1/B", "K0/k1"]),
        equipment("QA1", "CBR", ["K0/k1", "K0/k2"]),
        equipment("QB2", "DIS", ["K0/k2", "W2/B"]),
    ])
    bays, words = [bay("W1", ["B"], []), bay("W2", ["B"], []), coupler], dict.fromkeys((f"S/V1/K0/{q}" for q in ("QB1", "QA1", "QB2")), "on")
    for i in range(1, feeders + 1):
        one, its = feeder(f"Q{i}", i % 2 == 1)
        bays.append(one)
        words.update(its)
    return drawing(bays), words


def unknown(words):
    """The words with each `on` of a feeder lost, and the first feeder's breaker off."""
    lost = {path: "lost" if word == "on" and "/K0/" not in path else word for path, word in words.items()}
    return {**lost, "S/V1/Q1/QA1": "off"}
