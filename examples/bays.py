#!/usr/bin/env python3
"""Runs tools/bays over two_feeders.ssd as a user would, and looks at what it answers.

    examples/bays.py [PROGRAM]

The first feeder is commanded onto the busbar, and its drive begins. Then all processes are killed at once. A second run
over the same folder goes on from the records: the other feeder still holds still, the drive reaches its end, the other is
told, and has an operation of its own. Beside that: a second run over a folder that is in use, a drawing in which two
switches stand in another order, a record that is lost, a line for no bay and a bay that is killed by hand, each refused or
ended with the status that tools/bays says. What is expected was worked by hand from docs/PROTOCOL.md. The status is 0
where all is so.
"""
import os
import pathlib
import re
import signal
import subprocess
import sys
import tempfile

TOP = pathlib.Path(__file__).resolve().parents[1]
STATION = TOP / "examples/two_feeders.ssd"
ONE, TWO = "S/V1/Q1", "S/V1/Q2"
SWITCHES = ["QB1", "QA1", "QB9", "QC9", "E1"]
# Where the switches of the feeders stand: the first is off the busbar, the second in service.
STANDS = {ONE: "off off on off off".split(), TWO: "on on on off on".split()}
LONGEST = 300


class Run:
    """A run of tools/bays."""

    def __init__(self, station, folder):
        words = [TOP / "tools/bays", station, folder, *sys.argv[1:2]]
        pipes = {name: subprocess.PIPE for name in ("stdin", "stdout", "stderr")}
        self.process = subprocess.Popen(words, **pipes, text=True, bufsize=1, start_new_session=True)

    def give(self, line, *expected):
        """Gives a line, and compares what is answered with the lines that are expected."""
        self.process.stdin.write(line + "\n")
        for wanted in expected:
            same(f"at `{line}`", self.process.stdout.readline().rstrip("\n"), wanted)

    def sense(self, bay):
        for name, word in zip(SWITCHES, STANDS[bay]):
            self.give(f"{bay} sense {word} {bay}/{name}")

    def ends(self, status, text=""):
        """Ends the input, and compares the status, that nothing more is answered, and the line on standard error."""
        out, err = self.process.communicate()
        same("the answers that are left", out, "")
        same("the status", self.process.returncode, status)
        if text not in err or len(err.splitlines()) != bool(text):
            sys.exit(f"on standard error stood `{err}`, and not one line with `{text}`")

    def kill(self):
        """Kills it and all bays."""
        os.killpg(self.process.pid, signal.SIGKILL)
        self.process.wait()


def same(what, found, wanted):
    if found != wanted:
        sys.exit(f"{what}: `{found}`, and not `{wanted}`")


def exchanged():
    """The drawing with QC9 and E1 of each feeder in the other order."""
    earthing, infeed = (rf'( *<ConductingEquipment name="{name}".*?</ConductingEquipment>\n)' for name in ("QC9", "E1"))
    return re.sub(earthing + infeed, r"\2\1", STATION.read_text(), flags=re.S)


def kept(folder):
    return {file.name: file.read_bytes() for file in folder.glob("*.record")}


def operation(folder):
    """One operation, stopped in the middle and gone on with."""
    run = Run(STATION, folder)
    run.sense(ONE)
    run.sense(TWO)
    run.give(f"{ONE} command close {ONE}/QB1", f"{ONE} collecting 1", f"{ONE} granted 1 close {ONE}/QB1")
    run.give(f"{TWO} command open {TWO}/QA1", f"{TWO} held 1 round 1")
    Run(STATION, folder).ends(71, "another run")
    run.give(f"{ONE} sense intermediate {ONE}/QB1")
    run.give(f"{ONE} command open {ONE}/QA1", f"{ONE} underway 1")
    run.kill()

    run = Run(STATION, folder)
    run.give(f"{ONE} command open {ONE}/QA1", f"{ONE} underway 1")
    run.give(f"{TWO} tick")
    run.give(f"{TWO} command open {TWO}/QA1", f"{TWO} held 1 round 1")
    run.give(f"{ONE} sense on {ONE}/QB1", f"{ONE} finished 1")
    run.sense(TWO)
    run.give(f"{TWO} command open {TWO}/QA1", f"{TWO} collecting 1", f"{TWO} granted 1 open {TWO}/QA1")
    run.give(f"{TWO} sense off {TWO}/QA1", f"{TWO} finished 1")
    run.ends(0)


def refusals(place, folder):
    """What tools/bays does not go on with; the records stay as they were."""
    before = kept(folder)
    other = place / "exchanged.ssd"
    other.write_text(exchanged())
    Run(other, folder).ends(5, "are of another drawing")
    Run(other, place / "empty").ends(0)
    same("the records", kept(folder), before)

    record = folder / "2.record"
    record.rename(place / "kept")
    Run(STATION, folder).ends(5, "lacks 2.record")
    same("the record that is lost", record.exists(), False)
    (place / "kept").rename(record)
    (folder / "drawing.sum").rename(place / "sum")
    Run(STATION, folder).ends(5, "is not known")
    (place / "sum").rename(folder / "drawing.sum")
    same("the records", kept(folder), before)


def ends(folder):
    """How a run ends before the end of its input."""
    for line in ("S/V1/Q3 tick", f"{ONE} frame 00", ""):
        run = Run(STATION, folder)
        run.give(line)
        run.ends(6, "not a bay's path")
    run = Run(STATION, folder)
    run.give(f"{ONE} shut {ONE}/QA1")
    run.ends(6, f"{ONE} ended with status 6: interlock: input refused 10 line 1")
    run = Run(STATION, folder)
    run.give(f"{TWO} command open {TWO}/QA1", f"{TWO} collecting 2", f"{TWO} granted 2 open {TWO}/QA1")
    run.give(f"{TWO} withdraw", f"{TWO} withdrawn 2")
    children = pathlib.Path(f"/proc/{run.process.pid}/task/{run.process.pid}/children").read_text().split()
    os.kill(int(children[0]), signal.SIGKILL)
    run.process.wait()
    run.ends(137, f"{ONE} was killed by signal 9")


def main():
    signal.alarm(LONGEST)
    with tempfile.TemporaryDirectory() as place:
        place = pathlib.Path(place)
        folder = place / "records"
        operation(folder)
        refusals(place, folder)
        ends(folder)
    print("one operation, killed in the middle and gone on with; nine runs refused or ended as they should be")


if __name__ == "__main__":
    main()
