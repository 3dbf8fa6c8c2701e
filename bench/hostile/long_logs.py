#!/usr/bin/env python3
"""A long soak of `replay`: logs with loss, repeats, reorderings, restarts, cut frames, and drives that stop.

    bench/hostile/long_logs.py [RECORDS [SEED [FEEDERS]]]      20,000 records, seed 1 and 3 feeders where not given

Build the program first: ./interlock --prove. The log is of a double busbar with a coupler and so many feeders. It grows
40 records at a time: the program replays what there is, and the script reads in the report which messages were sent and
which operations granted, and goes on from there. Messages are delivered late, in another order, more than once or never,
or only their first bytes; bays restart, give up, and take their commands back; drives run to their ends or stop between;
words are read late, or as intermediate, bad or lost. No record breaks a premise, so that:

- each replay must end with status 0, and its report must begin with the report of the shorter log
- at each record each operation that is granted and has not ended must break no rule in any vector that is as the
  switches stand, a switch between its ends being taken both ways. This is asked of examples/by_definition.py, which
  shares no code with the program
- with the last record replaced by one that breaks a premise, the replay must end with status 7 at that record, with
  the same report up to it; and with one record more than 20,000 with status 6

What was shown is counted.
"""
import collections
import itertools
import pathlib
import random
import subprocess
import sys
import tempfile
import time

sys.path.insert(0, str(pathlib.Path(__file__).resolve().parents[1]))
import common
from common import TOP

sys.path.insert(0, str(TOP / "examples"))
import by_definition

PROGRAM = TOP / "crates/interlock/out/interlock"
CHUNK = 40
MOST = 20_000
UNSURE = ("intermediate", "bad", "lost")


class Yard:
    """The switches and their drives, what the report has shown, and the log."""

    def __init__(self, rng, feeders, folder):
        self.rng, self.folder = rng, pathlib.Path(folder)
        text, self.words = common.double_busbar(feeders)
        self.drawing = self.folder / "station.ssd"
        self.drawing.write_text(text.replace("<SCL>", '<SCL xmlns="http://www.iec.ch/61850/2003/SCL">'))
        self.station = by_definition.Station(self.drawing)
        self.switches = list(self.words)
        self.log = [f"at,{path},{word}" for path, word in self.words.items()]
        self.truth = dict(self.words)
        self.running, self.open, self.sent, self.fresh = {}, {}, 0, []
        self.report, self.seconds = b"", 0.0
        self.replay()
        lines = self.report.decode().splitlines()
        self.bays = {int(line.split()[1]): line.split(" ", 2)[2] for line in lines if line.startswith("bay ")}
        self.number = {path: bay for bay, path in self.bays.items()}

    def bay_of(self, switch):
        return self.number[switch.rsplit("/", 1)[0]]

    def run(self, log):
        (self.folder / "log.csv").write_text("".join(record + "\n" for record in log))
        start = time.monotonic()
        done = subprocess.run([PROGRAM, "replay", self.drawing, self.folder / "log.csv"], capture_output=True, timeout=120)
        self.seconds = time.monotonic() - start
        return done

    def replay(self):
        """Replays the log, and takes what its new records show."""
        done = self.run(self.log)
        if done.returncode != 0 or done.stderr:
            sys.exit(f"status {done.returncode} after {len(self.log)} records: {done.stderr}")
        report, last = done.stdout.rsplit(b"done ", 1)
        if int(last) != len(self.log) or not report.startswith(self.report):
            sys.exit(f"the report of {len(self.log)} records does not begin with that of the records before")
        shown = report[len(self.report):].decode().splitlines()
        self.report = report
        for line in shown:
            if not line.startswith("bay "):
                self.take(line.split())

    def take(self, line):
        record, bay, what = int(line[0]), int(line[1]), line[2]
        if what == "granted":
            self.open[bay] = (line[5], "on" if line[4] == "close" else "off")
        elif what in ("finished", "stopped") or (what == "withdrawn" and bay in self.open):
            self.open.pop(bay, None)
        elif what == "send":
            self.sent = int(line[3])
            self.fresh.append(self.sent)

    # ---- records that keep the premises, whatever the bays do until the next replay

    def grow(self, most):
        """Further records, up to so many in all."""
        ended = set()
        while len(self.log) < most:
            record = self.move(ended) if self.rng.random() < 0.35 else self.other(ended)
            if record:
                self.log.append(record)
                if len(self.log) % CHUNK == 0:
                    return

    def move(self, ended):
        """A drive begins, ends or stops; or the end is read."""
        if self.running and self.rng.random() < 0.6:
            switch = self.rng.choice(sorted(self.running))
            wanted = self.running.pop(switch)
            if self.rng.random() < 0.15:
                ended.add(self.bay_of(switch))
                return f"cut,{switch}"
            self.truth[switch] = wanted
            return f"end,{switch}"
        ready = [(bay, *order) for bay, order in sorted(self.open.items()) if bay not in ended and order[0] not in self.running]
        if not ready:
            return None
        bay, switch, wanted = self.rng.choice(ready)
        if self.truth[switch] == wanted:
            ended.add(bay)
            return f"sense,{switch},{wanted}"
        if switch in self.truth:
            self.running[switch] = wanted
            self.truth[switch] = "between"
            return f"begin,{switch}"

    def other(self, ended):
        """A message, a word, a command, a tick, a restart or a withdrawal."""
        rng, kind = self.rng, self.rng.random()
        if kind < 0.55 and self.sent:
            if self.fresh and rng.random() < 0.9:
                at = 0 if rng.random() < 0.7 else rng.randrange(len(self.fresh))
                message = self.fresh.pop(at)
                if rng.random() < 0.05:
                    return None
            else:
                message = rng.randint(max(1, self.sent - 40), self.sent)
            return f"part,{message},{rng.randint(0, 64)}" if rng.random() < 0.05 else f"deliver,{message}"
        switch = rng.choice(self.switches)
        bay = self.bay_of(switch)
        if kind < 0.80:
            known = self.truth[switch] if self.truth[switch] != "between" and rng.random() < 0.93 else rng.choice(UNSURE)
            if bay in self.open and self.open[bay] == (switch, known):
                ended.add(bay)
            return f"sense,{switch},{known}"
        if kind < 0.92:
            stands = rng.choice(("off", "on")) if self.truth[switch] == "between" or rng.random() < 0.1 else self.truth[switch]
            return f"command,{switch},{'close' if stands == 'off' else 'open'}"
        if kind < 0.975:
            return f"tick,{self.bays[bay]}"
        if kind < 0.99 or any(self.bay_of(other) == bay for other in self.running):
            return f"restart,{self.bays[bay]}"
        ended.add(bay)
        return f"withdraw,{self.bays[bay]}"

    # ---- what the whole log shows

    def shown(self):
        """What the report shows at each record."""
        lines = collections.defaultdict(list)
        for line in self.report.decode().splitlines():
            if not line.startswith("bay "):
                lines[int(line.split()[0])].append(line.split())
        return lines

    def obeys(self):
        """Holds each granted operation against the rules at each record: how often that was asked."""
        lines, asked, granted = self.shown(), {}, {}
        truth, wanted = dict(self.words), {}
        place = {switch.path: i for i, switch in enumerate(self.station.switches)}
        for number, record in enumerate(self.log, 1):
            kind, *rest = record.split(",")
            if kind == "begin":
                truth[rest[0]] = "between"
            elif kind == "end":
                truth[rest[0]] = wanted[rest[0]]
            for line in lines[number]:
                if line[2] == "granted":
                    granted[line[1]] = (line[5], line[4] == "close")
                    wanted[line[5]] = "on" if line[4] == "close" else "off"
            stands = tuple((False,) if truth[s.path] == "off" else (True,) if truth[s.path] == "on" else (False, True) for s in self.station.switches)
            for switch, closes in granted.values():
                if (switch, closes, stands) not in asked:
                    asked[switch, closes, stands] = {by_definition.breaks(self.station, place[switch], closes, v) for v in itertools.product(*stands)}
                if asked[switch, closes, stands] != {"-"}:
                    sys.exit(f"record {number}: {switch} was granted, and breaks a rule on the true positions")
            for line in lines[number]:
                if line[2] in ("finished", "stopped", "withdrawn"):
                    granted.pop(line[1], None)
        return len(asked)

    def broken(self):
        """Records that break a premise at the end of the log, with the premise."""
        still = [s for s in self.switches if s not in self.running]
        false = next(s for s in still if self.truth[s] != "between")
        yield 2, f"sense,{false},{'off' if self.truth[false] == 'on' else 'on'}"
        yield 3, f"begin,{next(s for s in self.switches if s not in [order[0] for order in self.open.values()])}"
        yield 4, f"end,{still[0]}"
        yield 6, f"deliver,{self.sent + 1}"
        yield 6, f"part,{self.sent + 1},9"
        yield 7, f"cut,{still[-1]}"
        for switch in self.running:
            yield 5, f"withdraw,{self.bays[self.bay_of(switch)]}"


def main(words):
    if "-h" in words or "--help" in words:
        sys.exit(__doc__.strip())
    if not PROGRAM.exists():
        sys.exit("build the program first: ./interlock --prove")
    records, seed, feeders = (int(word) for word in (words + ["20000", "1", "3"][len(words):]))
    with tempfile.TemporaryDirectory() as folder:
        yard = Yard(random.Random(seed), feeders, folder)
        while len(yard.log) < records:
            yard.grow(records)
            yard.replay()
        asked = yard.obeys()
        front = yard.report
        if len(yard.log) == MOST:
            done = yard.run([*yard.log, "tick," + yard.bays[min(yard.bays)]])
            if (done.returncode, done.stdout, done.stderr) != (6, b"", b"interlock: input refused 9 line 20001\n"):
                sys.exit(f"one record more: status {done.returncode}, {done.stderr}")
        yard.log.pop()
        before = b"".join(line for line in front.splitlines(True) if line.startswith(b"bay ") or int(line.split()[0]) < records)
        ends = collections.Counter()
        for premise, record in list(yard.broken()):
            # the record that was taken off may have been the one that moved the drive or ended the operation
            done = yard.run([*yard.log, record])
            if done.returncode == 7 and (done.stdout, done.stderr) != (before, f"interlock: premise {premise} line {records}\n".encode()):
                sys.exit(f"{record}: {done.stderr}, or another report")
            if done.returncode not in (0, 7):
                sys.exit(f"{record}: status {done.returncode}, {done.stderr}")
            ends[premise] += done.returncode == 7
        yard.run(yard.log)
        outcomes = collections.Counter(line[2] for lines in yard.shown().values() for line in lines)
        kinds = collections.Counter(record.split(",")[0] for record in yard.log)
    print(f"{records} records, seed {seed}, {feeders} feeders: the last replay took {yard.seconds:.2f} s")
    print("records: " + ", ".join(f"{count} {kind}" for kind, count in sorted(kinds.items())))
    print("shown: " + ", ".join(f"{count} {what}" for what, count in sorted(outcomes.items()) if what != "with"))
    print("premises broken at the last record: " + ", ".join(f"{premise}" for premise in sorted(ends) if ends[premise]))
    print(f"granted operations held against the rules on the true positions: {asked} different cases, none broken")


if __name__ == "__main__":
    main(sys.argv[1:])
