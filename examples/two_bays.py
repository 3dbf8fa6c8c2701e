#!/usr/bin/env python3
"""Two bays as two processes, with a bad line between them.

    examples/two_bays.py [SEED] [STEPS]

Each feeder of two_feeders.ssd runs as a process of its own, `interlock node two_feeders.ssd BAY`. This script is all that
is outside of them: it gives commands, moves drives, reads positions back, and carries the `send` lines of the one to the
other, of which it loses some, repeats some, holds some back, and cuts some short. Now and then it restarts a node from
the record that it kept last, withdraws an order, or stops a drive half way.

All that happened is kept as a log. At the end `interlock replay two_feeders.ssd LOG` runs the same log in one process,
and what the two nodes wrote is compared with its report line by line. The true positions are followed as well: an
operation that would break a rule on them would be seen here, and none is, whatever the line does.

It shows the log's last lines, what the nodes answered, and a count of each outcome. The status is 0 where all agrees.
"""
import collections
import fcntl
import os
import pathlib
import random
import struct
import subprocess
import sys
import tempfile
import termios
import time

TOP = pathlib.Path(__file__).resolve().parents[1]
STATION = TOP / "examples/two_feeders.ssd"
BAYS = {1: "S/V1/Q1", 2: "S/V1/Q2"}
SWITCHES = ["QB1", "QA1", "QB9", "QC9", "E1"]
START = {1: "00100", 2: "11101"}
KINDS = {1: "reserve", 2: "answer", 3: "busy", 4: "query", 5: "over"}


def program():
    built = TOP / "crates/interlock/out/interlock"
    if len(sys.argv) > 3:
        return sys.argv[3]
    if not built.exists():
        sys.exit("the program is not built: ./interlock --prove")
    return str(built)


class Node:
    """one bay's process, and what it keeps over a restart"""

    def __init__(self, bay):
        self.bay, self.kept = bay, None
        self.start()

    def start(self):
        self.process = subprocess.Popen([program(), "node", str(STATION), BAYS[self.bay]], stdin=subprocess.PIPE, stdout=subprocess.PIPE, bufsize=0)
        os.set_blocking(self.process.stdout.fileno(), False)

    def asks(self):
        """whether the node has taken all that was written to it and waits for more"""
        unread = struct.unpack("i", fcntl.ioctl(self.process.stdin.fileno(), termios.FIONREAD, b"\0" * 4))[0]
        with open(f"/proc/{self.process.pid}/stat") as it:
            return unread == 0 and it.read().rsplit(")", 1)[1].split()[0] == "S"

    def tell(self, line):
        """gives the node a line, and returns what it writes before it asks for the next"""
        self.process.stdin.write(line.encode() + b"\n")
        calm = 0
        while calm < 3:
            if self.process.poll() is not None:
                sys.exit(f"the node of bay {self.bay} ended with {self.process.returncode} at: {line}")
            calm = calm + 1 if self.asks() else 0
            time.sleep(0.0005)
        lines = (self.process.stdout.read() or b"").decode().splitlines()
        for it in lines:
            if it.startswith("keep "):
                self.kept = it[5:]
        return lines

    def restart(self):
        """switches the node off, and on again with the record that it kept"""
        self.process.stdin.close()
        self.process.wait()
        self.start()
        if self.kept is not None:
            self.tell("kept " + self.kept)


class Yard:
    """the switchyard, the line between the bays, and the log"""

    def __init__(self, seed):
        self.random = random.Random(seed)
        self.nodes = {bay: Node(bay) for bay in BAYS}
        self.truth = {(bay, name): START[bay][i] == "1" for bay in BAYS for i, name in enumerate(SWITCHES)}
        self.granted, self.drives, self.sent, self.log, self.wrote = {}, set(), [], [], []
        for (bay, name), closed in self.truth.items():
            self.log.append(f"at,{BAYS[bay]}/{name},{'on' if closed else 'off'}")

    def path(self, bay, name):
        return f"{BAYS[bay]}/{name}"

    def at(self, bay, record, line):
        """one step of a node: the record goes to the log, the line to the node"""
        self.log.append(record)
        lines = self.nodes[bay].tell(line) if line is not None else (self.nodes[bay].restart() or [])
        for it in lines:
            word, _, rest = it.partition(" ")
            if word == "keep":
                continue
            if word == "send":
                frame = bytes.fromhex(rest)
                self.sent.append((frame[2], rest))
                it = f"send {len(self.sent)} {KINDS[frame[0]]} {frame[2]} {int.from_bytes(frame[3:7], 'big')}"
            if word == "granted":
                _, _, direction, path = it.split(" ", 3)
                self.granted[bay] = (path.rsplit("/", 1)[1], direction == "close")
            if word in ("finished", "withdrawn", "stopped"):
                self.granted.pop(bay, None)
            self.wrote.append(f"{len(self.log)} {bay} {it}")

    def sense(self, bay, name, word):
        self.at(bay, f"sense,{self.path(bay, name)},{word}", f"sense {word} {self.path(bay, name)}")

    def sense_truly(self, bay, name):
        where = self.truth[bay, name]
        self.sense(bay, name, "intermediate" if where is None else "on" if where else "off")

    def step(self):
        r, bay = self.random, self.random.choice(list(BAYS))
        name, chance = r.choice(SWITCHES), r.random()
        drive = self.granted.get(bay)
        if self.sent and chance < 0.55:
            # the newest messages are the likeliest; an old one may come again at any time
            number = len(self.sent) - min(int(r.expovariate(0.4)), len(self.sent) - 1)
            to, frame = self.sent[number - 1]
            if r.random() < 0.06:
                count = r.randrange(0, 12)
                self.at(to, f"part,{number},{count}", "frame " + frame[: 2 * min(count, len(frame) // 2 - 1)])
            else:
                self.at(to, f"deliver,{number}", "frame " + frame)
        elif drive and drive[0] in self.drives_of(bay) and chance < 0.75:
            self.move(bay, drive)
        elif drive and drive[0] not in self.drives_of(bay) and self.truth[bay, drive[0]] != drive[1] and chance < 0.75:
            self.log.append(f"begin,{self.path(bay, drive[0])}")
            self.drives.add((bay, drive[0]))
            self.truth[bay, drive[0]] = None
        elif chance < 0.85:
            self.sense_truly(bay, name)
        elif chance < 0.93:
            word = "close" if r.random() < 0.5 else "open"
            self.at(bay, f"command,{self.path(bay, name)},{word}", f"command {word} {self.path(bay, name)}")
        elif chance < 0.97:
            self.at(bay, f"tick,{BAYS[bay]}", "tick")
        elif chance < 0.985 and not self.drives_of(bay):
            self.at(bay, f"withdraw,{BAYS[bay]}", "withdraw")
        else:
            self.at(bay, f"restart,{BAYS[bay]}", None)

    def drives_of(self, bay):
        return {name for at, name in self.drives if at == bay}

    def move(self, bay, drive):
        """a running drive reaches its end, or stops half way"""
        name, closed = drive
        self.drives.discard((bay, name))
        if self.random.random() < 0.1:
            self.at(bay, f"cut,{self.path(bay, name)}", f"cut {self.path(bay, name)}")
        else:
            self.log.append(f"end,{self.path(bay, name)}")
            self.truth[bay, name] = closed
            self.sense_truly(bay, name)


def replayed(log):
    with tempfile.TemporaryDirectory() as folder:
        file = pathlib.Path(folder) / "log.csv"
        file.write_text("\n".join(log) + "\n")
        ran = subprocess.run([program(), "replay", str(STATION), str(file)], capture_output=True, text=True)
    if ran.returncode:
        sys.exit(f"replay ended with {ran.returncode}: {ran.stderr.strip()}")
    return ran.stdout.splitlines()


def main():
    seed = int(sys.argv[1]) if len(sys.argv) > 1 else 1
    steps = int(sys.argv[2]) if len(sys.argv) > 2 else 2000
    yard = Yard(seed)
    for bay in BAYS:
        for name in SWITCHES:
            yard.sense_truly(bay, name)
    for _ in range(steps):
        yard.step()
    report = replayed(yard.log)
    report = [it for it in report if not it.startswith(("bay ", "done "))]
    for one, other in zip(yard.wrote, report):
        if one != other:
            sys.exit(f"the nodes wrote `{one}`, the replay `{other}`")
    if len(yard.wrote) != len(report):
        sys.exit(f"the nodes wrote {len(yard.wrote)} lines, the replay {len(report)}")
    print(*yard.wrote[-12:], sep="\n")
    kinds = collections.Counter(it.split(" ")[2] for it in yard.wrote)
    print(f"{len(yard.log)} lines of log, {len(yard.sent)} messages; the two nodes and the replay agree on {len(report)} lines:")
    print(", ".join(f"{count} {kind}" for kind, count in kinds.most_common()))


if __name__ == "__main__":
    main()
