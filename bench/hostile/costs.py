#!/usr/bin/env python3
"""What inputs cost that were made with intent: time and memory, at a quarter, a half and the whole of a size.

    bench/hostile/costs.py [PROGRAM]

Build the program first: ./interlock --prove. Each case is run once, with at most 8 GiB and 20 minutes, and must end with
the status that is written beside it. No run may take more than 10 s of a processor or 1,024 MiB, but for
what grows with the counted edges of the graphs, and not with the drawing: 30 s and 2,048 MiB. Where a figure by the
size of the input stands beside a case, each MB of it may cost no more than that either, beyond 0.2 s and 64 MiB. The
status is 1 where one is over.

- chosen names: keys of nodes that all have one hash under the standard library's hash with its fixed seed, and as many
  keys beside them that do not. Both have the same bound
- long names: 64 bays of 8 switches below one name of up to 8,000 bytes, with nothing known: each line of an answer
  repeats it, so that `check` writes 2 GB and `audit` 1 GB, in pieces, of which they hold one at a time; and so do `tests`
  of them and `compare`, here with an earthing switch on their busbar, and 0.3 GB of a row of 192 disconnectors, of which
  each position names all
- at the limits: six bays whose switches stand on the same nodes in pairs, beside up to 800 nodes that transformers join;
  and grids of up to 3 by 9 nodes, whose graphs have nearly as many counted edges as a station may have, also with many
  devices at each node
- many positions: rings of up to 64 bays and 512 switches, whose walks are narrow, so that each bay is tested in hundreds
  of positions, in each of which hundreds of switches may be moved
- equations: a block of twelve switches for each operation of up to 63 feeders, so that each has 4,096 positions, with
  switches near its own, far from it, the same for all, or any; and of a grid
- floods: a million frames, ticks, commands, readings or changes of the record to one node; 8 MiB of commands that a
  node of a grid decides, with nothing heard or after a grant, also of a switch that may always be closed; 3,000 lines to
  a stored one, whose changes go to the disk; a log of 20,000 records in which 64 bays send one another messages
"""
import pathlib
import random
import re
import resource
import subprocess
import sys
from typing import NamedTuple, Optional

sys.path.insert(0, str(pathlib.Path(__file__).resolve().parents[1]))
import common

sys.path.insert(0, str(common.TOP / "bench/check"))
import schemes

PARTS = (4, 2, 1)
# The most bytes of a file.
LONGEST = 8_388_608
SECONDS, MEMORY = 10.0, 1024.0
EDGE_SECONDS, EDGE_MEMORY = 30.0, 2048.0
SPARE_SECONDS, SPARE_MEMORY = 0.2, 64.0


class Case(NamedTuple):
    """A run: its name, the words, the files by name, the input, the status, and what a MB of all of it may cost."""
    name: str
    words: list
    files: dict
    given: bytes
    status: int
    seconds: Optional[float] = None
    memory: Optional[float] = None
    # whether what it writes grows with the counted edges of the station's graphs, and not with the input
    by_edges: bool = False

    def size(self):
        return (sum(map(len, self.files.values())) + len(self.given)) / 1e6


# ---- chosen names

WORD = (1 << 64) - 1
MULTIPLIER, SEED = 0x9E3779B97F4A7C15, 0x243F6A8885A308D3
LETTERS = sorted(set(range(0x21, 0x7F)) - set(b'<&"\'/'))
DIGITS = b"0123456789abcdefghijklmnopqrstuvwxyz"


def folded(a, b):
    """The halves of a product, one over the other: a step of the hash."""
    product = a * b
    return (product & WORD) ^ (product >> 64)


def front():
    """24 bytes after which the hash of a text of 32 no longer depends on the last 8: the third word is what the hash has
    after the first two, so that the last step multiplies by nothing."""
    rng = random.Random(1)
    while True:
        first = bytes(rng.choice(LETTERS) for _ in range(16))
        low, high = (int.from_bytes(first[i:i + 8], "little") for i in (0, 8))
        third = folded(low ^ ((SEED + 32) & WORD), high ^ MULTIPLIER).to_bytes(8, "little")
        if all(byte in LETTERS for byte in third):
            return first + third


def key(front, number):
    """A key of 32 bytes with this front."""
    return (front + bytes(DIGITS[number // 36 ** place % 36] for place in range(8))).decode()


def named(front, count):
    """A drawing of so many nodes with such keys. It has too many nodes, which is seen after all names are looked at."""
    nodes = "".join(f'<ConnectivityNode name="{n:x}" pathName="{key(front, n)}"/>' for n in range(count))
    return f'<SCL><Substation name="S"><VoltageLevel name="V"><Bay name="Q">{nodes}</Bay></VoltageLevel></Substation></SCL>'


def chosen_names():
    for what, head in (("that collide", front()), ("beside them", b"q" * 24)):
        for part in PARTS:
            text = named(head, 108_000 // part)
            yield Case(f"check: keys of nodes {what}", ["check", "a", "b"], {"a": text.encode(), "b": b""}, b"", 5, 0.1, 16)


# ---- long names

EARTHED = '<Terminal cNodeName="grounded"/>'


def bays_below(name, count=64, more=""):
    """So many bays of 4 infeeds and 4 disconnectors on one busbar, below a voltage level of this name, with more in the
    bay of the busbar. Keys are short."""
    def node(bay, node):
        return f'<ConnectivityNode name="{node}" pathName="{bay}/{node}"/>'

    def switch(bay, number):
        keys, kind = ((f"{bay}/{number}",), "IFL") if number < 4 else (("W/B", f"{bay}/{number - 4}"), "DIS")
        ends = "".join(f'<Terminal connectivityNode="{key}"/>' for key in keys)
        return f'<ConductingEquipment name="D{number}" type="{kind}">{ends}</ConductingEquipment>'
    bays = [f'<Bay name="W">{node("W", "B")}{more}</Bay>']
    for place in range(count):
        items = "".join(node(place, number) for number in range(4)) + "".join(switch(place, number) for number in range(8))
        bays.append(f'<Bay name="{place}">{items}</Bay>')
    return f'<SCL><Substation name="S"><VoltageLevel name="{name}">{"".join(bays)}</VoltageLevel></Substation></SCL>'


def equipment(name, kind, ends):
    """A piece of equipment at these ends."""
    return f'<ConductingEquipment name="{name}" type="{kind}">{"".join(ends)}</ConductingEquipment>'


def end(key):
    return f'<Terminal connectivityNode="{key}"/>'


def earthing(key, name="E"):
    """An earthing switch at this node."""
    return equipment(name, "DIS", [end(key), EARTHED])


def row_below(name, bays, last=""):
    """A row of bays of 8 disconnectors, one behind the other, below a voltage level of this name: at its head an infeed,
    and this at its end."""
    keys = [f"{bay}/{number}" for bay in range(bays) for number in range(8)] + ["W/B"]
    parts = []
    for bay in range(bays):
        nodes = "".join(f'<ConnectivityNode name="{number}" pathName="{bay}/{number}"/>' for number in range(8))
        items = "".join(equipment(f"D{number}", "DIS", [end(keys[8 * bay + number]), end(keys[8 * bay + number + 1])]) for number in range(8))
        parts.append(f'<Bay name="{bay}">{nodes}{items}</Bay>')
    parts.append(f'<Bay name="W"><ConnectivityNode name="B" pathName="W/B"/>{equipment("I", "IFL", [end(keys[0])])}{last}</Bay>')
    return f'<SCL><Substation name="S"><VoltageLevel name="{name}">{"".join(parts)}</VoltageLevel></Substation></SCL>'


def paths_below(name):
    """The paths of the switches of these bays."""
    return [f"S/{name}/{bay}/D{number}" for bay in range(64) for number in range(8)]


def long_names():
    for command in ("check", "state", "plan", "compile", "program", "station"):
        for part in PARTS:
            files = {"a": bays_below("V" * (8_000 // part)).encode(), "b": b""}
            words = [command, "a", "b"] if command in ("check", "state") else [command, "a"]
            yield Case(f"{command}: 64 bays of 8 switches below a long name", words, files, b"", 0, 20, 16)
    for part in PARTS:
        files = {"a": bays_below("V" * (8_000 // part)).encode()}
        files["b"] = "".join(f"{move} {path}\nend\n" for path in paths_below("V" * (8_000 // part)) for move in ("open", "close")).encode()[:LONGEST]
        files["b"] = files["b"][:files["b"].rfind(b"end\n") + 4]
        yield Case("audit: a block without conditions for each operation there", ["audit", "a", "b"], files, b"", 1, 1, 16)
    for part in PARTS:
        name = "V" * (8_000 // part)
        files = {"a": bays_below(name).encode()}
        yield Case("tests: 64 bays of 8 switches below a long name", ["tests", "a"], files, b"", 0)
        files = {"a": bays_below(name, 63).encode(), "b": bays_below(name, 63, earthing("W/B")).encode()}
        yield Case("compare: 63 such bays, and an earthing switch more", ["compare", "a", "b"], files, b"", 0, None, 256)
        files = {"a": row_below(name, 24).encode(), "b": row_below(name, 24, earthing("W/B")).encode()}
        yield Case("compare: a row of 192 disconnectors there, and one more", ["compare", "a", "b"], files, b"", 0, None, 16)
    for part in PARTS:
        files = {"a": schemes.sections_in_turn(60 // part).drawing().encode()}
        yield Case(f"compile: two sections of {60 // part} feeders in turn", ["compile", "a"], files, b"", 0, by_edges=True)


# ---- at the limits

def grid(width, height, devices=1):
    """A grid of nodes, each with a bay of a disconnector to the right and one downwards, and with so many infeeds or
    earthing switches in turn, as on a chessboard."""
    bays = []
    for y in range(height):
        for x in range(width):
            key = f"{x}/{y}"
            items = [equipment("R", "DIS", [end(key), end(f"{x + 1}/{y}")])] if x + 1 < width else []
            items += [equipment("D", "DIS", [end(key), end(f"{x}/{y + 1}")])] if y + 1 < height else []
            for name in ("", *range(1, devices)):
                items.append(equipment(f"I{name}", "IFL", [end(key)]) if (x + y) % 2 else earthing(key, f"E{name}"))
            node = f'<ConnectivityNode name="N" pathName="{key}"/>'
            bays.append(f'<Bay name="{x}-{y}">{node}{"".join(items)}</Bay>')
    return f'<SCL><Substation name="S"><VoltageLevel name="V">{"".join(bays)}</VoltageLevel></Substation></SCL>'


def beside_nodes(count):
    """Three bays of four earthing switches each, three more with theirs on the same nodes, and so many nodes beside them
    that each of two transformers joins, of which one comes before all bays and one behind them."""
    def node(name, path):
        return f'<ConnectivityNode name="{name}" pathName="{path}"/>'

    def earth(number, path):
        ends = f'<Terminal connectivityNode="{path}"/><Terminal connectivityNode="g" cNodeName="grounded"/>'
        return f'<ConductingEquipment name="E{number}" type="DIS">{ends}</ConductingEquipment>'

    bays = ["".join(node(f"n{i}", f"w{i}") for i in range(count))]
    bays += ["".join([*(node(f"a{k}", f"{j}.a{k}") for k in range(4)), *(earth(k, f"{j}.a{k}") for k in range(4))])
             for j in range(3)]
    bays += ["".join(earth(k, f"{j}.a{k}") for k in range(4)) for j in range(3)]
    level = "".join(f'<Bay name="B{i}">{bay}</Bay>' for i, bay in enumerate(bays))
    ends = "".join(f'<Terminal connectivityNode="w{i}" cNodeName="a"/>' for i in range(count))
    winding = f'<TransformerWinding name="1" type="PTW">{ends}</TransformerWinding>'
    one, other = (f'<PowerTransformer name="T{i}" type="PTR">{winding}</PowerTransformer>' for i in (1, 2))
    return f'<SCL><Substation name="S">{one}<VoltageLevel name="V">{level}</VoltageLevel>{other}</Substation></SCL>'


def at_limits():
    for part in PARTS:
        count = 800 // part
        files = {"a": beside_nodes(count).encode(), "b": b""}
        for words in (["check", "a", "b"], ["tests", "a"], ["compare", "a", "a"]):
            yield Case(f"{words[0]}: six bays beside {count} nodes that transformers join", words, files, b"", 0)
    for part in PARTS:
        height = 9 // part
        files = {"a": grid(3, height).encode(), "b": b""}
        commands = [[word, "a", "b"] for word in ("check", "state")]
        commands += [[word, "a"] for word in ("plan", "compile", "program", "tests")]
        for words in [*commands, ["compare", "a", "a"]]:
            yield Case(f"{words[0]}: a grid of 3 by {height} nodes", words, files, b"", 0, by_edges=True)
    for devices in (17, 8, 4, 2):
        # up to 501 switches, most of them beside others at one node: the graphs of a bay stay as they are, but `tests`
        # and `compare` walk those of each switch, until one has more edges than its share of what all walks may have
        files = {"a": grid(3, 9, devices).encode()}
        for words in (["tests", "a"], ["compare", "a", "a"]):
            what = f"{words[0]}: such a grid with {devices} devices at each node"
            yield Case(what, words, files, b"", 5, by_edges=True)


# ---- many positions

def full_ring(lines, second):
    """A ring of lines with 8 switches in each bay. The bays between two lines have a second breaker, or a reactor."""
    station = schemes.Station()
    other = ["QB3 {} k3 on", "QA2 k3 k4 on", "QB4 k4 {} on"] if second else ["QB3 {} k3 on", "QC3 k3 off", "QC4 k3 off"]
    for i in range(1, lines + 1):
        here, there = f"L{i}/r", f"L{i % lines + 1}/r"
        ends = iter((here, there))
        branch = [row.format(next(ends)) if "{}" in row else row for row in other]
        line = ["QB9 r l on", "QC9 l off", "E1 l on", "QB8 r m on", "QC8 m off", "E2 m on", "QC7 r off", "QC6 l off"]
        station.bay(f"L{i}", line)
        breaker = [f"QB1 {here} k1 on", "QA1 k1 k2 on", f"QB2 k2 {there} on", "QC1 k1 off", "QC2 k2 off"]
        station.bay(f"K{i}", [*breaker, *branch])
    return station


def many_positions():
    for part in PARTS:
        lines = 32 // part
        rings = {"a ring": schemes.ring(lines), "a full ring": full_ring(lines, False)}
        rings["a full ring with two breakers"] = full_ring(lines, True)
        for what, station in rings.items():
            files = {"a": station.drawing().encode()}
            # the walks of all switches of a full ring of 32 lines have some 100,000,000 edges, and its tests 20 MB of text
            walked = what != "a ring"
            yield Case(f"tests: {what} of {lines} lines", ["tests", "a"], files, b"", 0, by_edges=walked)
            yield Case(f"compare: {what} of {lines} lines with itself", ["compare", "a", "a"], files, b"", 0)


# ---- equations

def block(operation, path, names, between, position):
    """A block that names twelve switches other than its own, each in one position, in one alternative or in twelve."""
    others = [name for name in dict.fromkeys(names) if name != path][:12]
    return f"{operation} {path}\n" + between.join(f"when {position} {name}\n" for name in others) + "end\n"


def blocks_of(names, switches, between, position):
    """A block for each operation of these switches."""
    return "".join(block(operation, path, switches(place), between, position) for place, path in enumerate(names) for operation in ("open", "close"))


def wide_blocks():
    for part in PARTS:
        text, words = common.double_busbar(63 // part)
        names = list(words)
        count = len(names)
        chance = random.Random(1901)
        named = {
            "near": lambda place: [names[(place + step) % count] for step in range(-6, 8)],
            "far": lambda place: [names[(7 * place + 19 * step) % count] for step in range(14)],
            "the same": lambda place: names[3:17],
            "any": lambda place: chance.sample(names, 14),
        }
        for what, switches in named.items():
            for how, between in (("together", ""), ("one by one", "or\n")):
                for position in ("off", "on"):
                    files = {"a": text.encode(), "b": blocks_of(names, switches, between, position).encode()}
                    yield Case(f"audit: {2 * count} blocks of twelve switches {what}, {position} {how}", ["audit", "a", "b"], files, b"", 1)
    for part in PARTS:
        text = grid(3, 8 // part + 1)
        bays = re.findall(r'<Bay name="([^"]*)">(.*?)</Bay>', text)
        names = [f"S/V/{bay}/{name}" for bay, body in bays for name in re.findall(r'<ConductingEquipment name="([^"]*)"', body)]
        switches = lambda place: [names[(5 * place + 11 * step) % len(names)] for step in range(len(names))]
        for how, between in (("together", ""), ("one by one", "or\n")):
            files = {"a": text.encode(), "b": blocks_of(names, switches, between, "off").encode()}
            yield Case(f"audit: {2 * len(names)} such blocks of a grid, {how}", ["audit", "a", "b"], files, b"", 1, by_edges=True)


# ---- floods

# A command is granted and taken back.
CHANGES = b"command open S/V1/Q1/QA1\ntick\nwithdraw\n"


def with_loose(text, bay):
    """The drawing with one more disconnector in the bay, at two nodes at which nothing else is: closing it breaks no rule."""
    nodes = "".join(f'<ConnectivityNode name="{key}" pathName="{key}"/>' for key in ("loose", "end"))
    return text.replace(f'<Bay name="{bay}">', f'<Bay name="{bay}">{nodes}{equipment("X", "DIS", [end("loose"), end("end")])}')


def decisions(height, direction, switch, heard, most):
    """Commands to a bay in the middle of a grid, each decided by a tick and withdrawn, in so many bytes. Before the tick
    comes a grant of the first bay, if any: it says that all its switches are on, so that not all nodes of a graph are
    reached."""
    bay = height // 2
    command, ends = f"command {direction} S/V/1-{bay}/{switch}\n", "tick\nwithdraw\n"
    lines, length = [], 0
    for number in range(1, most):
        grant = f"frame 0200{3 * bay + 1:02x}{number:08x}000108\n" if heard else ""
        lines.append(command + grant + ends)
        length += len(lines[-1])
        if length > most:
            return "".join(lines[:-1]).encode()


def floods():
    two, many = (common.double_busbar(feeders)[0].encode() for feeders in (2, 63))
    words = common.double_busbar(63)[1]
    lines = {
        "frames that nobody waits for": b"frame 02020100000001000104\n",
        "ticks": b"tick\n",
        "commands, each withdrawn": b"command open S/V1/Q1/QA1\nwithdraw\n",
        "readings, each other than the last": b"sense off S/V1/Q1/QB1\nsense on S/V1/Q1/QB1\n",
        "lines of which two in three change the record": CHANGES,
    }
    for what, line in lines.items():
        for part in PARTS:
            given = line * (1_000_000 // line.count(b"\n") // part)
            yield Case(f"node: a million {what}", ["node", "a", "S/V1/Q1"], {"a": two}, given, 0, 0.5, 8)
    for direction, switch, how in (("open", "R", ""), ("close", "R", ""), ("close", "X", " a loose one")):
        for heard in (False, True):
            for part in PARTS:
                height = 8 // part + 1
                bay, given = f"1-{height // 2}", decisions(height, direction, switch, heard, LONGEST // part)
                text = with_loose(grid(3, height), bay) if how else grid(3, height)
                what = f"8 MiB of commands to {direction}{how}, decided {'after a grant' if heard else 'by a tick'}"
                yield Case(f"node: {what}, on a grid of 3 by {height}", ["node", "a", f"S/V/{bay}"], {"a": text.encode()}, given, 0, by_edges=True)
    for part in PARTS:
        yield Case("stored: 3,000 such lines, each change on the disk", ["stored", "a", "S/V1/Q1", "k"], {"a": two}, CHANGES * (1_000 // part), 0)
    start = "".join(f"at,{path},{word}\n" for path, word in words.items())
    for part in PARTS:
        asked = "".join(f"command,S/V1/Q{n % 63 + 1}/QB1,open\nwithdraw,S/V1/Q{n % 63 + 1}\n" for n in range((20_000 - len(words)) // 2 // part))
        yield Case("replay: 20,000 records of 64 bays that ask", ["replay", "a", "b"], {"a": many, "b": (start + asked).encode()}, b"", 0)


def run(case, folder):
    """Runs a case: seconds of a processor, the most memory at once in MiB, and the status."""
    for name, text in case.files.items():
        (folder / name).write_bytes(text)
    (folder / "input").write_bytes(case.given)
    feed = f"feed = os.open({str(folder / 'input')!r}, os.O_RDONLY)\nactions = [(os.POSIX_SPAWN_DUP2, feed, 0), "
    starter = common.STARTER.replace("actions = [", feed)
    limit = lambda: resource.setrlimit(resource.RLIMIT_AS, (8 << 30, 8 << 30))
    words = [sys.executable, "-S", "-c", starter, str(common.program()), *case.words]
    done = subprocess.run(words, cwd=folder, capture_output=True, text=True, timeout=1200, preexec_fn=limit)
    _, peak, status, seconds = done.stdout.split()
    return float(seconds), float(peak), int(status)


def judged(case, seconds, memory, status):
    """What is wrong with a run, in words."""
    if status != case.status:
        yield f"status {status}, not {case.status}"
    if seconds > (EDGE_SECONDS if case.by_edges else SECONDS) or memory > (EDGE_MEMORY if case.by_edges else MEMORY):
        yield "over the most of any run"
    if case.seconds is not None and seconds > SPARE_SECONDS + case.seconds * case.size():
        yield f"over {case.seconds} s a MB"
    if case.memory is not None and memory > SPARE_MEMORY + case.memory * case.size():
        yield f"over {case.memory} MiB a MB"


CASES = (chosen_names, long_names, at_limits, many_positions, wide_blocks, floods)


def main():
    if "-h" in sys.argv or "--help" in sys.argv:
        sys.exit(__doc__.strip())
    wrong = False
    for case in (case for cases in CASES for case in cases()):
        with common.folder() as place:
            seconds, memory, status = run(case, pathlib.Path(place))
        faults = list(judged(case, seconds, memory, status))
        print(f"{case.name:66} {case.size():7.3f} MB {seconds:8.3f} s {memory:7.0f} MiB  {', '.join(faults)}", flush=True)
        wrong |= bool(faults)
    sys.exit(1 if wrong else 0)


if __name__ == "__main__":
    main()
