#!/usr/bin/env python3
"""Time and memory of the commands at each limit, and one past it.

    bench/hostile/limits.py [WORD..]       only the cases whose name holds one of the words

Build the program first: ./interlock --prove. Each case is run once, with at most 8 GiB and 20 minutes. It must end by
itself, with the status that is written beside it; the figures are the time of the processor, the most memory at once,
and the status.
"""
import pathlib
import resource
import subprocess
import sys
import time

sys.path.insert(0, str(pathlib.Path(__file__).resolve().parents[1]))
import common
from common import bay, drawing, equipment

FULL = common.LIMIT


def filled(front, piece, back):
    """A text of 8 MiB: the front, the piece as often as it goes in, blanks, and the back."""
    room = FULL - len(front) - len(back)
    return front + piece * (room // len(piece)) + " " * (room % len(piece)) + back


def counted(front, piece, back, count):
    """A text of so many pieces, each with its number."""
    return front + "".join(piece % number for number in range(count)) + back


def drawings():
    """Texts of a drawing, with the status of `check` with empty positions."""
    head, tail = '<SCL><Substation name="S"><VoltageLevel name="V"><Bay name="Q">', "</Bay></VoltageLevel></Substation></SCL>"
    yield "8 MiB of blanks", filled("<SCL/>", " ", ""), 0
    yield "8 MiB and a byte", filled("<SCL/>", " ", "") + " ", 5
    yield "200,000 elements", "<SCL>" + "<a/>" * 199_999 + "</SCL>", 0
    yield "200,001 elements", "<SCL>" + "<a/>" * 200_000 + "</SCL>", 5
    yield "64 deep, 3,000 times", "<SCL>" + ("<a>" * 63 + "</a>" * 63) * 3_000 + "</SCL>", 0
    yield "a comment of 8 MiB", filled("<SCL/><!--", "-", " -->"), 0
    yield "comments without end", filled("<SCL/>", "<!--", ""), 5
    yield "end tags of names of 4 MB", "<SCL><" + "a" * 4_000_000 + "></" + "a" * 4_000_000 + "></SCL>", 0
    yield "one tag with 700,000 attributes", counted("<SCL", " a%d=\"\"", "/>", 700_000), 0
    yield "one tag with 700,000 equal attributes", filled("<SCL", " abc=\"\"", "/>"), 5
    yield "a value of 1,600,000 references", filled('<SCL a="', "&#65;", '"/>'), 0
    yield "a name of 8 MB", filled('<SCL><Substation name="', "S", '"/></SCL>'), 0
    yield "10,000 nodes below a name of 10,000 bytes", drawing([bay("Q" * 10_000, range(10_000), [])]), 5
    yield "50,000 nodes below a name of 4 MB", drawing([bay("Q" * 4_000_000, range(50_000), [])]), 5
    yield "199,000 substations", counted("<SCL>", '<Substation name="S%d"/>', "</SCL>", 199_000), 0
    yield "equipment with 190,000 terminals", head + '<ConnectivityNode name="a"/><ConductingEquipment name="E" type="X">' + '<Terminal connectivityNode="S/V/Q/a"/>' * 190_000 + "</ConductingEquipment>" + tail, 0
    yield "equipment with 190,000 terminals of no node", head + '<ConductingEquipment name="E" type="X">' + "<Terminal/>" * 190_000 + "</ConductingEquipment>" + tail, 5
    yield "190,000 nodes of one path", head + "<ConnectivityNode name='a'/>" * 190_000 + tail, 5
    yield "bytes that are no text at the end", filled("<SCL/>", " ", "")[:-1].encode() + b"\xff", 5


def busbar(feeders):
    text, words = common.double_busbar(feeders)
    return text, common.positions(words), words


def earthing(count):
    """A bay with so many nodes and an earthing switch on each, beside one on the same nodes."""
    nodes = [f"a{n}" for n in range(count)]
    items = [equipment(f"E{n}", "DIS", [f"Q1/a{n}", "Q1/grounded"]) for n in range(count)]
    return drawing([bay("Q1", nodes, items), bay("Q2", [], items)])


def paired(counts):
    """Bays in pairs, with earthing switches on the same nodes: the first of each pair stand before the second."""
    firsts, seconds = [], []
    for pair, count in enumerate(counts, 1):
        items = [equipment(f"E{n}", "DIS", [f"Q{pair}/a{n}", f"Q{pair}/grounded"]) for n in range(count)]
        firsts.append(bay(f"Q{pair}", [f"a{n}" for n in range(count)], items))
        seconds.append(bay(f"R{pair}", [], items))
    return drawing(firsts + seconds)


def many_switches(bays, each):
    """Bays beside each other on a busbar, each with so many disconnectors to nodes of its own."""
    parts = [bay("W", ["B"], [])]
    for b in range(bays):
        items = [equipment(f"D{n}", "DIS", ["W/B", f"Q{b}/n{n}"]) for n in range(each)]
        parts.append(bay(f"Q{b}", [f"n{n}" for n in range(each)], items))
    return drawing(parts)


def cases():
    """Each case: its name, the words, the files, the input, and the status, if one is known."""
    for name, text, status in drawings():
        yield f"check: {name}", ["check", "a", "b"], {"a": text, "b": ""}, b"", status
    text, csv, words = busbar(63)
    yield "check: 64 bays, 381 switches, all known", ["check", "a", "b"], {"a": text, "b": csv}, b"", 0
    yield "check: 64 bays, 381 switches, none known", ["check", "a", "b"], {"a": text, "b": ""}, b"", 0
    yield "state: 64 bays, 381 switches, none known", ["state", "a", "b"], {"a": text, "b": ""}, b"", 0
    yield "check: 64 bays of 8 disconnectors, 512 switches", ["check", "a", "b"], {"a": many_switches(64, 8), "b": ""}, b"", 0
    yield "check: 65 bays", ["check", "a", "b"], {"a": many_switches(65, 1), "b": ""}, b"", 5
    yield "check: 21 bays of 24 disconnectors, 504 switches", ["check", "a", "b"], {"a": many_switches(21, 24), "b": ""}, b"", None
    yield "check: an alphabet of 128", ["check", "a", "b"], {"a": earthing(7), "b": ""}, b"", 0
    yield "check: an alphabet of 256", ["check", "a", "b"], {"a": earthing(8), "b": ""}, b"", 5
    yield "check: a bay of 4,200,000 edges", ["check", "a", "b"], {"a": paired((5, 6, 5)), "b": ""}, b"", None
    yield "check: eight bays in pairs, the widest seen to be taken", ["check", "a", "b"], {"a": paired((5, 5, 5, 2)), "b": ""}, b"", 0
    yield "check: a bay past 8,000,000 edges", ["check", "a", "b"], {"a": paired((7, 7, 7)), "b": ""}, b"", 5
    for name, text, status in (
        ("8 MiB of blank lines", filled("", "\n", ""), 0),
        ("8 MiB and a byte", filled("", "\n", "") + "\n", 6),
        ("an open quote of 8 MiB", filled('"', "a", ""), 6),
        ("fields without end", filled("", ",", ""), 6),
        ("200,000 records of one switch", "S/V1/Q1/QB1,off\n" * 200_000, 6),
        ("quotes alone", filled("", '"', ""), 6),
    ):
        yield f"check: positions, {name}", ["check", "a", "b"], {"a": busbar(2)[0], "b": text}, b"", status
        yield f"replay: log, {name}", ["replay", "a", "b"], {"a": busbar(2)[0], "b": text.replace("S/V1/Q1/QB1,off", "at,S/V1/Q1/QB1,off")}, b"", 7 if status == 0 else status
    start = "".join(f"at,{path},{word}\n" for path, word in words.items())
    commands = "".join(f"command,S/V1/Q{n % 63 + 1}/QA1,open\n" for n in range(20_000 - len(words)))
    yield "replay: 20,000 records of 64 bays, commands alone", ["replay", "a", "b"], {"a": busbar(63)[0], "b": start + commands}, b"", 0
    yield "replay: a record more", ["replay", "a", "b"], {"a": busbar(63)[0], "b": start + commands + "tick,S/V1/Q1\n"}, b"", 6
    two = busbar(2)[0]
    yield "node: 1,000,000 ticks", ["node", "a", "S/V1/Q1"], {"a": two}, b"tick\n" * 1_000_000, 0
    yield "node: a line more", ["node", "a", "S/V1/Q1"], {"a": two}, b"tick\n" * 1_000_001, 9
    yield "node: 1,000,000 commands", ["node", "a", "S/V1/Q1"], {"a": two}, b"command open S/V1/Q1/QA1\nwithdraw\n" * 500_000, 0
    yield "node: a line of 4,096 bytes", ["node", "a", "S/V1/Q1"], {"a": two}, b"frame " + b"0" * 4_090 + b"\n", 0
    yield "node: a line of 64 MB", ["node", "a", "S/V1/Q1"], {"a": two}, b"frame " + b"0" * 64_000_000, 6
    yield "node: 64 bays, 16,000 commands, each decided by a tick", ["node", "a", "S/V1/Q1"], {"a": busbar(63)[0]}, b"command open S/V1/Q1/QB1\ntick\nwithdraw\n" * 16_000, 0
    for feeders, steps in ((40, 20_000), (63, 20_000)):
        text, csv, _ = busbar(feeders)
        order = "".join(f"{'open' if n % 2 == 0 else 'close'} S/V1/Q{n // 2 % feeders + 1}/QA1\n" for n in range(steps))
        yield f"order: {steps:,} steps on {feeders} feeders", ["order", "a", "b", "c"], {"a": text, "b": csv, "c": order}, b"", 0
        yield f"order: a step more on {feeders} feeders", ["order", "a", "b", "c"], {"a": text, "b": csv, "c": order + "open S/V1/Q1/QA1\n"}, b"", 6
    text, csv, words = busbar(40)
    names = list(words)
    blocks = "".join(f"{d} {path}\n" + "".join(f"when off {n}\n" for n in names[3:14] if n != path) + "end\n" for path in names[:10] for d in ("open", "close"))
    yield "audit: 20 blocks of 10 or 11 switches on 40 feeders", ["audit", "a", "b"], {"a": text, "b": blocks}, b"", 1
    yield "audit: 486 blocks on 40 feeders", ["audit", "a", "b"], {"a": text, "b": "".join(f"{d} {path}\nwhen off S/V1/Q1/QB1\nend\n" for path in names for d in ("open", "close"))}, b"", 1
    whens = "when off S/V1/Q1/QB1\n"
    yield "audit: a block of 8 MiB", ["audit", "a", "b"], {"a": text, "b": f"open {names[5]}\n" + whens * (FULL // len(whens) - 10) + "end\n"}, b"", 1
    twelve = f"open {names[5]}\n" + "".join(f"when off {n}\n" for n in names[6:18]) + "end\n"
    yield "audit: a block of twelve switches", ["audit", "a", "b"], {"a": text, "b": twelve}, b"", 1
    yield "audit: a block of thirteen switches", ["audit", "a", "b"], {"a": text, "b": twelve.replace("end", f"when on {names[18]}\nend")}, b"", 6
    yield "make: 60 feeders", ["make", "60", "log"], {}, b"", 0


def run(words, folder, given):
    """Runs the words with the input: seconds of a processor, the most memory at once in MiB, and the status."""
    (folder / "input").write_bytes(given)
    starter = common.STARTER.replace("actions = [", f"feed = os.open({str(folder / 'input')!r}, os.O_RDONLY)\nactions = [(os.POSIX_SPAWN_DUP2, feed, 0), ")
    limit = lambda: resource.setrlimit(resource.RLIMIT_AS, (8 << 30, 8 << 30))
    done = subprocess.run([sys.executable, "-S", "-c", starter, *words], cwd=folder, capture_output=True, text=True, timeout=1200, preexec_fn=limit)
    _, peak, status, seconds = done.stdout.split()
    return float(seconds), float(peak), int(status)


def main(only):
    if "-h" in only or "--help" in only:
        sys.exit(__doc__.strip())
    program, wrong = common.TOP / "crates/interlock/out/interlock", False
    if not program.exists():
        sys.exit("build the program first: ./interlock --prove")
    with common.folder() as place:
        folder = pathlib.Path(place)
        for name, words, files, given, status in cases():
            if only and not any(word in name for word in only):
                continue
            for file, text in files.items():
                (folder / file).write_bytes(text if isinstance(text, bytes) else text.encode())
            seconds, peak, ended = run([str(program), *words], folder, given)
            other = ended not in ((status,) if status is not None else (0, 1, 5, 6, 8))
            print(f"{name:64} {seconds:8.3f} s {peak:7.0f} MiB   status {ended}{f', not {status}' if other else ''}", flush=True)
            wrong |= other
    sys.exit(1 if wrong else 0)


main(sys.argv[1:])
