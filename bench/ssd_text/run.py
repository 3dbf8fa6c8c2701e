#!/usr/bin/env python3
"""Times the reading of the text of a drawing as a tree, and measures the memory of the tree.

Build the program first: (cd crates/bench_parts && rt run -- graphs 4 3 5 4). The texts:

- full: a drawing of 8,388,608 bytes with 200,000 elements, each with two attributes
- attributes: one start tag with as many attributes as fit, and one with 100,000
- comment: one comment of 8,388,600 bytes and more
- nested: 200,000 elements that are opened and closed, up to 64 deep

A time is the shortest of seven runs. Twice the text must not take four times as long (where times are short, 50 ms are
let pass): each text is read at half its size too.
"""
import pathlib
import sys

sys.path.insert(0, str(pathlib.Path(__file__).resolve().parents[1]))
import common
from common import LIMIT, Figure


def full(size, elements):
    """elements that fill a text of this size exactly"""
    head, tail = b"<SCL>", b"</SCL>"
    one = b"<ConductingEquipment name='%06d' type='DIS'></ConductingEquipment>"
    short = b"<e n='%06d' t='D'/>"
    room = size - len(head) - len(tail)
    count = elements - 1
    long = (room - count * len(short % 0)) // (len(one % 0) - len(short % 0))
    text = b"".join([head] + [(one if i < long else short) % i for i in range(count)])
    return text + b" " * (size - len(text) - len(tail)) + tail


def attributes(size, count):
    parts, length = [b"<SCL"], 4
    for i in range(count):
        part = b" a%d=''" % i
        if length + len(part) + 2 > size:
            break
        parts.append(part)
        length += len(part)
    return b"".join(parts) + b"/>"


def comment(size):
    return b"<!--" + b"-- " * ((size - 15) // 3) + b"--><SCL/>"


def nested(elements):
    """towers of 63 elements in the root, opened and then closed"""
    parts = [b"<SCL>"]
    left = elements - 1
    while left:
        high = min(63, left)
        parts.append(b"<a>" * high + b"</a>" * high)
        left -= high
    return b"".join(parts) + b"</SCL>"


def told(program, folder, *words):
    """what the program prints of the text in the folder, by the first word of each line"""
    lines = (line.split() for line in common.printed([program, *words], cwd=folder).splitlines())
    return {line[0]: int(line[1]) for line in lines}


def measure(program, folder, text):
    """milliseconds, elements, and bytes of memory for each element"""
    pathlib.Path(folder, "drawing.ssd").write_bytes(text)
    runs = [told(program, folder, "elements", "time") for _ in range(7)]
    elements = runs[0]["elements"]
    memory = (runs[0]["VmHWM:"] - told(program, folder, "load")["VmHWM:"]) * 1024
    return min(r["microseconds"] for r in runs) / 1e3, elements, memory / elements


def figures():
    program = common.program("bench_parts")
    texts = [
        ("full", full(LIMIT // 2, 100_000), full(LIMIT, 200_000)),
        ("attributes, 100,000", attributes(LIMIT, 50_000), attributes(LIMIT, 100_000)),
        ("attributes, all", attributes(LIMIT // 2, LIMIT), attributes(LIMIT, LIMIT)),
        ("comment", comment(LIMIT // 2), comment(LIMIT)),
        ("nested", nested(100_000), nested(200_000)),
    ]
    with common.folder() as folder:
        for name, half, whole in texts:
            first, _, _ = measure(program, folder, half)
            second, elements, memory = measure(program, folder, whole)
            note = f"{elements:,} elements, {memory:.0f} bytes of memory each" if elements > 1000 else ""
            yield Figure(f"read_text, {name}, {len(whole):,} bytes", second, "ms", 3 * first + 50, note)


common.main(__doc__, figures)
