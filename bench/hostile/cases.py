"""The damaged inputs on which `damaged.py` runs the commands, each made from a seed and a number."""
import pathlib
import random
import sys
from typing import NamedTuple

sys.path.insert(0, str(pathlib.Path(__file__).resolve().parents[1]))
from common import TOP

sys.path.insert(0, str(TOP / "examples"))
from stored_stops import EMPTY, SIZE, SLOT

EXAMPLES = TOP / "examples"
# How often the files of an example are taken, beside 1 for all others. Those whose graphs are small take less time.
SHARES = {"two_feeders": 20, "vendor": 20, "single_busbar": 4, "double_busbar": 4}

# The system takes no words that are much longer.
LONGEST_WORD = 100_000

# The lines of `node` and `stored`, without the record with which those of `node` begin.
LINES = b"""sense off S/V1/Q1/QB1
sense off S/V1/Q1/QA1
sense on S/V1/Q1/QB9
sense off S/V1/Q1/QC9
sense off S/V1/Q1/E1
command close S/V1/Q1/QB1
frame 02020100000001000104
tick
cut S/V1/Q1/QB1
sense on S/V1/Q1/QB1
restart
frame 010102000000010000
frame 030201000000020005020000000a
command open S/V1/Q1/QA1
withdraw
frame 050201000000010000
frame 
"""
NODE = b"kept 000000010000000000000000000000000000\n" + LINES

# What may stand in a slot of the file of `stored`. The records are none, a round, a lock of the other bay, two granted
# operations, and then a lock of the bay itself, an operation of another round, and a lock beside an operation, none of
# which fits.
RECORDS = [EMPTY] + [bytes.fromhex(text) for text in (
    "00000007 000000000000 0000000000000000", "00000007 010200000009 0000000000000000",
    "00000007 000000000000 0100000007000001", "ffffffff 000000000000 01ffffffff000300",
    "00000007 010100000009 0000000000000000", "00000007 000000000000 0100000006000001",
    "00000007 010200000009 0100000007000001")]
LAST_SEQUENCE = 2 ** 63 - 1
SEQUENCES = [0, 1, 2, 3, 255, 256, LAST_SEQUENCE - 1, LAST_SEQUENCE, LAST_SEQUENCE + 1, 2 ** 64 - 1]

# What damage puts in.
TOKENS = [b"<", b">", b"/>", b"</", b"\"", b"'", b"&#0;", b"&lt;", b"&", b"]]>", b"<!--", b"-->", b"<?", b"<!DOCTYPE"]
TOKENS += [b"<![CDATA[", b"xmlns=\"a\"", b":", b"name=\"\"", b",", b"\n", b"\r\n", b"\r", b"\"\"", b"\x00", b"\xff"]
TOKENS += [b"\xef\xbb\xbf", b"\xc3", b"0", b"-1", b"1", b"4294967295", b"4294967296", b"99999999999999999999"]
TOKENS += [b"grounded", b"S/V1/Q1/QB1", b"open ", b"close ", b"when on ", b"or\n", b"end\n", b"never\n", b"lost"]
TOKENS += [b"part,1,64\n", b"deliver,1\n", b"restart,S/V1/Q1\n", b"cut,S/V1/Q1/QB1\n", b"tick\n", b"restart\n"]


class Form(NamedTuple):
    """A command, named by its first word and by what tells it from another with that word: how often it is run; its
    words, of which those that are a part stand for it; what is damaged, as often as it is named here; and the statuses
    with which it may end."""
    share: int
    words: str
    damage: str
    statuses: set


FORMS = {
    "check": Form(3, "station positions", "station station station positions positions", {0, 5, 6}),
    "explain": Form(2, "station positions direction switch", "station station positions switch", {0, 2, 5, 6}),
    "explain all": Form(2, "station positions", "station station positions positions", {0, 5, 6}),
    "why": Form(2, "station positions direction switch", "station station positions switch", {0, 2, 5, 6}),
    "state": Form(2, "station positions", "station station station positions positions", {0, 5, 6}),
    "order": Form(2, "station known order", "station station known order order order", {0, 1, 5, 6}),
    "replay": Form(3, "station log", "station log log log", {0, 5, 6, 7}),
    "trips": Form(2, "station log", "station log log log", {0, 5, 6, 7}),
    "audit": Form(2, "station equations", "station equations equations equations", {0, 1, 5, 6}),
    "node": Form(3, "station bay", "station node node node node bay", {0, 2, 5, 6}),
    "stored": Form(2, "station bay kept", "station kept kept kept lines lines lines lines bay", {0, 2, 4, 5, 6}),
    "plan": Form(1, "station", "station", {0, 5}),
    "compile": Form(1, "station", "station", {0, 5}),
    "station": Form(2, "station", "station", {0, 1, 5}),
    "program": Form(1, "station bay", "station station bay", {0, 2, 5, 6}),
    "compare": Form(1, "old station", "station station old", {0, 1, 5}),
    "tests": Form(1, "old bay", "old old old bay", {0, 2, 5, 6}),
    "make": Form(1, "number text", "number number text", {0, 2}),
    "work": Form(1, "number", "number", {0, 2}),
}
# The parts that an example has; those that are files, named by a word; and those that are the input of a command.
OF_EXAMPLES = {"station", "positions", "known", "order", "log", "equations", "node", "lines", "old"}
FILES = {"station", "positions", "known", "order", "log", "equations", "kept", "old"}
INPUTS = {"node": "node", "stored": "lines"}


class Case(NamedTuple):
    """A run: its command, the words after it, its files by name, and its input."""
    command: str
    words: list
    files: dict
    given: bytes


def stock():
    """The parts of each example."""
    def read(name):
        return (EXAMPLES / name).read_bytes()
    schemes = sorted(p.stem for p in EXAMPLES.glob("*.ssd") if p.with_suffix(".csv").exists())
    parts = {scheme: {"station": read(f"{scheme}.ssd"), "positions": read(f"{scheme}.csv")} for scheme in schemes}
    order, equations = read("orders/earth_line_1.order"), read("double_busbar.equations")
    parts["double_busbar"] |= {"known": read("orders/earth_line_1.csv"), "order": order, "equations": equations}
    log = read("two_feeders.log")
    known = b"".join(record[3:] for record in log.splitlines(keepends=True) if record.startswith(b"at,"))
    fitting = [block for block in equations.split(b"\n\n") if b"QB2" not in block and b"K0" not in block]
    parts["two_feeders"] = {"station": read("two_feeders.ssd"), "positions": known, "known": known, "log": log}
    parts["two_feeders"] |= {"order": order.replace(b"Q1", b"Q2"), "equations": b"\n\n".join(fitting)}
    parts["two_feeders"] |= {"node": NODE, "lines": LINES, "old": parts["two_feeders"]["station"]}
    return parts


def line_start(text, at):
    """The place at which the line begins in which a place stands."""
    return text.rfind(b"\n", 0, at) + 1


def stretch(rng, text, lengths):
    """Where a piece of the text begins and ends: any bytes, or whole lines."""
    at = rng.randrange(len(text) + 1)
    to = min(len(text), at + rng.choice(lengths))
    return (at, to) if rng.random() < 0.5 else (line_start(text, at), text.find(b"\n", to) + 1 or len(text))


def damaged(rng, text, others):
    """The text with some damage."""
    text = bytearray(text)
    little = rng.random() < 0.5
    for _ in range(1 if little else rng.randint(1, 6)):
        at, to = stretch(rng, text, (1, 2, 8) if little else (1, 2, 8, 40, 300))
        kind = rng.randrange(7)
        if kind == 0 and text:
            text[at - 1] ^= 1 << rng.randrange(8)
        elif kind == 1:
            del text[at:to]
        elif kind == 2:
            text[at:at] = text[at:to] * rng.choice((1, 1, 1, 50))
        elif kind == 3:
            piece = text[at:to]
            del text[at:to]
            there, _ = stretch(rng, text, (1,))
            text[there:there] = piece
        elif kind == 4:
            other = rng.choice(others)
            begin, end = stretch(rng, other, (1, 10, 100, 1000))
            text[at:to] = other[begin:end]
        elif kind == 5:
            text[at:at] = rng.choice(TOKENS)
        elif rng.random() < 0.3:
            del text[at:]
    return bytes(text)


def kept_file(rng):
    """The file of a stored session: two slots, each open or not, with a sequence and a record."""
    heads = (bytes([rng.choice((0, 1, 1, 1, 2))]) + rng.choice(SEQUENCES).to_bytes(8, "big") for _ in range(2))
    return b"".join((head + rng.choice(RECORDS)).ljust(SLOT, b"\0") for head in heads)


def undamaged(rng, form, examples):
    """The parts of an example that has all that the form needs, with a file and the words."""
    needed = OF_EXAMPLES & {*form.words.split(), *form.damage.split()}
    names = [name for name, parts in examples.items() if needed <= parts.keys()]
    parts = dict(examples[rng.choices(names, [SHARES.get(name, 1) for name in names])[0]])
    parts["kept"] = kept_file(rng)
    parts["bay"] = b"S/V1/Q1"
    parts["switch"] = rng.choice(parts["positions"].splitlines()).split(b",")[0]
    parts["direction"] = rng.choice((b"open", b"close"))
    parts["number"] = rng.choice((b"2", b"3"))
    parts["text"] = rng.choice((b"station", b"positions", b"log"))
    return parts


def case(seed, number, examples):
    """The run of this number."""
    rng = random.Random(seed * 1_000_003 + number)
    command = rng.choices(list(FORMS), [form.share for form in FORMS.values()])[0]
    form = FORMS[command]
    parts, part = undamaged(rng, form, examples), rng.choice(form.damage.split())
    parts[part] = damaged(rng, parts[part], [text for its in examples.values() for text in its.values()])
    if part == "kept" and rng.random() < 0.5:
        parts["kept"] = parts["kept"][:SIZE].ljust(SIZE, b"\0")
    names = form.words.split()
    words = [name.encode() if name in FILES else parts[name].replace(b"\0", b"")[:LONGEST_WORD] for name in names]
    files = {name: parts[name] for name in names if name in FILES}
    if part == "lines" and rng.random() < 0.1:
        del files["kept"]
    return Case(command, words, files, parts[INPUTS[command]] if command in INPUTS else b"")
