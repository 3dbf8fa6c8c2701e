#!/usr/bin/env python3
"""Runs `check` on every example, and compares.

    examples/check.py            compares what the program says with the stored text, NAME.txt, and
                                 - that text with the definitions, by a second way (by_definition.py)
                                 - the stored run of the program in the gate (crates/interlock)
                                 - the lines that README.md here and at the top cite, with the stored texts
                                 and what `order` says of each order in examples/orders, `replay` of the log
                                 two_feeders and `audit` of the equations double_busbar, with the stored texts,
                                 which were worked by hand; that `station` has no remark on any drawing; and that the
                 picture of each example is the stored one, NAME.svg, byte for byte;
                 and what `compare` says of each extension in examples/extensions, with the stored text, with the
                 definitions by a second way (extensions.py), and with the stored picture
    examples/check.py --store    writes what the program says as the stored texts, where the definitions
                                 allow it, and the pictures; look at each difference by hand before you commit it

It takes the proved program where that stands and its sources are those that were proved, and else the checked
build, which is made once for all examples, in a minute or two. Status 1 where anything differs.
"""
import importlib.machinery
import importlib.util
import pathlib
import re
import sys

sys.dont_write_bytecode = True
import by_definition
import extensions

HERE = pathlib.Path(__file__).resolve().parent
TOP = HERE.parent
GATE = TOP / "crates/test_run_calls/stdout"
# The words of the stored run in the gate.
IN_GATE = ["work", "2"]
# The drawing of the orders in examples/orders.
ORDERED = "double_busbar.ssd"
# The text of `program` that is stored.
WRITTEN = "double_busbar.st"
# Further answers: a command's words, and the file that holds its text.
OTHERS = [
    (["replay", "two_feeders.ssd", "two_feeders.log"], "two_feeders.report"),
    (["audit", "double_busbar.ssd", "double_busbar.equations"], "double_busbar.audit"),
    (["program", "double_busbar.ssd"], WRITTEN),
]
# Extensions: OLD, NEW, and the name of the text and the picture in examples/extensions.
EXTENSIONS = [
    ("single_busbar.ssd", "extensions/fourth_feeder.ssd", "fourth_feeder"),
    ("extensions/one_busbar.ssd", "double_busbar.ssd", "second_busbar"),
    ("single_busbar.ssd", "extensions/cut_busbar.ssd", "cut_busbar"),
]


def script_of(file):
    """A script as a module."""
    loader = importlib.machinery.SourceFileLoader(file.name, str(file))
    module = importlib.util.module_from_spec(importlib.util.spec_from_loader(file.name, loader))
    loader.exec_module(module)
    return module


def interlock_script():
    """The script `interlock` at the top, as a module."""
    return script_of(TOP / "interlock")


def picture_differences(names, checked, looks, ask, store):
    """Pictures that are not the stored ones, or that an engineer would not print."""
    pictures = script_of(TOP / "tools/picture")
    files = [(str(HERE / f"{name}.ssd"), str(HERE / f"{name}.csv")) for name in names]
    states = ask([["state", *both] for both in files])
    for name, both, answer, state in zip(names, files, checked, states):
        drawn, svg = pictures.picture(*both, [(0, answer), state, (0, looks[f"{name}.ssd"])])
        stored = HERE / f"{name}.svg"
        yield from (f"the picture of {name}: {fault}" for fault in drawn.faults())
        if store:
            stored.write_text(svg)
        if not stored.exists() or stored.read_text() != svg:
            yield f"{name}: the picture is not examples/{name}.svg"


def stored_differences(file, text, store):
    """Whether the text is the one that is stored in the file."""
    if store:
        file.write_text(text)
    if not file.exists() or file.read_text() != text:
        yield f"the program does not say what {file.relative_to(TOP)} says"


def extension_differences(answers, store):
    pictures = script_of(TOP / "tools/picture")
    for (old, new, name), answer in zip(EXTENSIONS, answers):
        files = (str(HERE / old), str(HERE / new))
        wrong = [f"{name}: {fault}" for fault in extensions.faults(*files, answer)]
        yield from wrong
        yield from stored_differences(HERE / f"extensions/{name}.txt", answer, store and not wrong)
        drawn, svg = pictures.extension(*files, (0, answer))
        yield from (f"the picture of {name}: {fault}" for fault in drawn.faults())
        yield from stored_differences(HERE / f"extensions/{name}.svg", svg, store)


def cited_differences(names):
    """Lines of an answer that a README cites and no example has."""
    stored = {line for name in names for line in (HERE / f"{name}.txt").read_text().splitlines()}
    for page in (HERE / "README.md", TOP / "README.md"):
        for line in re.findall(r"`([01] [01] \S+ \S+ [^`]+|\+ (?:open|close) [^`]+)`", page.read_text()):
            if line not in stored and "PATH" not in line:
                yield f"{page.relative_to(TOP)} cites '{line}', which no example has"


def example_differences(name, answer, store):
    stored = HERE / f"{name}.txt"
    station = by_definition.Station(HERE / f"{name}.ssd")
    words = by_definition.words_of(station, HERE / f"{name}.csv")
    wrong = list(by_definition.faults(station, words, answer))
    yield from (f"{name}: {fault}" for fault in wrong)
    if store and not wrong:
        stored.write_text(answer)
    if not stored.exists() or stored.read_text() != answer:
        yield f"{name}: the program does not say what examples/{name}.txt says"


def other_differences(answers, store):
    for (_, name), text in zip(OTHERS, answers):
        stored = HERE / name
        if store and name == WRITTEN:
            stored.write_text(text)
        if not stored.exists() or stored.read_text() != text:
            yield f"{name}: the program does not say what examples/{name} says"


def main(words):
    if words not in ([], ["--store"]):
        sys.exit(__doc__)
    names = sorted(file.stem for file in HERE.glob("*.csv"))
    script = interlock_script()
    proved = script.is_proved()
    orders = sorted((HERE / "orders").glob("*.order"))
    commands = [["check", str(HERE / f"{name}.ssd"), str(HERE / f"{name}.csv")] for name in names]
    commands += [["order", str(HERE / ORDERED), str(order.with_suffix(".csv")), str(order)] for order in orders]
    commands += [[command, *(str(HERE / file) for file in files)] for (command, *files), _ in OTHERS]
    drawings = sorted([*HERE.glob("*.ssd"), *HERE.glob("extensions/*.ssd")])
    commands += [["station", str(drawing)] for drawing in drawings]
    commands += [["compare", str(HERE / old), str(HERE / new)] for old, new, _ in EXTENSIONS]
    commands += [IN_GATE]
    *answers, in_gate = (text for _, text in script.answers(commands))
    compared = answers[-len(EXTENSIONS):]
    looks = answers[-len(EXTENSIONS) - len(drawings):-len(EXTENSIONS)]
    found = [d for name, text in zip(names, answers) for d in example_differences(name, text, words == ["--store"])]
    found += [
        f"{order.stem}: the program does not say what examples/orders/{order.stem}.txt says"
        for order, text in zip(orders, answers[len(names):])
        if order.with_suffix(".txt").read_text() != text
    ]
    found += other_differences(answers[len(names) + len(orders):], words == ["--store"])
    found += [
        f"{drawing.name}: {line}"
        for drawing, text in zip(drawings, looks)
        for line in text.splitlines() or ["no answer to station"]
        if line.startswith(("remark\t", "no answer"))
    ]
    if f"\n{in_gate}status 0\n" not in GATE.read_text():
        found += ["the program does not say what crates/test_run_calls/stdout says of work 2"]
    seen = {drawing.name: text for drawing, text in zip(drawings, looks)}
    found += picture_differences(names, answers, seen, script.answers, words == ["--store"])
    found += extension_differences(compared, words == ["--store"])
    found += cited_differences(names)
    print("\n".join(found), end="\n" if found else "")
    program = "the proved program" if proved else "the checked build, not the proved program"
    print(f"{len(names)} examples by {program}: {'all as stored' if not found else f'{len(found)} differences'}")
    return 1 if found else 0


sys.exit(main(sys.argv[1:]))
