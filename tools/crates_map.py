#!/usr/bin/env python3
"""Puts crates.txt in order, layer by layer from the bottom, and writes crates/README.md: what each crate is.

    tools/crates_map.py            compares: prints what is not as it would be written; the status is 1 where anything is
    tools/crates_map.py --write    writes crates.txt in order, with a line `# layer: NAME` above the crates of each layer,
                                   crates/README.md, and in docs/ARCHITECTURE.md the table between the lines
                                   `<!-- counts -->` and `<!-- end of counts -->`, where it has them
    tools/crates_map.py --counts   prints that table

The layers stand below. A new crate is put into one of them; one whose name begins with `test_` or `bench_` is of the last.
What a crate is comes from the first sentence of its root file, what it stands on from crates.txt.
"""
import pathlib
import re
import sys
from typing import NamedTuple

sys.dont_write_bytecode = True
import repository
from repository import TOP


class Layer(NamedTuple):
    name: str
    # where to begin to read
    begin: str
    crates: str


LAYERS = [
    Layer("base and texts",
          "Begin with `ilk_base/src/words.rt` and `ilk_base/src/outside.rt`: the words that all share, and the system as "
          "traits.",
          "ilk_base text_lines piece_writer ssd_text number_hash"),
    Layer("station and drawing",
          "Begin with `station_graph/specs`, where a station and the three rules are defined, and then "
          "`ssd_read/src/read.rt`.",
          "station_graph ssd_read station_lines station_names path_names"),
    Layer("positions and rules",
          "Begin with `central_rules/specs/Meaning.antt`, what a judge is, and `central_rules/src/rules.rt`, the rules on "
          "one vector.",
          "double_points plain_rows central_rules denial_explain station_state operation_lines switching_orders equation_audit"),
    Layer("contractions, alphabets, graphs, judge",
          "Begin with `contraction/specs/Stands.antt`, what some items are to the rest, and end with "
          "`release_compile/src/judge.rt`.",
          "contraction part_alphabets bay_contract decision_graphs judge_pool judge_intake judge_graphs release_compile"),
    Layer("two stations",
          "Begin with `station_changes/specs/Compare.antt`, what an extension changes, and then "
          "`station_compare/src/compare.rt`; and `commissioning_tests`, what is tested of a bay.",
          "station_changes release_dependence like_bays graph_products graph_walks step_graphs station_joints change_search "
          "station_compare dependence_search commissioning_tests"),
    Layer("bay",
          "Begin with `bay_protocol/specs/Step.antt`: each constructor is one rule of what a bay does at an event.",
          "bay_frames bay_protocol bay_node node_session node_store stored_session"),
    Layer("world",
          "Begin with `reservation_core/specs/Headline.antt`, what is promised of logs.",
          "reservation_core log_replay trip_core trip_replay stopped_puts"),
    Layer("commands",
          "Begin with the command that you know; each has its definitions in `specs` and one public call.",
          "command_words release_texts whatever_text why_text page_questions exchange_plan station_equations equation_text station_make station_work interlock_terms "
          "short_equations structured_text program_blocks program_text station_lines drawing_remarks compare_text tests_text"),
    Layer("top",
          "Begin with `interlock_cli/src/top.rt`, where the words of a command become its work.",
          "interlock_cli page_commands program_edge interlock page_judge"),
    Layer("tests and benches",
          "Begin with `test_stations`, the stations that the tests are worked on.",
          "test_stations test_texts test_graphs test_drawing test_station test_judge test_compare test_bay test_world test_commands test_program test_sessions test_edge test_run_calls bench_parts"),
]
FIRST = ("# NAME: what it stands on. Layer by layer from the bottom, by tools/crates_map.py; crates/README.md says what each "
         "crate is.")
COUNTS = ("<!-- counts -->\n", "<!-- end of counts -->\n")


def layer_of(name):
    """The place of the crate's layer, or None."""
    for place, layer in enumerate(LAYERS):
        if name in layer.crates.split():
            return place
    return len(LAYERS) - 1 if name.startswith(("test_", "bench_")) else None


def in_layers(crates):
    """The names of the crates of each layer, each after those below it, and what is wrong."""
    faults, layers = [], [[] for _ in LAYERS]
    for name in crates:
        if layer_of(name) is None:
            faults.append(f"{name} is of no layer: put it into one in tools/crates_map.py")
    for layer in LAYERS:
        for path in re.findall(r"`([^`]+/[^`]+)`", layer.begin):
            if not (TOP / "crates" / path).exists():
                faults.append(f"{path} is not there, with which to begin to read of the layer {layer.name}")
    known = [name for name in crates if layer_of(name) is not None]
    for name in known:
        for low in crates[name].below:
            if layer_of(low) is not None and layer_of(low) > layer_of(name):
                faults.append(f"{name} stands on {low}, which is of a higher layer")
    places = {name: place for place, name in enumerate(" ".join(layer.crates for layer in LAYERS).split())}
    for first in sorted(known, key=lambda name: (layer_of(name), places.get(name, len(places)), name)):
        for name in repository.standing_below(crates, first):
            if layer_of(name) is not None and name not in layers[layer_of(name)]:
                layers[layer_of(name)].append(name)
    return layers, faults


def ordered(crates, layers):
    """The text of crates.txt."""
    parts = [FIRST + "\n"]
    for layer, names in zip(LAYERS, layers):
        parts.append(f"\n# layer: {layer.name}\n" + "".join(crates[name].line + "\n" for name in names))
    return "".join(parts)


def head(name):
    """The first sentence of a crate's root file."""
    folder = TOP / "crates" / name / "src"
    root = folder / "lib.rt" if (folder / "lib.rt").exists() else folder / "main.rt"
    lines = []
    for line in root.read_text().splitlines():
        if not line.startswith("//!") or line.strip() == "//!":
            break
        lines.append(line[3:].strip())
    return re.split(r"(?<=\.)\s", " ".join(lines))[0].rstrip(".")


def counts(name):
    """Lines of code, definitions and proofs, to the next ten."""
    def lines(folder):
        count = sum((TOP / path).read_bytes().count(b"\n") for path in repository.walked(f"crates/{name}/{folder}"))
        return f"{round(count, -1):,}" if count else "0"

    return " / ".join(lines(folder) for folder in repository.FOLDERS)


def nearest_below(crates, name):
    """The crates on which one stands, without those on which another of them stands."""
    below = crates[name].below
    deeper = {deep for low in below for deep in repository.standing_below(crates, low) if deep != low}
    return [low for low in below if low not in deeper]


def map_text(crates, layers):
    """The text of crates/README.md."""
    parts = ["# The crates\n\nLayer by layer from the bottom. A crate stands on those that its row names and on what those "
             "stand on, and on nothing above it; its line in `crates.txt` has all that it names itself, with the kit's. "
             "Lines are those of code, of definitions and of proofs. `tools/crates_map.py --write` writes this page.\n"]
    for layer, names in zip(LAYERS, layers):
        parts.append(f"\n## {layer.name[0].upper()}{layer.name[1:]}\n\n{layer.begin}\n\n")
        parts.append("| Crate | What it is | Lines | Stands on |\n|---|---|---|---|\n")
        for name in names:
            below = ", ".join(f"`{low}`" for low in nearest_below(crates, name))
            parts.append(f"| [`{name}`]({name}) | {head(name)} | {counts(name)} | {below} |\n")
    return "".join(parts)


def counts_table(layers):
    """The table of docs/ARCHITECTURE.md."""
    rows = "".join(f"| `{name}` | {head(name)} | {counts(name)} |\n" for names in layers for name in names)
    return f"| Crate | What it is | Lines of code / definitions / proofs |\n|---|---|---|\n{rows}"


def wanted(crates, layers):
    """The files and the texts that they should have."""
    yield TOP / "crates.txt", ordered(crates, layers)
    yield TOP / "crates/README.md", map_text(crates, layers)
    page = TOP / "docs/ARCHITECTURE.md"
    text = page.read_text()
    before, first, rest = text.partition(COUNTS[0])
    _, last, after = rest.partition(COUNTS[1])
    if first and last:
        yield page, f"{before}{first}{counts_table(layers)}{last}{after}"


def main(words):
    crates = repository.crates()
    layers, faults = in_layers(crates)
    for fault in faults:
        print(fault)
    if words == ["--counts"]:
        print(counts_table(layers), end="")
        return 0
    if any("no layer" in fault for fault in faults) or words not in ([], ["--write"]):
        print(__doc__.strip())
        return 1
    for path, text in wanted(crates, layers):
        if path.exists() and path.read_text() == text:
            continue
        if words:
            path.write_text(text)
            print(f"written: {path.relative_to(TOP)}")
        else:
            faults.append(f"{path.relative_to(TOP)} differs: tools/crates_map.py --write")
            print(faults[-1])
    return 1 if faults else 0


if __name__ == "__main__":
    sys.exit(main(sys.argv[1:]))
