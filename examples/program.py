#!/usr/bin/env python3
"""Runs the text that `program` writes, and compares it with the definitions.

    examples/program.py [STATION | TEXT=STATION] ..

takes the drawings that are named, or all of examples/, and of each the text that `./interlock program` writes, or the
one of the file TEXT. It compiles the assignments of the text unchanged, a function block as a record and a procedure,
by Free Pascal where `fpc` is there, else by C with `cc`, else it reads them as Python, and sets the inputs to the
contacts of random words: off (10), on (01), and what says nothing (00 and 11). Then by the definitions alone
(by_definition.py):

- where all words are off or on, a release is TRUE exactly where the operation breaks no rule;
- where some say nothing, what is TRUE breaks no rule in any reading;
- and of breakers, infeeds and earthing switches what is FALSE breaks a rule in some reading.

It shares no code with the program and proves nothing. The status is 1 where anything differs.
"""
import itertools
import pathlib
import random
import re
import shutil
import subprocess
import sys
import tempfile

sys.dont_write_bytecode = True
HERE = pathlib.Path(__file__).resolve().parent
sys.path.insert(0, str(HERE))
import by_definition

CONTACTS = {"off": ((1, 0),), "on": ((0, 1),), "none": ((0, 0), (1, 1))}
ROUNDS, UNKNOWN = 40, 4


def names_of(text):
    """The names of the inputs, the outputs and the other variables of a block or a program."""
    blocks = re.findall(r"^(VAR_INPUT|VAR_OUTPUT|VAR)\n(.*?)^END_VAR$", text, re.M | re.S)
    lists = {kind: re.findall(r"([\w,\s]+) : BOOL(?: := TRUE)?;", body) for kind, body in blocks}
    names = {kind: [name for names in found for name in re.findall(r"\w+", names)] for kind, found in lists.items()}
    return tuple(names.get(kind, []) for kind in ("VAR_INPUT", "VAR_OUTPUT", "VAR"))


def parts_of(text):
    """The blocks of a text by their names, and its program: variables and steps; and which instance is of which block."""
    text = re.sub(r"\(\*.*?\*\)", "", text, flags=re.S)
    blocks = {}
    for name, body in re.findall(r"^FUNCTION_BLOCK (\w+)\n(.*?)^END_FUNCTION_BLOCK$", text, re.M | re.S):
        blocks[name] = names_of(body), re.findall(r"^  (\w+) := (.*);$", body, re.M)
    program = re.search(r"^PROGRAM \w+\n(.*?)^END_PROGRAM$", text, re.M | re.S)[1]
    instances = dict(re.findall(r"^  (\w+) : (BLOCK_\w+);$", program, re.M))
    body = program.rpartition("END_VAR\n")[2]
    steps = []
    for call, wires, name, formula in re.findall(r"^  (?:(\w+)\(([^)]*)\)|(\w+) := (.*));$", body, re.M):
        if call:
            steps += [(f"{call}.{inner}", outer) for inner, outer in re.findall(r"(\w+) := (\w+)", wires)] + [(call, None)]
        else:
            steps.append((name, formula))
    return blocks, names_of(program), instances, steps


def pascal(blocks, names, instances, steps):
    """A program that answers each line of 0 and 1 with the outputs."""
    lines = ["program interlocking;", "{$mode objfpc}{$H+}"]
    for name, (inside, assignments) in blocks.items():
        lines += [f"type {name} = record"] + [f"  {each}: boolean;" for each in sum(inside, [])] + ["end;"]
        lines += [f"procedure run_{name}(var self: {name});", "begin", "with self do begin"]
        lines += [f"{each} := {formula};" for each, formula in assignments] + ["end;", "end;"]
    inputs, outputs, others = names
    lines += ["var line_of_inputs: string;"] + [f"  {name}: boolean;" for name in inputs + outputs + others]
    lines += [f"  {name}: {block};" for name, block in instances.items()] + ["begin", "while not eof do begin"]
    lines += ["readln(line_of_inputs);"]
    lines += [f"{name} := line_of_inputs[{place}] = '1';" for place, name in enumerate(inputs, 1)]
    lines += [f"{name} := {formula};" if formula else f"run_{instances[name]}({name});" for name, formula in steps]
    lines += [f"if {name} then write('1') else write('0');" for name in outputs]
    return "\n".join(lines + ["writeln;", "end;", "end."]) + "\n"


def c_text(blocks, names, instances, steps):
    """The same in C, with the words of C."""
    words = {"AND": "&&", "OR": "||", "NOT": "!", "TRUE": "1", "FALSE": "0"}

    def in_c(formula, before=""):
        return re.sub(r"[\w.]+", lambda match: words.get(match[0]) or before + match[0], formula)

    lines = ["#include <stdio.h>", "static char line[65536];"]
    for name, (inside, assignments) in blocks.items():
        lines += [f"struct {name} {{"] + [f"int {each};" for each in sum(inside, [])] + ["};"]
        lines += [f"static void run_{name}(struct {name} *self) {{"]
        lines += [f"self->{each} = {in_c(formula, 'self->')};" for each, formula in assignments] + ["}"]
    inputs, outputs, others = names
    lines += [f"static int {name};" for name in inputs + outputs + others]
    lines += [f"static struct {block} {name};" for name, block in instances.items()] + ["int main(void) {"]
    lines += ["while (fgets(line, sizeof line, stdin)) {"]
    lines += [f"{name} = line[{place}] == '1';" for place, name in enumerate(inputs)]
    lines += [f"{name} = {in_c(formula)};" if formula else f"run_{instances[name]}(&{name});" for name, formula in steps]
    lines += [f"putchar({name} ? '1' : '0');" for name in outputs]
    return "\n".join(lines + ["putchar('\\n'); } return 0; }"]) + "\n"


def compiled(folder, text):
    """What runs the text: a compiled program, or None."""
    parts = parts_of(text)
    tools = (("fpc", "block.pas", pascal, ["-O1", "-v0"]), ("cc", "block.c", c_text, ["-O0", "-o", "block"]))
    for tool, name, make, words in tools:
        if shutil.which(tool):
            (folder / name).write_text(make(*parts))
            subprocess.run([tool, *words, name], cwd=folder, check=True, stdout=subprocess.DEVNULL)
            return folder / "block"
    return None


def as_python(text, rows):
    """The answers, read as Python."""
    blocks, (inputs, outputs, _), instances, steps = parts_of(text)

    def value(formula, store):
        lower = re.sub(r"\b(AND|OR|NOT)\b", lambda m: m[0].lower(), formula)
        return eval(re.sub(r"(\w+)\.(\w+)", r"\1__\2", lower), {"TRUE": True, "FALSE": False}, store)

    for row in rows:
        store = dict(zip(inputs, (bit == "1" for bit in row)))
        for name, formula in steps:
            if formula:
                store[name.replace(".", "__")] = value(formula, store)
                continue
            inside = {inner: store[f"{name}__{inner}"] for inner in blocks[instances[name]][0][0]}
            for inner, inner_formula in blocks[instances[name]][1]:
                inside[inner] = value(inner_formula, inside)
            store.update({f"{name}__{inner}": bit for inner, bit in inside.items()})
        yield "".join("1" if store[name] else "0" for name in outputs)


def answers(text, rows):
    with tempfile.TemporaryDirectory() as folder:
        program = compiled(pathlib.Path(folder), text)
        if program is None:
            return list(as_python(text, rows))
        run = subprocess.run([program], input="\n".join(rows) + "\n", text=True, check=True, capture_output=True)
        return run.stdout.split()


def differences(station, text, rng):
    """How many releases were compared, and those that are wrong."""
    words = []
    for round_number in range(ROUNDS):
        row = [rng.choice(("off", "on")) for _ in station.switches]
        if round_number % 2:
            for place in rng.sample(range(len(row)), min(UNKNOWN, len(row))):
                row[place] = "none"
        words.append(row)
    rows = ["".join("%d%d" % rng.choice(CONTACTS[word]) for word in row) for row in words]
    compared, wrong = 0, []
    for row, answer in zip(words, answers(text, rows)):
        readings = list(itertools.product(*((False, True) if word == "none" else (word == "on",) for word in row)))
        for number, switch in enumerate(station.switches):
            for closes in (False, True):
                released = answer[2 * number + closes] == "1"
                broken = {by_definition.breaks(station, number, closes, reading) for reading in readings} - {"-"}
                strict = switch.kind == "DIS" and len(readings) > 1
                compared += 1
                if released and broken or not released and not broken and not strict:
                    wrong.append((switch.path, closes, row))
    return compared, wrong


def text_of(name):
    run = subprocess.run([HERE.parent / "interlock", "program", name], stdout=subprocess.PIPE, text=True, check=True)
    return run.stdout


def main(names):
    status = 0
    for name in names or sorted(map(str, HERE.glob("*.ssd"))):
        file, _, drawing = name.rpartition("=")
        text = pathlib.Path(file).read_text() if file else text_of(drawing)
        compared, wrong = differences(by_definition.Station(drawing), text, random.Random(7))
        print(f"{pathlib.Path(drawing).name}: {len(text):,} bytes, {compared:,} releases, {len(wrong)} wrong", flush=True)
        status |= bool(wrong)
    return status


if __name__ == "__main__":
    sys.exit(main(sys.argv[1:]))
