#!/usr/bin/env python3
"""A text of `compare` held against the definitions.

    examples/extensions.py OLD NEW TEXT

says what is wrong with the text by the definitions of docs/FORMATS.md, "What `compare` writes": that each operation
stands where it should, that each position that is shown shows its change, and is one in which all is open that only one
station has wherever the word is `changed`; and that none of some hundred random positions of all switches shows a change
that the text has not. It shares no code with the program and proves nothing.
"""
import random
import sys

import by_definition

RULES = ("R1", "R2", "R3")
TRIES = 150


class Pair:
    """Two stations, and their switches: those of NEW in document order, then those that only OLD has."""

    def __init__(self, old_file, new_file):
        self.old, self.new = by_definition.Station(old_file), by_definition.Station(new_file)
        self.old_at = {(s.path, s.kind): i for i, s in enumerate(self.old.switches)}
        self.new_at = {(s.path, s.kind): i for i, s in enumerate(self.new.switches)}
        self.keys = list(self.new_at) + [key for key in self.old_at if key not in self.new_at]
        self.both = {key for key in self.keys if key in self.old_at and key in self.new_at}

    def side(self, key):
        return "both" if key in self.both else "new" if key in self.new_at else "old"

    def is_isolated(self, closed):
        return closed <= self.both

    def rules(self, key, closes, closed):
        """The rule that the operation breaks in OLD and in NEW, or `-`, where exactly these switches are closed."""
        for station, at in ((self.old, self.old_at), (self.new, self.new_at)):
            yield by_definition.breaks(station, at[key], closes, [(s.path, s.kind) in closed for s in station.switches])

    def change(self, key, closes, closed):
        """The change that the position shows of the operation, if it shows one."""
        old, new = self.rules(key, closes, closed)
        if old == "-" and new != "-":
            return f"stricter {new}"
        return f"looser {old}" if old != "-" and new == "-" else None


def parts_of(text):
    """Each operation of the text with its word, and for each change the switches that are shown closed; and the bays."""
    operations, bays = [], []
    for line in text.splitlines():
        word, *rest = line.split(" ", 2)
        if word == "bay":
            bays.append(tuple(rest))
        elif word in ("stricter", "looser"):
            operations[-1][1][line] = shown = []
        elif word == "with":
            shown.append(tuple(rest))
        else:
            operations.append((line, {}))
    return operations, bays


def wanted_lines(pair):
    for key in pair.keys:
        for closes, name in ((False, "open"), (True, "close")):
            yield key, closes, f"{name} {key[0]}"


def shown_faults(pair, key, closes, word, changes):
    """What is wrong with the positions that are shown of an operation."""
    order = [f"{change} {rule}" for change in ("stricter", "looser") for rule in RULES]
    if list(changes) != [line for line in order if line in changes]:
        yield "its changes stand in another order"
    places, isolated = {k[0]: k for k in pair.keys}, []
    for change, shown in changes.items():
        closed = {places[path] for _, path in shown if path in places}
        if shown != [(pair.side(k), k[0]) for k in pair.keys if k in closed and k != key]:
            yield f"{change}: a switch is not named as it should be"
        if pair.change(key, closes, closed) != change:
            yield f"{change}: the position does not show it"
        isolated.append(pair.is_isolated(closed))
    if word != ("changed" if any(isolated) else "kept" if changes else "same"):
        yield f"its word is {word}"


def missing(pair, key, closes, changes, chance):
    """A change that a random position shows and the text has not, or that an isolated one shows where none is shown."""
    for count in range(TRIES):
        share, among = chance.random(), sorted(pair.both if count % 2 else pair.keys)
        closed = {k for k in among if chance.random() < share}
        change = pair.change(key, closes, closed)
        if change is None:
            continue
        if change not in changes:
            return f"{change} is missing, as in {sorted(path for path, _ in closed)}"
        shown = {k for k in pair.keys if k[0] in {path for _, path in changes[change]}}
        if pair.is_isolated(closed) and not pair.is_isolated(shown):
            return f"{change}: an isolated position shows it, {sorted(path for path, _ in closed)}"
    return None


def faults(old_file, new_file, text):
    """What is wrong with a text of `compare` by the definitions."""
    pair, chance = Pair(old_file, new_file), random.Random(7)
    operations, bays = parts_of(text)
    words = {}
    for key, closes, name in wanted_lines(pair):
        line, changes = operations.pop(0) if operations else ("", {})
        word, _, rest = line.partition(" ")
        if rest != name or (key not in pair.both) != (word in ("new", "gone")):
            yield f"'{line}' stands where '{name}' should"
            return
        if key in pair.both:
            words.setdefault(key[0].rsplit("/", 1)[0], []).append(word)
            found = [*shown_faults(pair, key, closes, word, changes), missing(pair, key, closes, changes, chance)]
            yield from (f"{line}: {fault}" for fault in found if fault)
        else:
            words.setdefault(key[0].rsplit("/", 1)[0], [])
            if word != {"new": "new", "old": "gone"}[pair.side(key)]:
                yield f"'{line}' should be said of the other station"
    if operations:
        yield f"the text goes on: {operations[0][0]}"
    for word, path in bays:
        own = words.pop(path, None)
        worst = next((w for w in ("changed", "kept", "same") if own and w in own), None)
        if own is None or word not in ((worst,) if worst else ("new", "gone")):
            yield f"bay {path} is called {word}"
    yield from (f"bay {path} is missing" for path in words)


if __name__ == "__main__":
    if len(sys.argv) != 4:
        sys.exit(__doc__)
    with open(sys.argv[3]) as file:
        wrong = list(faults(sys.argv[1], sys.argv[2], file.read()))
    print("\n".join(wrong) if wrong else "as the definitions say")
    sys.exit(1 if wrong else 0)
