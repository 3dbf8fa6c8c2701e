"""What crates.txt and the folders of crates/ say: which crate stands on which, and what each is made of."""
import hashlib
import os
import pathlib
from typing import NamedTuple

TOP = pathlib.Path(__file__).resolve().parents[1]
FOLDERS = ("src", "specs", "proofs")


class Crate(NamedTuple):
    name: str
    line: str
    # the crates of this repository that it names, and not those of the kit
    below: tuple


def crates(text=None):
    """The crates by name, in the order of crates.txt."""
    lines = (TOP / "crates.txt").read_text() if text is None else text
    rows = {}
    for line in lines.splitlines():
        head, colon, rest = line.split("#")[0].partition(":")
        if colon:
            rows[head.split()[0]] = (line.strip(), rest.split())
    return {name: Crate(name, line, tuple(n for n in named if n in rows)) for name, (line, named) in rows.items()}


def standing_below(all_crates, name):
    """The crate and all on which it stands, each after those on which it stands itself."""
    found = {}

    def visit(crate):
        if crate not in found:
            for one in all_crates[crate].below:
                visit(one)
            found[crate] = all_crates[crate]

    visit(name)
    return found


def walked(folder):
    """The .rt and .antt files of a folder and those in it, as paths from the top."""
    try:
        with os.scandir(f"{TOP}/{folder}") as entries:
            found = [(entry.name, entry.is_dir()) for entry in entries]
    except FileNotFoundError:
        return
    for name, is_folder in found:
        if is_folder:
            yield from walked(f"{folder}/{name}")
        elif name.endswith((".rt", ".antt")):
            yield f"{folder}/{name}"


def sources(name):
    """The code, definitions and proofs of a crate, as paths from the top."""
    return [path for folder in FOLDERS for path in walked(f"crates/{name}/{folder}")]


def digest(path):
    """The SHA-256 sum of a file, as a path from the top."""
    with open(f"{TOP}/{path}", "rb", buffering=0) as file:
        return hashlib.sha256(file.read()).hexdigest()


def sums(all_crates, name):
    """The SHA-256 sums of what a crate is made of, with the crates below it: each source, and the lines of crates.txt."""
    chain = standing_below(all_crates, name)
    lines = "".join(crate.line + "\n" for crate in sorted(chain.values()))
    found = {"lines of crates.txt": hashlib.sha256(lines.encode()).hexdigest()}
    for crate in chain:
        for source in sources(crate):
            found[source] = digest(source)
    return found
