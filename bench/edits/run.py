#!/usr/bin/env python3
"""Tries must-fail edits that the gate leaves out: wrong bodies of public calls, each of which the prover must refuse.

    bench/edits/run.py --find
    bench/edits/run.py [NAME..]

Beside this script stand the edits of each crate in a folder of its name, in the form of those in must-fail/. An edit costs
a check of its crate, so the gate tries those that tell most, and these are tried when the crate or what it stands on was
changed. For each crate that is named, or for all that have such edits, this puts them beside those in its must-fail/ for
as long as `rt must-fail` runs, so that all of its edits are tried; the libraries below are proved first, where nothing is
kept of them. With --find no edit is tried: each `old:` text of every edit, here and in must-fail/, must stand exactly once
in its file, which takes a second. The status is 1 where an edit is not refused, or does not find its text.
"""
import contextlib
import pathlib
import shutil
import subprocess
import sys

HERE = pathlib.Path(__file__).resolve().parent
TOP = HERE.parents[1]


def edits_in(folder):
    return sorted(folder.glob("*.edit"))


def left_out():
    """The folders of edits that the gate leaves out, by the crate's name."""
    return {folder.name: folder for folder in sorted(HERE.iterdir()) if folder.is_dir() and edits_in(folder)}


# ---- whether each edit finds its text

def changes(edit):
    """The changes of an edit: the file, the old text and the new one of each."""
    file = old = None
    for line in edit.read_text().split("\n"):
        if line.startswith("file: "):
            file = line.removeprefix("file: ").strip()
        elif line.startswith("old: "):
            old = line.removeprefix("old: ")
        elif line.startswith("new:"):
            yield file, old, line.removeprefix("new:").removeprefix(" ")


def faults_of(edit, crate):
    """What keeps the edit from being applied to its crate; nothing where it can be."""
    texts = {}
    for file, old, new in changes(edit):
        text = texts.get(file)
        if text is None:
            path = crate / str(file)
            text = path.read_text() if path.is_file() else ""
        if old is None or text.count(old) != 1:
            yield f"{edit.relative_to(TOP)}: its text stands {text.count(old or '')} times in {file}: {old}"
        texts[file] = text.replace(old or "", new, 1)
    if not texts:
        yield f"{edit.relative_to(TOP)}: it changes nothing"


def find_all():
    """Looks for the text of every edit; the status."""
    crates = sorted(path for path in (TOP / "crates").iterdir() if (path / "src").is_dir())
    edits = [(edit, crate) for crate in crates for folder in (crate / "must-fail", HERE / crate.name)
             for edit in edits_in(folder)]
    faults = [fault for edit, crate in edits for fault in faults_of(edit, crate)]
    faults += [f"{name}: there is no such crate" for name in left_out() if not (TOP / "crates" / name / "src").is_dir()]
    for fault in faults:
        print(fault)
    print(f"{len(edits)} edits, {len(faults)} faults")
    return 1 if faults else 0


# ---- whether each edit is refused

@contextlib.contextmanager
def put_in(names):
    """Puts the edits of these crates into must-fail/, and takes them out again."""
    put = []
    try:
        for name in names:
            folder = TOP / "crates" / name / "must-fail"
            folder.mkdir(exist_ok=True)
            for edit in edits_in(HERE / name):
                to = folder / edit.name
                if to.exists():
                    sys.exit(f"{to.relative_to(TOP)} stands there already")
                shutil.copyfile(edit, to)
                put.append(to)
        yield
    finally:
        for file in put:
            file.unlink(missing_ok=True)
        for folder in {file.parent for file in put}:
            with contextlib.suppress(OSError):
                folder.rmdir()


def try_all(names):
    """Tries the edits of these crates; the status."""
    with put_in(names):
        return subprocess.run(["rt", "must-fail", *names], cwd=TOP, stdin=subprocess.DEVNULL).returncode


def main(words):
    if "-h" in words or "--help" in words:
        sys.exit(__doc__.strip())
    if words == ["--find"]:
        return find_all()
    known = left_out()
    unknown = [name for name in words if name not in known]
    if unknown:
        sys.exit(f"no edits that the gate leaves out: {', '.join(unknown)}")
    return try_all(words or list(known))


if __name__ == "__main__":
    sys.exit(main(sys.argv[1:]))
