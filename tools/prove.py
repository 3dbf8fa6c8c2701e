"""Proves the crates below a program, several at once, and builds the program.

Each crate is proved by the kit's prover, over what the crates below it state: the one with the longest way to the
program first, in seconds that its last proof took, or that its lines let expect. A crate has one process, since more of
them take up to twice the seconds of a processor; only where fewer crates can be begun than lanes are free, the first of
them has the lanes that are left over. What was proved is kept beside the program, with a sum of the crate, of those
below it and of the kit, so that the next run proves only what was changed and what stands on it. A process takes up to
2.2 GB.
"""
import concurrent.futures
import functools
import hashlib
import os
import pathlib
import re
import shutil
import subprocess
import time

import repository

LANE, BESIDE = 2200, 2000
TARGET = "x86_64-unknown-linux-gnu"
# seconds of a processor for a crate, and for a line in each of its folders, as they were measured at 2.5 GHz
CRATE_SECONDS = 8
LINE_SECONDS = {"src": 0.1, "specs": 0.005, "proofs": 0.02}


def free_megabytes():
    """What Linux says is available, and no more than the limit of the group."""
    megabytes = 1 << 40
    found = re.search(r"^MemAvailable:\s+(\d+)", pathlib.Path("/proc/meminfo").read_text(), re.M)
    if found:
        megabytes = int(found.group(1)) // 1024
    for limit in ("memory.max", "memory/memory.limit_in_bytes"):
        file = pathlib.Path("/sys/fs/cgroup", limit)
        text = file.read_text().strip() if file.exists() else ""
        if text.isdigit():
            megabytes = min(megabytes, int(text) >> 20)
    return megabytes


def lane_count():
    """As many lanes as processors, and fewer where memory is short."""
    return max(1, min(len(os.sched_getaffinity(0)), (free_megabytes() - BESIDE) // LANE))


class Prover:
    """The kit's prover, with a folder for what it made of the crates."""

    def __init__(self, crates, kept):
        self.crates, self.kept = crates, kept
        guide = subprocess.run(["rt", "doc"], capture_output=True, text=True, check=True).stdout.strip()
        self.kit = pathlib.Path(guide).parent
        self.version = subprocess.run(["rt", "version"], capture_output=True, text=True, check=True).stdout

    def folder(self, name):
        return repository.TOP / "crates" / name

    def is_program(self, name):
        return (self.folder(name) / "src/main.rt").exists()

    @functools.lru_cache(None)
    def sum_of(self, name):
        """A sum of the crate as it stood when it was first asked for, of those below it and of the kit."""
        return self.sum_now(name)

    def sum_now(self, name):
        """The same of the crate as it stands now."""
        crate = self.crates[name]
        parts = [self.version, crate.line, *(self.sum_of(below) for below in crate.below)]
        parts += [word for source in repository.sources(name) for word in (source, repository.digest(source))]
        return hashlib.sha256("\n".join(parts).encode()).hexdigest()

    @functools.lru_cache(None)
    def is_kept(self, name):
        """Whether the crate and those below it stand as they were proved."""
        file = self.kept / f"{name}.sum"
        is_noted = file.exists() and file.read_text() == self.sum_of(name) and (self.kept / f"{name}.rlib").is_dir()
        return is_noted and all(map(self.is_kept, self.crates[name].below))

    def words(self, name, jobs):
        """What the prover is to read of this crate: its root, the libraries that it names, and the folders of others."""
        named = self.crates[name].line.partition(":")[2].split()
        of_kit = ["std", *(it for it in named if it not in self.crates)]
        words = ["--crate-name", name, "src/main.rt" if self.is_program(name) else "src/lib.rt"]
        words += [word for it in of_kit for word in ("--extern", f"{it}={self.kit}/rlibs/{it}.rlib")]
        words += [word for it in self.crates[name].below for word in ("--extern", f"{it}={self.kept}/{it}.rlib")]
        words += ["-L", f"dependency={self.kit}/rlibs", "-L", f"dependency={self.kept}"]
        words += ["--antt-project", f"{self.kit}/rattle/logic/antt-project.json"]
        return [*words, "--logic-built", f"{self.kit}/logic_built", "--jobs", str(jobs), "--links", f"{name}="]

    def seconds(self, names):
        """For each crate the seconds of a processor that its last proof took, or that its lines let expect."""
        kept = {name: self.kept / f"{name}.seconds" for name in names}
        noted = {name: file.read_text() for name, file in kept.items() if file.exists()}
        took = {name: float(text) for name, text in noted.items() if re.fullmatch(r"\d+\.\d", text)}
        likely = {name: likely_seconds(name) for name in names}
        pace = sum(took.values()) / sum(likely[name] for name in took) if took else 1
        return {name: took.get(name, pace * likely[name]) for name in names}

    def call(self, name, *words):
        """Runs a tool of the kit in the crate's folder: its status, what it said, and the seconds of a processor."""
        whole = [f"{self.kit}/bin/{words[0]}", *map(str, words[1:])]
        with subprocess.Popen(whole, cwd=self.folder(name), stdin=subprocess.DEVNULL, stdout=subprocess.PIPE,
                              stderr=subprocess.STDOUT, text=True, errors="replace") as running:
            said = running.stdout.read()
            _, status, used = os.wait4(running.pid, 0)
            running.returncode = os.waitstatus_to_exitcode(status)
        return running.returncode, said, used.ru_utime + used.ru_stime

    def prove(self, name, jobs):
        """Proves a library and keeps what it states, or proves and builds a program: the status, and what was said."""
        if self.is_program(name):
            return self.build(name, jobs)
        made, noted = self.kept / f"{name}.rlib", self.kept / f"{name}.sum"
        noted.unlink(missing_ok=True)
        shutil.rmtree(made, ignore_errors=True)
        status, said, seconds = self.call(name, "rattle", "build", *self.words(name, jobs), "--statements", "-o", made)
        if status == 0 and self.sum_now(name) != self.sum_of(name):
            return 1, "a source was changed while it was read: prove again"
        if status == 0:
            noted.write_text(self.sum_of(name))
            (self.kept / f"{name}.seconds").write_text(f"{seconds:.1f}")
        return status, said

    def build(self, name, jobs):
        toolchain = ("--toolchain", self.kit / "toolchain")
        made, program = self.kept / f"{name}.o", self.folder(name) / "out" / name
        status, said, _ = self.call(name, "rattle", "build", *self.words(name, jobs), *toolchain, "--backend", "llvm",
                                    "-o", made)
        if status == 0:
            libraries = [self.kit / "c" / it for it in ("libos_c.a", "liblibc_c.a")]
            status, more, _ = self.call(name, "rattle-link", "--target", TARGET, *toolchain, "-o", program, made,
                                        *libraries)
            said += more
        made.unlink(missing_ok=True)
        return status, said


def likely_seconds(name):
    """The seconds of a processor that the proof of a crate is likely to take, by its lines."""
    lines = {folder: sum((repository.TOP / it).read_bytes().count(b"\n")
                         for it in repository.walked(f"crates/{name}/{folder}")) for folder in LINE_SECONDS}
    return CRATE_SECONDS + sum(LINE_SECONDS[folder] * count for folder, count in lines.items())


def ways(crates, seconds):
    """For each crate the seconds on the longest way from it up to the program; each stands after those below it."""
    found = {}
    for name in reversed(seconds):
        found[name] = seconds[name] + max((found[it] for it in found if name in crates[it].below), default=0)
    return found


def tell(name, status, said, say, start):
    """Says that the crate is proved, or the lines that tell why it is not; the crate's name where it is not."""
    if status == 0:
        say(f"{name} is proved, after {(time.monotonic() - start) / 60:.1f} minutes")
        return []
    lines = [line for line in said.splitlines() if re.search(r"error|not proved|no proof", line)]
    say("\n".join([f"{name} is not proved (status {status})", *(lines or said.splitlines()[-20:])]))
    return [name]


def in_lanes(prover, names, say):
    """Proves the crates, lowest first and side by side; whether all are proved."""
    way, lanes, start = ways(prover.crates, prover.seconds(names)), lane_count(), time.monotonic()
    left = [name for name in sorted(names, key=way.get, reverse=True) if not prover.is_kept(name)]
    say(f"proving {len(left)} of {len(names)} crates, {lanes} processors")
    running, failed = {}, []
    with concurrent.futures.ThreadPoolExecutor(lanes) as pool:
        while running or (left and not failed):
            unproved = {*left, *(name for name, _ in running.values())}
            ready = [] if failed else [it for it in left if not unproved.intersection(prover.crates[it].below)]
            free = lanes - sum(jobs for _, jobs in running.values())
            spare = max(0, free - len(ready))
            for name in ready[:free]:
                left.remove(name)
                running[pool.submit(prover.prove, name, 1 + spare)] = name, 1 + spare
                spare = 0
            done, _ = concurrent.futures.wait(running, return_when=concurrent.futures.FIRST_COMPLETED)
            for one in done:
                name, _ = running.pop(one)
                failed += tell(name, *one.result(), say, start)
    return not failed


def prove(program, words, say):
    """Proves a program and the crates below it, builds it, and runs it with the words: its status."""
    crates = repository.crates()
    names = list(repository.standing_below(crates, program))
    kept = repository.TOP / "crates" / program / "out" / "proved"
    kept.mkdir(parents=True, exist_ok=True)
    if not in_lanes(Prover(crates, kept), names, say):
        return 1
    return subprocess.run([repository.TOP / "crates" / program / "out" / program, *words],
                          stdin=subprocess.DEVNULL, stdout=subprocess.DEVNULL).returncode
