"""Makes the module of `tools/desk`: the proved library page_judge as WebAssembly.

The kit proves and builds crates for wasm64 only where they do without a heap. So `rt lib` proves the library and those
below it, and the LLVM module that the kit's build hands to its clang is kept on the way: the build is given a folder of
tools whose clang keeps what it is given. In the text of that module the target and the data layout become those of wasm64
(pointers and integers have the same sizes and places in both), and the attributes of x86-64 are dropped; inline assembly,
intrinsics of one processor and an unknown layout end it. The kit's clang and linker make the module of it and of
desk_page/heap.c. That the module does what the proved code does is tested, and not proved.
"""
import hashlib
import os
import pathlib
import re
import shutil
import subprocess
import sys
import tempfile

import repository

HERE = pathlib.Path(__file__).resolve().parent
CRATE = "page_judge"
FOLDER = repository.TOP / "crates" / CRATE
MODULE = FOLDER / "out/page_judge.wasm"
SUMS = FOLDER / "out/page_judge.sums"
HEAP = HERE / "desk_page/heap.c"
EXPORTS = ("page_open", "page_check", "page_state", "page_explain", "page_why", "page_order", "page_close", "desk_alloc", "desk_free")
WASM = ["--target=wasm64-unknown-unknown", "-mcpu=lime1", "-mllvm", "-expand-div-rem-bits=64", "-mllvm",
        "-expand-fp-convert-bits=64", "--no-default-config", "-ffunction-sections", "-fdata-sections", "-mllvm",
        "-trap-unreachable"]
X86_LAYOUT = "e-m:e-p270:32:32-p271:32:32-p272:64:64-i64:64-i128:128-f80:128-n8:16:32:64-S128"
WASM_LAYOUT = "e-m:e-p:64:64-p10:8:8-p20:8:8-i64:64-i128:128-n32:64-S128-ni:1:10:20"
MACHINE = re.compile(r' ?(sanitize_address|"(frame-pointer|probe-stack|stack-probe-size|target-cpu|target-features|tune-cpu)"="[^"]*")')
FOREIGN = re.compile(r"@llvm\.x86\.| asm |x86_fp80|thread_local|musttail")


def kit():
    """The kit's folder."""
    if shutil.which("rt") is None:
        sys.exit("desk: the module is made by the kit (the command rt), which is not on the path")
    return pathlib.Path(subprocess.run(["rt", "doc"], capture_output=True, text=True, check=True).stdout.strip()).parent


def run(*words, **more):
    done = subprocess.run(list(map(str, words)), stdout=subprocess.PIPE, stderr=subprocess.STDOUT, text=True, **more)
    if done.returncode != 0:
        sys.exit(f"desk: {words[0]} ended with status {done.returncode}\n{done.stdout[-3000:]}")
    return done.stdout


def sums():
    """The sums of all that the module is made of."""
    found = repository.sums(repository.crates(), CRATE)
    for file in (HEAP, pathlib.Path(__file__)):
        found[str(file.relative_to(repository.TOP))] = hashlib.sha256(file.read_bytes()).hexdigest()
    return found


def sum_of(found):
    return hashlib.sha256("".join(f"{value}  {name}\n" for name, value in sorted(found.items())).encode()).hexdigest()


def library_words(kit, crates, folder=repository.TOP / "crates"):
    """The libraries of this repository and of the kit, as a build of the crate is told of them."""
    below = [name for name in repository.standing_below(crates, CRATE) if name != CRATE]
    of_kit = ["std", *(name for name in crates[CRATE].line.split(":")[1].split() if name not in crates)]
    words = ["-L", f"dependency={kit}/rlibs", *(word for name in of_kit for word in ("--extern", f"{name}={kit}/rlibs/{name}.rlib"))]
    for name in below:
        rlib = folder / name / "out/rlib" / f"{name}.rlib"
        words += ["-L", f"dependency={rlib.parent}"]
        if name in crates[CRATE].below:
            words += ["--extern", f"{name}={rlib}"]
    return words


def lowered(kit, libraries, room):
    """The LLVM module of the proved library, and the line of the verdict. Nothing is lowered that is not proved."""
    tools = room / "toolchain"
    (tools / "bin").mkdir(parents=True)
    (tools / "lib").symlink_to(kit / "toolchain/lib")
    for name in ("ld.lld", "llvm-ar", "rattle-x64"):
        (tools / "bin" / name).symlink_to(kit / "toolchain/bin" / name)
    clang = tools / "bin/clang"
    clang.write_text(f'#!/bin/sh\n[ -f module.bc ] && cp module.bc "{room}/built.bc"\nexec "{kit}/toolchain/bin/clang" "$@"\n')
    clang.chmod(0o755)
    (room / "work").mkdir()
    kept = FOLDER / "out/incremental"
    said = run(kit / "bin/rattle", "build", "--crate-name", CRATE, "src/lib.rt", "--crate-type", "staticlib",
               *libraries,
               "--antt-project", kit / "rattle/logic/antt-project.json", "--logic-built", kit / "logic_built",
               "--links", f"{CRATE}=", "--jobs", "1", *(["--incremental", kept] if kept.is_dir() else []),
               "--toolchain", tools, "-o", room / "library.a", cwd=FOLDER)
    verdict = [line for line in said.splitlines() if line.startswith("logic=proved")]
    if not verdict or not (room / "built.bc").exists():
        sys.exit(f"desk: the build kept no module\n{said[-3000:]}")
    return room / "built.bc", verdict[-1]


def retargeted(source, target):
    """The text of the module, for wasm64."""
    with open(source, encoding="latin-1") as lines, open(target, "w", encoding="latin-1") as out:
        for line in lines:
            if line.startswith("target datalayout"):
                if X86_LAYOUT not in line:
                    sys.exit(f"desk: another data layout than was looked at: {line}")
                line = f'target datalayout = "{WASM_LAYOUT}"\n'
            elif line.startswith("target triple"):
                line = 'target triple = "wasm64-unknown-unknown"\n'
            elif line.startswith("attributes #"):
                line = re.sub(r"\{ +\}", "{ nounwind }", MACHINE.sub("", line))
            elif FOREIGN.search(line):
                sys.exit(f"desk: of one processor alone: {line}")
            out.write(line)


def linked(kit, built, wasm, room):
    """The module of the kept LLVM module and of the heap."""
    clang = kit / "toolchain/bin/clang"
    run(clang, "--target=x86_64-unknown-linux-gnu", "-x", "ir", "-S", "-emit-llvm", "-Xclang", "-disable-llvm-passes",
        "-O0", "-o", room / "built.ll", built)
    retargeted(room / "built.ll", room / "module.ll")
    run(clang, *WASM, "-O3", "-x", "ir", "-c", room / "module.ll", "-o", room / "module.o")
    run(clang, *WASM, "-O2", "-fwrapv", "-ffreestanding", "-fno-builtin", "-nostdinc", "-c", HEAP, "-o", room / "heap.o")
    run(kit / "toolchain/bin/ld.lld", "-flavor", "wasm", "-mwasm64", "--no-entry", *(f"--export={name}" for name in EXPORTS),
        "--stack-first", "-z", "stack-size=8388608", "--gc-sections", "--strip-all", "--threads=1", "-o", wasm,
        room / "module.o", room / "heap.o")


def made():
    """The module, made where none stands that was made of the sources as they are, and what the page's foot says of it."""
    if CRATE not in repository.crates():
        sys.exit(f"desk: there is no crate {CRATE}, of which the module is made; --serve needs none")
    found = sums()
    head = f"sources {sum_of(found)}\n"
    if MODULE.exists() and SUMS.exists():
        text = SUMS.read_text()
        if text.startswith(head) and f"module {hashlib.sha256(MODULE.read_bytes()).hexdigest()}\n" in text:
            return MODULE, text
    print("desk: the module is proved and made first; from nothing that takes an hour or so", file=sys.stderr, flush=True)
    run("rt", "lib", cwd=FOLDER)
    with tempfile.TemporaryDirectory() as folder:
        place, room = kit(), pathlib.Path(folder)
        built, verdict = lowered(place, library_words(place, repository.crates()), room)
        linked(place, built, room / "page_judge.wasm", room)
        shutil.copy(room / "page_judge.wasm", MODULE)
    line = run("rt", "version").strip()
    SUMS.write_text(f"{head}module {hashlib.sha256(MODULE.read_bytes()).hexdigest()}\n{verdict}\nkit {line}\n")
    return MODULE, SUMS.read_text()
