#!/usr/bin/env python3
"""A stored session, stopped at each call of its device in turn.

    examples/stored_stops.py [PROGRAM]

Runs `interlock stored two_feeders.ssd S/V1/Q1 FILE` over a file, on Linux, as a process of which each system call on the
file is seen (ptrace). At each of them in turn the process is killed before the call is done. Then the files are looked at
that a crash of the machine may leave: each write since the last sync that was done, and the one that was stopped, is there
whole, not at all, with any front of its bytes, with any tail, or with other bytes in their place; and where the file's new
name was not on the disk yet, it may be missing. They are looked at by the rules of docs/FORMATS.md and not by the program:
each must stand for the record after some number of the lines, and for no fewer than those of whose text a byte was
written. The session is then run again over the rest of the lines, and must write what `node` writes from that record.
All of this twice: with all lines in the input together, of which one record is put, and with each line in a read of its
own (a pipe of packets), of which each is put and answered alone.

The records are those that `node` hands out as `keep` lines. At last the same is looked at as if no sync of the file, and
then as if none of its folder, had been made: each of the two must be seen to leave a wrong file. The status is 0 where
all agrees.
"""
import ctypes
import itertools
import os
import pathlib
import random
import signal
import subprocess
import sys
import tempfile

TOP = pathlib.Path(__file__).resolve().parents[1]
STATION = TOP / "examples/two_feeders.ssd"
BAY = "S/V1/Q1"
LINES = [
    "sense off S/V1/Q1/QB1", "sense off S/V1/Q1/QA1", "sense on S/V1/Q1/QB9", "sense off S/V1/Q1/QC9",
    "sense off S/V1/Q1/E1", "command close S/V1/Q1/QB1", "frame 02020100000001000104", "sense on S/V1/Q1/QB1",
    "command open S/V1/Q1/QB1", "withdraw", "tick", "restart",
]
SIZE, SLOT, RECORD = 64, 32, 18
EMPTY = bytes(RECORD)

TRACEME, SYSCALL, SET_OPTIONS, SYSCALL_INFO = 0, 24, 0x4200, 0x420E
SEES_SYSCALLS, KILLS_WITH_ITS_PARENT, AT_ENTRY = 1, 0x100000, 1
# the numbers of the calls that write, sync and rename
WRITES = {"x86_64": (1,), "aarch64": (64,), "riscv64": (64,)}
SYNCS = {"x86_64": (74, 75), "aarch64": (82, 83), "riscv64": (82, 83)}
RENAMES = {"x86_64": (82, 264, 316), "aarch64": (38, 276), "riscv64": (276,)}


class Info(ctypes.Structure):
    """what PTRACE_GET_SYSCALL_INFO tells at the entry of a call"""
    _fields_ = [("op", ctypes.c_uint8), ("pad", ctypes.c_uint8 * 3), ("arch", ctypes.c_uint32),
                ("instruction", ctypes.c_uint64), ("stack", ctypes.c_uint64), ("number", ctypes.c_uint64),
                ("args", ctypes.c_uint64 * 6), ("more", ctypes.c_uint64 * 2)]


libc = ctypes.CDLL(None, use_errno=True)
libc.ptrace.argtypes = [ctypes.c_ulong, ctypes.c_ulong, ctypes.c_void_p, ctypes.c_void_p]
libc.ptrace.restype = ctypes.c_long


def ptrace(request, process, first=0, second=0):
    answer = libc.ptrace(request, process, first, second)
    if answer < 0:
        raise OSError(ctypes.get_errno(), "ptrace")
    return answer


def program():
    built = pathlib.Path(sys.argv[1]) if len(sys.argv) > 1 else TOP / "crates/interlock/out/interlock"
    if not built.exists():
        sys.exit("the program is not built: ./interlock --prove")
    return str(built.resolve())


def run(words, lines):
    """status and text of a run that nothing stops"""
    given = "".join(line + "\n" for line in lines).encode()
    done = subprocess.run([program(), *words], input=given, capture_output=True)
    return done.returncode, done.stdout.decode().splitlines()


def called(info, numbers):
    return info.number in numbers[os.uname().machine]


def at_device(process, name, info):
    """what the call is on: `file`, the file that is open; `new`, the one that is made where it is missing; `folder`"""
    if called(info, RENAMES):
        return "name"
    try:
        path = os.readlink(f"/proc/{process}/fd/{info.args[0]}")
    except OSError:
        return None
    return {name: "file", name + ".new": "new", os.path.dirname(name): "folder"}.get(path)


class Disk:
    """What a crash may leave of the file: what was there at its last sync, the writes since, and whether its name is on
    the disk. `syncs` and `names` say whether a sync of the file, and of its folder, counts."""

    def __init__(self, image, syncs, names):
        self.image, self.named, self.syncs, self.names = image, image is not None, syncs, names
        self.writes = []

    def done(self, kind, info, write):
        """after a call that was done"""
        if write and kind == "file":
            self.writes.append(write)
        elif called(info, RENAMES):
            # it is renamed whole: the file beside was synced
            self.image = bytes(SIZE)
        elif called(info, SYNCS) and kind == "folder" and self.names:
            self.named = self.image is not None
        elif called(info, SYNCS) and kind == "file" and self.syncs:
            self.image, self.writes = with_all(self.image, self.writes), []


def with_all(image, writes):
    for place, piece in writes:
        image = image[:place] + piece + image[place + len(piece):]
    return image


def input_of(together):
    """a descriptor that gives the lines together, or each in a read of its own"""
    end, given = os.pipe2(0 if together else os.O_DIRECT)
    for piece in ["".join(line + "\n" for line in LINES)] if together else [line + "\n" for line in LINES]:
        os.write(given, piece.encode())
    os.close(given)
    return end


def stopped_run(name, stop, disk, together):
    """Runs a stored session, and kills it before its call of this number on the file is done. Returns how many calls
    were seen, the text that was written, and of a write that was stopped its place and its bytes. What the calls that
    were done leave is kept in `disk`."""
    given, out = input_of(together), tempfile.TemporaryFile()
    process = os.fork()
    if process == 0:
        os.dup2(given, 0)
        os.dup2(out.fileno(), 1)
        libc.ptrace(TRACEME, 0, 0, 0)
        os.execv(program(), [program(), "stored", str(STATION), BAY, name])
    os.close(given)
    os.waitpid(process, 0)
    ptrace(SET_OPTIONS, process, 0, SEES_SYSCALLS | KILLS_WITH_ITS_PARENT)
    calls, entry, torn, handed, open_call = 0, Info(), None, 0, None
    while True:
        ptrace(SYSCALL, process, 0, handed)
        _, status = os.waitpid(process, 0)
        if os.WIFEXITED(status) or os.WIFSIGNALED(status):
            break
        handed = 0
        if os.WSTOPSIG(status) != signal.SIGTRAP | 0x80:
            handed = os.WSTOPSIG(status) if os.WSTOPSIG(status) != signal.SIGTRAP else 0
            continue
        if open_call:
            disk.done(*open_call)
            open_call = None
        entry = Info()
        ptrace(SYSCALL_INFO, process, ctypes.sizeof(entry), ctypes.addressof(entry))
        kind = at_device(process, name, entry) if entry.op == AT_ENTRY else None
        if kind is None:
            continue
        calls += 1
        write = write_of(process, entry) if kind == "file" else None
        if calls == stop:
            torn = write
            os.kill(process, signal.SIGKILL)
            os.waitpid(process, 0)
            break
        open_call = kind, entry, write
    out.seek(0)
    return calls, out.read().decode().splitlines(), torn


def write_of(process, info):
    """place and bytes of a call that writes into the file"""
    if not called(info, WRITES):
        return None
    with open(f"/proc/{process}/fdinfo/{info.args[0]}") as told:
        place = int(told.readline().split()[1])
    with open(f"/proc/{process}/mem", "rb") as memory:
        memory.seek(info.args[1])
        return place, memory.read(info.args[2])


def record_of(image):
    """the record for which an image stands"""
    if len(image) != SIZE:
        raise Wrong(f"an image of {len(image)} bytes")
    newest = None
    for slot in (image[:SLOT], image[SLOT:]):
        number = int.from_bytes(slot[1:9], "big")
        if slot[0] == 1 and (newest is None or number > newest[0]):
            newest = number, slot[9:9 + RECORD]
    return newest[1] if newest else EMPTY


def records():
    """the record after each number of lines, and the text of each line, as `node` tells them"""
    record, told, texts = EMPTY, [EMPTY], []
    before = 0
    for count in range(1, len(LINES) + 1):
        status, text = run(["node", str(STATION), BAY], LINES[:count])
        if status != 0:
            sys.exit(f"node ended with {status}")
        new, before = text[before:], len(text)
        for line in new:
            if line.startswith("keep "):
                record = bytes.fromhex(line[5:])
        told.append(record)
        texts.append([line for line in new if not line.startswith("keep ")])
    return told, texts


def looked_at(image, text, told, texts, where):
    """after how many lines the image stands; no fewer than those that have written something"""
    shown = 0
    answered = 0
    for count, lines in enumerate(texts, 1):
        if lines and len(text) > shown:
            answered = count
        shown += len(lines)
    after = [count for count in range(answered, len(told)) if told[count] == record_of(image)]
    if not after:
        raise Wrong(f"{where}: the image stands for {record_of(image).hex()}, which is no record after {answered} lines or more")
    return after[0]


def resumes(folder, image, count, told, where):
    """the session goes on from the image, over the rest of the lines, as `node` does from the record"""
    file = pathlib.Path(folder, "resumed.bin")
    file.write_bytes(image)
    rest = LINES[count:]
    status, text = run(["stored", str(STATION), BAY, str(file)], rest)
    wanted_status, wanted = run(["node", str(STATION), BAY], ["kept " + told[count].hex(), *rest])
    wanted = [line for line in wanted if not line.startswith("keep ")]
    if (status, text) != (wanted_status, wanted):
        raise Wrong(f"{where}: resumed after {count} lines, it ended with {status} and wrote {text}, not {wanted}")


def parts_of(image, write, chance):
    """the image with a write on it done in part, in each way"""
    place, piece = write
    for count in range(1, len(piece) + 1):
        front = piece[:count] + image[place + count:place + len(piece)]
        tail = image[place:place + len(piece) - count] + piece[len(piece) - count:]
        other = bytes(chance.randrange(256) if chance.randrange(2) else byte for byte in front)
        for name, part in (("a front", front), ("a tail", tail), ("other bytes", other)):
            yield f"{name} of {count} bytes", image[:place] + part + image[place + len(piece):]


def images_of(disk, torn, chance):
    """what a crash may leave: of the writes since the last sync, and the one that was stopped, one torn, and each of
    the others there or not"""
    if not disk.named:
        yield "no name", bytes(SIZE)
    if disk.image is None:
        return
    writes = disk.writes + ([torn] if torn else [])
    yield "nothing since the sync", disk.image
    for number, write in enumerate(writes):
        others = writes[:number] + writes[number + 1:]
        for kept in ([], others, [other for other in others if chance.randrange(2)]):
            image = with_all(disk.image, kept)
            for name, part in parts_of(image, write, chance):
                yield f"write {number + 1} of {len(writes)} since the sync, {name}, with {len(kept)} others", part
            if not others:
                break


def begin(file, is_there):
    """the file as it is before a session: of zeros, or missing"""
    for name in (file, file.with_name(file.name + ".new")):
        name.unlink(missing_ok=True)
    if is_there:
        file.write_bytes(bytes(SIZE))


class Wrong(Exception):
    """a file that a crash may leave, from which the session does not go on rightly"""


def all_stops(folder, is_there, told, texts, together, syncs=True, names=True):
    """stops the session at each call; how many calls and how many images there were"""
    file, chance = pathlib.Path(folder, "q1.bin"), random.Random(1)
    begun = lambda: Disk(bytes(SIZE) if is_there else None, syncs, names)
    begin(file, is_there)
    last, text, _ = stopped_run(str(file), 0, begun(), together)
    wanted = [line for lines in texts for line in lines]
    if text != wanted:
        raise Wrong(f"without a stop it wrote {text}, not {wanted}")
    if record_of(file.read_bytes()) != told[-1]:
        raise Wrong("without a stop the image stands for another record than the last")
    seen = 0
    # from the last call to the first; behind the last the process has ended by itself, and the machine stops then
    for stop in range(last + 1, 0, -1):
        begin(file, is_there)
        disk = begun()
        _, text, torn = stopped_run(str(file), stop, disk, together)
        for name, image in images_of(disk, torn, chance):
            where = f"stopped at call {stop}, {name}"
            count = looked_at(image, text, told, texts, where)
            resumes(folder, image, count, told, where)
            seen += 1
    return last, seen


def is_seen_wrong(folder, told, texts, **without):
    """whether a wrong file is seen where these syncs do not count"""
    try:
        all_stops(folder, False, told, texts, False, **without)
    except Wrong as wrong:
        print(f"without {', '.join(without)}: {wrong}")
        return True
    return False


def main():
    told, texts = records()
    with tempfile.TemporaryDirectory() as made:
        folder = os.path.realpath(made)
        try:
            for is_there, together in itertools.product((True, False), (False, True)):
                calls, seen = all_stops(folder, is_there, told, texts, together)
                start = "a file of zeros" if is_there else "no file"
                came = "together" if together else "one by one"
                print(f"from {start}, lines {came}: {calls} calls on it, {seen} images after a stop; each stands for a "
                      "record, and goes on from it")
        except Wrong as wrong:
            sys.exit(str(wrong))
        if not is_seen_wrong(folder, told, texts, syncs=False) or not is_seen_wrong(folder, told, texts, names=False):
            sys.exit("a sync that is not made is not seen")


if __name__ == "__main__":
    main()
