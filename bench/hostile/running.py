"""Runs the program many times over, at little cost beside its own.

With `subprocess` most of a short run is the making of pipes and of a process. Here the streams of all runs are three
files in memory that are made once, the files are in memory too, and a run is one `posix_spawn`.
"""
import contextlib
import os
import select
import signal
import tempfile
from typing import NamedTuple, Optional


class Ended(NamedTuple):
    """How a run ended: its status (below 0 where a signal ended it, none where it did not end in time), what it wrote,
    and how many seconds of a processor it took."""
    status: Optional[int]
    out: bytes
    err: bytes
    seconds: float


class Runner:
    """Starts a program in the current folder, over and over."""

    def __init__(self, program, seconds, streams):
        self.program, self.seconds, self.streams = program, seconds, streams
        self.actions = [(os.POSIX_SPAWN_DUP2, stream, place) for place, stream in enumerate(streams)]

    def run(self, words, given=b"", env=None):
        """One run with these words, which may be text or bytes, and this input."""
        for stream, text in zip(self.streams, (given, b"", b"")):
            os.ftruncate(stream, 0)
            os.pwrite(stream, text, 0)
            os.lseek(stream, 0, os.SEEK_SET)
        child = os.posix_spawn(self.program, [self.program, *words], env or {}, file_actions=self.actions)
        status, seconds = self.end_of(child)
        return Ended(status, self.written(1), self.written(2), seconds)

    def end_of(self, child):
        """The status of a child, which is killed where it does not end in time, and the seconds that it took."""
        handle = os.pidfd_open(child)
        ended = select.select([handle], [], [], self.seconds)[0]
        os.close(handle)
        if not ended:
            os.kill(child, signal.SIGKILL)
        _, status, usage = os.wait4(child, 0)
        return os.waitstatus_to_exitcode(status) if ended else None, usage.ru_utime + usage.ru_stime

    def written(self, place):
        """All that stands in a stream."""
        return os.pread(self.streams[place], os.fstat(self.streams[place]).st_size, 0)


@contextlib.contextmanager
def runner(program, seconds):
    """A runner in a folder of its own, which becomes the current one, and goes at the end. It is in memory where there
    is a place for that."""
    streams = [os.memfd_create(name) for name in ("input", "output", "errors")]
    place = "/dev/shm" if os.path.isdir("/dev/shm") else None
    with tempfile.TemporaryDirectory(prefix="hostile-", dir=place) as folder:
        os.chdir(folder)
        try:
            yield Runner(os.path.realpath(program), seconds, streams)
        finally:
            for stream in streams:
                os.close(stream)


def lay(files):
    """Puts these files, and no others, into the current folder."""
    for name in os.listdir():
        os.unlink(name)
    for name, text in files.items():
        with open(name, "wb", buffering=0) as file:
            file.write(text)
