"""One run of a program for tools/fire: what it is lent, and how it ends."""

import os
import resource
import select
import signal
import subprocess
import time
from dataclasses import dataclass

# No run may take longer, and none may hold more kilobytes at its peak.
MOST_SECONDS, MOST_KILOBYTES = 20, 128 * 1024

# Nor is it given more memory than this, or may write a larger file, for the sake of the machine.
MOST_SPACE, MOST_FILE = 4 << 30, 1 << 30

# What is kept of what a program writes: its first bytes, and its last ones.
HEAD, TAIL = 1 << 20, 1 << 12


class Violation(Exception):
    """A run that broke its promise, in words."""


class Heard:
    """What came from one of a program's outputs."""

    def __init__(self):
        self.bytes = self.lines = 0
        self.head = self.tail = b""

    def take(self, part):
        self.bytes += len(part)
        self.lines += part.count(b"\n")
        self.head += part[:HEAD - len(self.head)]
        self.tail = (self.tail + part[-TAIL:])[-TAIL:]


@dataclass
class Ended:
    """How a run ended."""
    status: int  # the exit status, or the number of a signal below 0
    stopped: bool  # whether it was stopped, since its time was over
    seconds: float
    kilobytes: int
    out: Heard
    err: Heard

    def check(self):
        """The promises of every run."""
        if self.kilobytes > MOST_KILOBYTES:
            raise Violation(f"it held {self.kilobytes} kilobytes")
        if self.stopped:
            raise Violation(f"it was stopped after {self.seconds:.1f} seconds")
        if self.status < 0:
            raise Violation(f"it ended by signal {-self.status}")
        if self.status not in (0, 1, 2):
            raise Violation(f"its exit status is {self.status}")


def lend(how, heard, readers):
    """An output of this kind: `read`, `full`, `closed` (the program closes what it
    is lent before it begins), or `gone`, a pipe that nobody reads."""
    if how in ("full", "closed"):
        return os.open("/dev/full", os.O_WRONLY)
    mine, lent = os.pipe()
    if how == "read":
        readers[mine] = heard
    else:
        os.close(mine)
    return lent


def listen(readers, end):
    """Hears all that is written, until there is no more or the time is over."""
    while readers:
        ready, _, _ = select.select(list(readers), [], [], max(end - time.monotonic(), 0))
        if not ready:
            break
        for fd in ready:
            part = os.read(fd, 1 << 20)
            if part:
                readers[fd].take(part)
            else:
                del readers[fd]
                os.close(fd)
    for fd in readers:
        os.close(fd)


def run(words, folder, stdin="/dev/null", out="read", err="read", seconds=MOST_SECONDS):
    """Runs a program in a folder. `stdin` is a file's name, or `closed`."""
    heard, readers = (Heard(), Heard()), {}
    lent = [lend(how, ear, readers) for how, ear in zip((out, err), heard)]
    shut = [fd for fd, how in enumerate((stdin, out, err)) if how == "closed"]

    def begin():
        for limit, most in ((resource.RLIMIT_AS, MOST_SPACE), (resource.RLIMIT_FSIZE, MOST_FILE),
                            (resource.RLIMIT_CORE, 0)):
            resource.setrlimit(limit, (most, most))
        for fd in shut:
            os.close(fd)

    source = os.open("/dev/null" if stdin == "closed" else stdin, os.O_RDONLY)
    begun = time.monotonic()
    end = begun + seconds
    process = subprocess.Popen(words, cwd=folder, stdin=source, stdout=lent[0],
                               stderr=lent[1], preexec_fn=begin)
    for fd in (source, *lent):
        os.close(fd)
    listen(readers, end)
    stopped = False
    # By `wait4`, which tells the peak of this one child; it is never below what this program holds, which begins it.
    while not (waited := os.wait4(process.pid, os.WNOHANG))[0]:
        if time.monotonic() >= end and not stopped:
            os.kill(process.pid, signal.SIGKILL)
            stopped = True
        time.sleep(0.0005)
    process.returncode = os.waitstatus_to_exitcode(waited[1])
    return Ended(process.returncode, stopped, time.monotonic() - begun,
                 waited[2].ru_maxrss, *heard)
