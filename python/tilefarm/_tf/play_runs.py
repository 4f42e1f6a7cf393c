"""Bounded runs of `tilefarm` for a page: one at a time, each ended after a limit of processor seconds or by the next request."""
import contextlib
import math
import os
import resource
import subprocess
import threading
import time

from . import leaving
from .running import Ended, program
from .text import Refused

SECONDS = 20.0
# how often it is looked how much of the processor a run has taken
PAUSE = 0.05
# where the system does not tell how much memory there is
USUAL_MEMORY = 4 << 30


def half_of_memory() -> int:
    """Half of the bytes of memory that this machine has."""
    try:
        return os.sysconf("SC_PAGE_SIZE") * os.sysconf("SC_PHYS_PAGES") // 2
    except (OSError, ValueError):
        return USUAL_MEMORY


class Stopped(Exception):
    """A run was ended before it was done: `slow` where it took too long, `replaced` where the next request came."""

    def __init__(self, why: str):
        super().__init__(why)
        self.why = why


class Runs:
    """The runs of one page. A request takes a turn, which ends the turn before it. A run that wants more bytes of memory than it may
    have is refused them, and says so."""

    def __init__(self, seconds: float = SECONDS, memory: int | None = None):
        self.seconds, self.memory = seconds, half_of_memory() if memory is None else memory
        self.guard, self.alone = threading.Lock(), threading.Lock()
        self.now: Turn | None = None

    def turn(self) -> "Turn":
        """A new turn, in the place of the one before."""
        with self.guard:
            before, self.now = self.now, Turn(self)
        if before:
            before.end()
        return self.now

    def end(self) -> None:
        """Ends what runs."""
        self.turn().end()


class Turn:
    """What one request runs: several processes, one after the other, which share the limit of processor seconds. On a machine that does
    other work a run takes longer by the clock, and is not ended sooner."""

    def __init__(self, runs: Runs):
        self.runs, self.is_over, self.guard = runs, False, threading.Lock()
        self.process: subprocess.Popen[bytes] | None = None
        self.left = runs.seconds

    def end(self) -> None:
        """Ends this turn and its process; what it runs from now on is refused."""
        with self.guard:
            self.is_over = True
            if self.process:
                self.process.kill()

    def run(self, words: list[str], data: bytes) -> Ended:
        """Runs the program with these words on these bytes."""
        with self.runs.alone, leaving.nameless_file() as stdin, leaving.nameless_file() as stdout:
            stdin.write(data)
            stdin.seek(0)
            began = time.perf_counter()
            status = self.waited(self.started([program(), *words], stdin, stdout))
            seconds = time.perf_counter() - began
            stdout.seek(0)
            return Ended(status, stdout.read(), seconds)

    def started(self, words: list[str], stdin, stdout) -> "subprocess.Popen[bytes]":
        with self.guard:
            if self.is_over:
                raise Stopped("replaced")
            try:
                self.process = leaving.start(words, stdin=stdin, stdout=stdout)
            except OSError as error:
                raise Refused(f"{words[0]} does not start: {error.strerror}", 4) from error
            bound(self.process.pid, self.runs.memory, math.ceil(self.left) + 1)
            return self.process

    def waited(self, process: "subprocess.Popen[bytes]") -> int:
        """The status of a process that ended by itself."""
        try:
            status = self.watched(process)
        finally:
            process.kill()
            process.wait()
            leaving.forget(process)
            with self.guard:
                self.process = None
        if self.is_over:
            raise Stopped("replaced")
        return status if status >= 0 else 128 - status

    def watched(self, process: "subprocess.Popen[bytes]") -> int:
        """The status of a process that ends before the limit."""
        taken = 0.0
        while True:
            try:
                status = process.wait(PAUSE)
            except subprocess.TimeoutExpired:
                taken = processor_seconds(process.pid)
                if taken > self.left:
                    raise Stopped("slow") from None
            else:
                self.left -= taken
                return status


def processor_seconds(process: int) -> float:
    """What a process has taken of all processors, by the clock that Linux has of it; a process that has ended takes no more."""
    try:
        return time.clock_gettime((~process << 3) | 2)
    except OSError:
        return 0.0


def bound(process: int, memory: int, seconds: int) -> None:
    """Gives a process so many bytes of memory and processor seconds, where the system can; one that has ended needs none. The seconds end
    a run also where nobody watches it any more."""
    with contextlib.suppress(OSError, AttributeError):
        resource.prlimit(process, resource.RLIMIT_AS, (memory, memory))
        resource.prlimit(process, resource.RLIMIT_CPU, (seconds, seconds))
