"""Runs a check, with what it takes, until a clock or a budget of processor time ends."""
import os
import re
import signal
import subprocess
import tempfile
import threading
import time
from typing import Optional

from .toolchain import rtlib
from .verdicts import Said

# What a check takes beside its mutants, and for each of them, in seconds of processor: the second until checks of the run have told more.
READING, EACH = 8.0, 9.5
# How many mutants a check may hold where there is a budget: what runs at its end is lost.
MOST = 16


class Budget:
    """How many seconds of processor the checks of a run may take in all, where that was said.

    A check that runs counts with what it took so far or, where that is more, with what it is expected to take.
    """

    def __init__(self, seconds: Optional[float] = None):
        self.seconds, self.spent, self.judged, self.checks = seconds, 0.0, 0, 0
        self.running: dict[object, list[float]] = {}
        self.guard = threading.Condition()

    def each(self) -> float:
        """What a mutant takes beside the reading, as the checks that ended say."""
        return max(1.0, (self.spent - READING * self.checks) / self.judged) if self.judged else EACH

    def room(self, mutants: int) -> int:
        """For how many of so many mutants there is room in one check beside those that run."""
        if self.seconds is None:
            return mutants
        left = self.seconds - self.spent - sum(map(max, self.running.values()))
        return max(0, min(mutants, MOST, int((left - READING) / self.each())))

    def begin(self, check: object, mutants: int) -> int:
        """Sets aside what a check of so many mutants is expected to take, or of as many as there is room for, and returns how many these are.

        Where there is none, it waits for the checks that run: they may take less than was expected of them.
        """
        with self.guard:
            self.guard.wait_for(lambda: self.room(mutants) or not self.running)
            room = self.room(mutants)
            if room:
                self.running[check] = [0.0, READING + self.each() * room]
            return room

    def note(self, check: object, used: float) -> None:
        """Notes what a check took so far."""
        with self.guard:
            if check in self.running:
                self.running[check][0] = used

    def end(self, check: object, used: float, mutants: int) -> None:
        """Ends a check that took so much for so many mutants."""
        with self.guard:
            self.spent, self.judged, self.checks = self.spent + used, self.judged + mutants, self.checks + 1
        self.drop(check)

    def drop(self, check: object) -> None:
        """Takes back what was set aside for a check, if it was."""
        with self.guard:
            self.running.pop(check, None)
            self.guard.notify_all()

    def has_ended(self) -> bool:
        with self.guard:
            return self.seconds is not None and self.spent + sum(used for used, _ in self.running.values()) >= self.seconds


class Clock:
    """When the last check may begin, in seconds since the epoch, where that was said, and the budget of all. What runs when either ends is ended."""

    def __init__(self, until: Optional[float] = None, budget: Optional[Budget] = None):
        self.until, self.budget = until, budget or Budget()

    def is_over(self) -> bool:
        return self.until is not None and time.time() >= self.until or self.budget.has_ended()


class Watched:
    """How much processor a check takes until each function is done, as it says while it runs."""

    def __init__(self, pid: int, file: int):
        self.pid, self.file, self.read, self.used = pid, file, 0, 0.0
        self.took: dict[str, float] = {}

    def look(self) -> None:
        """Reads what was said since the last look, by the place where that ended: the check itself writes on behind it."""
        new = os.pread(self.file, 1 << 20, self.read)
        lines = new[: new.rfind(b"\n") + 1]
        self.read += len(lines)
        names = re.findall(r"(?m)^checked (\S+), \d+ of \d+$", lines.decode(errors="replace"))
        if names:
            before, self.used = self.used, self.processor()
            self.took.update(dict.fromkeys(names, (self.used - before) / len(names)))

    def processor(self) -> float:
        try:
            with open(f"/proc/{self.pid}/stat", encoding="ascii", errors="replace") as told:
                words = told.read().rpartition(")")[2].split()
        except OSError:
            return self.used
        return sum(map(int, words[11:15])) / os.sysconf("SC_CLK_TCK")


def run(words: list[str], folder: str, clock: Clock, check: object = None) -> Said:
    """Runs a check, and ends it when the clock does, or the budget in which it has this name."""
    began = time.monotonic()
    with tempfile.TemporaryFile() as out:
        how = {"stdin": subprocess.DEVNULL, "stdout": out, "stderr": subprocess.STDOUT}
        ran = subprocess.Popen([*rtlib.guarded(), *words, "--progress"], cwd=folder, **how)
        watched, ended = Watched(ran.pid, out.fileno()), 0
        while not ended:
            ended, status, used = os.wait4(ran.pid, os.WNOHANG)
            watched.look()
            if not ended:
                clock.budget.note(check, watched.processor())
            if not ended and clock.is_over():
                # (`ran.kill` may take the status of a check that has just ended)
                os.kill(ran.pid, signal.SIGKILL)
            time.sleep(0.05 if not ended else 0)
        ran.returncode = os.waitstatus_to_exitcode(status)
        out.seek(0)
        text = out.read().decode(errors="replace")
    return Said(text, ran.returncode, used.ru_utime + used.ru_stime, time.monotonic() - began, watched.took)
