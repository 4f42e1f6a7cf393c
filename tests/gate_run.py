"""Runs one step of the gate: its lines as they come, its count, what it took, and its end where the clock comes first."""
import collections
import os
import re
import signal
import subprocess
import threading
import time
from typing import Callable, NamedTuple, Optional

# The last line of a step, which counts what it tried.
COUNT = re.compile(r"(\d+) passed, (\d+) failed(?:, (\d+) skipped)?$")
# What a line that tells of a failure has in it.
TROUBLE = re.compile(r"\bNOT [A-Z]+|\bBAD EDIT|\bFAIL|\bkilled\b")
REFUSED = re.compile(r"rt: .* NOT PROVED$")
# How many lines that tell of failures are told once more at the end, of each step that failed.
TOLD = 12
# The seconds that what a step started has, once the step itself has ended, to end as well.
GRACE = 20.0
PRINTING = threading.Lock()


class Step(NamedTuple):
    name: str
    passed: int
    failed: int
    processor: float = 0.0
    clock: float = 0.0
    troubles: tuple[str, ...] = ()
    skipped: int = 0

    def line(self) -> str:
        took = f"{minutes(self.processor)} of processor, {minutes(self.clock)} by the clock"
        return f"gate: {self.name}: {counted(self.passed, self.failed, self.skipped)} ({took})"


class Clock:
    """How long the gate has, from its start; no end of it where no minutes are named."""

    def __init__(self, allowed: Optional[float]):
        self.began, self.is_set = time.time(), allowed is not None
        self.ends = self.began + 60 * (allowed or 0)

    def left(self) -> Optional[float]:
        return max(0.0, self.ends - time.time()) if self.is_set else None

    def has_ended(self) -> bool:
        return self.left() == 0.0


def counted(passed: int, failed: int, skipped: int) -> str:
    return f"{passed} passed, {failed} failed" + (f", {skipped} skipped" if skipped else "")


def minutes(seconds: float) -> str:
    """Whole minutes and seconds, or nothing for no time."""
    whole = round(seconds)
    return f"{whole // 60}:{whole % 60:02}" if seconds else ""


def tell(*lines: str) -> None:
    with PRINTING:
        for line in lines:
            print(line, flush=True)


class Running:
    """A step's command, in a process group of its own, which is ended where the clock ends."""

    def __init__(self, folder: str, words: list[str], limit: Optional[float]):
        how = {"stdin": subprocess.DEVNULL, "stdout": subprocess.PIPE, "stderr": subprocess.STDOUT, "errors": "replace"}
        self.ran = subprocess.Popen(words, cwd=folder, start_new_session=True, **how)
        self.was_ended, self.is_over = False, threading.Event()
        threading.Thread(target=self.end_what_is_left, daemon=True).start()
        self.watch = threading.Timer(limit, self.end) if limit is not None else None
        if self.watch:
            self.watch.daemon = True
            self.watch.start()

    def end_what_is_left(self) -> None:
        """What a command started holds its output open, and nobody would wait for it once the command has ended."""
        try:
            os.waitid(os.P_PID, self.ran.pid, os.WEXITED | os.WNOWAIT)
        except ChildProcessError:
            # (the command has ended and was waited for: it left nothing)
            return
        for number in (signal.SIGTERM, signal.SIGKILL):
            if self.is_over.wait(GRACE):
                return
            self.stop(number)

    def end(self) -> None:
        self.was_ended = True
        self.stop(signal.SIGTERM)

    def stop(self, number: int) -> None:
        try:
            os.killpg(self.ran.pid, number)
        except ProcessLookupError:
            pass

    def wait(self) -> tuple[int, float]:
        """The exit status, and the processor time that the command and all that it started took."""
        self.is_over.set()
        self.ran.stdout.close()
        _, status, used = os.wait4(self.ran.pid, 0)
        if self.watch:
            self.watch.cancel()
        self.ran.returncode = os.waitstatus_to_exitcode(status)
        return self.ran.returncode, used.ru_utime + used.ru_stime


class Heard:
    """What a step has told: its last lines, and those that tell of failures."""

    def __init__(self):
        self.last, self.troubles, self.ending = "", [], collections.deque(maxlen=TOLD)

    def hear(self, line: str) -> None:
        before, self.last = self.last, line
        self.ending.append(line)
        if TROUBLE.search(line):
            # (the toolchain tells why a crate is refused on the line before)
            self.troubles += [before, line] if REFUSED.match(line) else [line]

    def step(self, name: str, status: int, was_ended: bool) -> tuple[int, int, int]:
        """How many passed, failed and were skipped. A command that counts nothing is one."""
        found = COUNT.match(self.last)
        passed, failed, skipped = (int(it or 0) for it in found.groups()) if found else (int(status == 0), 0, 0)
        if was_ended:
            self.troubles.append(f"{name}: ended by the gate's clock: FAILED")
        if not self.troubles:
            # (a step that does not say which of its lines tell of failures)
            self.troubles = [*self.ending]
        return passed, failed or int(status != 0 or was_ended), skipped


def run(name: str, folder: str, words: list[str], clock: Clock, hear: Callable[[str], None] = lambda line: None,
        is_shown_late: bool = False) -> Step:
    """Runs a command and tells its lines as they come, or all of them at its end. What the clock ends has failed."""
    head, began, heard, kept = f"== gate: {name}: {' '.join(words)}", time.monotonic(), Heard(), []
    show = kept.append if is_shown_late else tell
    show(head)
    running = Running(folder, words, clock.left())
    try:
        for line in running.ran.stdout:
            line = line.rstrip("\n")
            show(line)
            hear(line)
            heard.hear(line)
    except BaseException:
        running.stop(signal.SIGTERM)
        raise
    status, processor = running.wait()
    passed, failed, skipped = heard.step(name, status, running.was_ended)
    troubles = tuple(heard.troubles[:TOLD]) if failed else ()
    step = Step(name, passed, failed, processor, time.monotonic() - began, troubles, skipped)
    tell(*kept, step.line())
    return step


def not_run(name: str) -> Step:
    """The step that the clock left no time for, where that is a failure."""
    tell(f"== gate: {name}: not run, since the gate's clock has ended")
    return Step(name, 0, 1, troubles=(f"{name}: not run, since the gate's clock has ended: FAILED",))
