"""Runs the steps of the gate, which tests/gate starts, in a clone of HEAD: each with its lines, its time and its count.

usage: tests/gate [--minutes N] [--mutants MINUTES | --all-mutants] [--anew]

--minutes N        a clock: proofs and tests that it leaves no time for have failed; mutants that it leaves are counted as skipped
--mutants MINUTES  the budget of mutants in processor time, 30 minutes by default; those that it leaves are counted as skipped
--all-mutants      judges all mutants, however long that takes: before a release
--anew             uses nothing that an earlier run on this machine proved or judged

`rt ci` ends by putting older work back into the folder that it ran in, so a folder that has been worked in loses what the gate
has just proved. A clone has no older work: the mutants are judged over the libraries that this very run proved or, where nothing changed that
they were made from, took as an earlier run on this machine proved them.
"""
import argparse
import os
import re
import shutil
import signal
import subprocess
import sys
import tempfile
import threading
import time
from concurrent.futures import ThreadPoolExecutor
from typing import Optional

import gate_table
from gate_run import Clock, Step, counted, minutes, not_run, run, tell
from gate_table import ALONE, BUILT, CHECKS, FORMAT, MUTANTS, PROGRAMS, PROVE, Entry

TOP = os.path.dirname(os.path.dirname(os.path.realpath(__file__)))
PROVED = re.compile(r"rt: (\w+)(: its tests are)? proved$")
KEPT = re.compile(r"prove: (\w+)(: its tests)? kept$")
JUDGED = re.compile(r"mutants: (\w+): (\d+) of (\d+) refused, (\d+) checks, ([\d.]+) s of processor, ([\d.]+) s by the clock(?:, \d+ \w+)*$")
# Seconds of the clock that are kept for what is told at the end.
LAST = 20
# Minutes of processor that mutants may take, where nothing else is said.
FOR_MUTANTS = 30.0
# Where the names of mutants that were not judged are left.
NOT_JUDGED = "out/mutants_not_judged"


class Times:
    """When each crate's proof began and ended, and what its mutants took."""

    def __init__(self, clone: str):
        self.clone, self.began, self.proof, self.tests, self.mutants = clone, {}, {}, {}, {}
        self.made, self.kept = set(), set()

    def look(self) -> None:
        """A proof begins by making the crate's folder out."""
        for name in os.listdir(f"{self.clone}/crates"):
            if name not in self.began and os.path.isdir(f"{self.clone}/crates/{name}/out"):
                self.began[name] = time.monotonic()

    def watch(self, ended: threading.Event) -> None:
        while not ended.wait(0.5):
            self.look()

    def hear(self, line: str) -> None:
        proved, judged, kept = PROVED.match(line), JUDGED.match(line), KEPT.match(line)
        if proved:
            # (what is kept takes less time than passes between two looks)
            self.look()
            self.made.add((proved[1], bool(proved[2])))
        if proved and proved[1] in self.began:
            (self.tests if proved[2] else self.proof)[proved[1]] = time.monotonic() - self.began[proved[1]]
        elif judged:
            self.mutants[judged[1]] = (judged[2], judged[3], judged[4], float(judged[5]), float(judged[6]))
        if kept:
            self.kept.add((kept[1], bool(kept[2])))

    def proofs(self) -> list[str]:
        """How much this run has itself proved, where some was kept."""
        anew = f"{len(self.made - self.kept)} of {len(self.made)} proofs of crates and of tests were made anew"
        return [f"gate: {anew}, {len(self.kept)} by earlier runs here"] if self.kept else []

    def table(self) -> list[str]:
        rows = [("crate", "proof", "its tests", "mutants refused", "checks", "processor", "clock")]
        for name in sorted({*self.proof, *self.tests, *self.mutants}, key=lambda it: self.proof.get(it, 0)):
            refused, count, checks, processor, clock = self.mutants.get(name, ("", "", "", 0.0, 0.0))
            of_mutants = (f"{refused} of {count}", checks, minutes(processor), minutes(clock)) if count else ("", "", "", "")
            rows.append((name, minutes(self.proof.get(name, 0)), minutes(self.tests.get(name, 0)), *of_mutants))
        widths = [max(map(len, column)) for column in zip(*rows)]
        return ["  ".join(cell.ljust(width) for cell, width in zip(row, widths)).rstrip() for row in rows]


def keeps_proofs() -> bool:
    """Whether this toolchain's `rt ci` keeps proofs, and so takes `--anew`. For others `tests/prove` runs its steps, and keeps them."""
    with open(shutil.which("rt"), encoding="utf-8", errors="replace") as script:
        return "--anew" in script.read()


class Gate:
    def __init__(self, clone: str, clock: Clock, is_anew: bool, for_mutants: Optional[float] = FOR_MUTANTS):
        """`for_mutants` is the processor time of mutants in minutes, or nothing where all of them are to be judged."""
        self.clone, self.clock, self.times, self.for_mutants = clone, clock, Times(clone), for_mutants
        self.anew = ["--anew"] if is_anew else []
        self.is_proved = False

    def steps(self) -> list[Step]:
        """Runs each step. Without the proofs there is no proved program, and nothing to judge mutants over."""
        done = [self.step(FORMAT), self.prove()]
        self.is_proved = not done[1].failed
        chosen = [it for it in CHECKS if self.is_proved or it.needs == gate_table.TEXT]
        done += self.side_by_side([it for it in chosen if it.needs != ALONE])
        done += [self.step(it) for it in chosen if it.needs == ALONE]
        return [*done, *([self.judge()] if self.is_proved else [])]

    def step(self, entry: Entry, is_shown_late: bool = False) -> Step:
        if self.clock.has_ended():
            return not_run(entry.name)
        return run(entry.name, self.clone, [*entry.command], self.clock, is_shown_late=is_shown_late)

    def side_by_side(self, entries: list[Entry]) -> list[Step]:
        """Runs as many steps at a time as there are processors, and tells each at its end."""
        with ThreadPoolExecutor(len(os.sched_getaffinity(0))) as pool:
            return [*pool.map(lambda it: self.step(it, is_shown_late=True), entries)]

    def prove(self) -> Step:
        ended = threading.Event()
        watching = threading.Thread(target=self.times.watch, args=(ended,), daemon=True)
        watching.start()
        try:
            words = PROVE.command if keeps_proofs() else ("tests/prove",)
            return run(PROVE.name, self.clone, [*words, *self.anew], self.clock, self.times.hear)
        finally:
            ended.set()
            watching.join()

    def judge(self) -> Step:
        """Judges mutants in an order that the commit draws, as long as the clock and their budget allow."""
        words = [*MUTANTS.command, "--order", commit(self.clone), "--left", f"{TOP}/{NOT_JUDGED}", *self.anew]
        if self.for_mutants is not None:
            words += ["--budget", f"{self.for_mutants:g}"]
        if self.clock.is_set:
            words += ["--until", f"{self.clock.ends - LAST:.0f}"]
        return run(MUTANTS.name, self.clone, words, self.clock, self.times.hear)

    def not_tried(self) -> str:
        names = [it.name for it in (*CHECKS, MUTANTS) if it.needs != gate_table.TEXT]
        return f"gate: not tried, since a proof failed: {', '.join(names)}"


def commit(clone: str) -> str:
    return subprocess.run(["git", "rev-parse", "HEAD"], cwd=clone, capture_output=True, text=True, check=True).stdout.strip()


def leave_programs(clone: str) -> None:
    """Puts the proved programs where those who called the gate look for them."""
    os.makedirs(os.path.dirname(f"{TOP}/{BUILT}"), exist_ok=True)
    for program in PROGRAMS:
        if os.path.isfile(f"{clone}/{program}"):
            shutil.copy2(f"{clone}/{program}", f"{TOP}/{program}")


def changed() -> str:
    """What differs from HEAD, which the gate does not judge."""
    return subprocess.run(["git", "status", "--short"], cwd=TOP, capture_output=True, text=True).stdout.rstrip("\n")


def tell_all(gate: Gate, done: list[Step]) -> None:
    """The tables of all crates and steps, and what failed, once more."""
    tell("== gate: crate by crate, in minutes and seconds (proofs run side by side)", *gate.times.table())
    whole = f"{minutes(sum(it.processor for it in done))} of processor, {minutes(time.time() - gate.clock.began)} by the clock"
    tell("== gate: step by step", *(it.line() for it in done), f"gate: {whole} in all", *gate.times.proofs())
    for it in done:
        if it.failed:
            tell(f"== gate: {it.name}: what failed", *it.troubles)
    if not gate.is_proved:
        tell(gate.not_tried())


def main() -> int:
    parser = argparse.ArgumentParser(prog="tests/gate", usage=__doc__.split("usage: ")[1])
    parser.add_argument("--minutes", type=float)
    mutants = parser.add_mutually_exclusive_group()
    mutants.add_argument("--mutants", type=float, default=FOR_MUTANTS)
    mutants.add_argument("--all-mutants", dest="mutants", action="store_const", const=None)
    parser.add_argument("--anew", action="store_true")
    asked = parser.parse_args()
    # (so that the clone is removed where the gate is ended from outside)
    signal.signal(signal.SIGTERM, lambda *_: sys.exit(143))
    clock = Clock(asked.minutes)
    if changed():
        tell("gate: HEAD is judged, and not these changes, which are not committed:", changed())
    with tempfile.TemporaryDirectory(prefix="gate-") as room:
        clone = f"{room}/clone"
        if subprocess.run(["git", "clone", "--quiet", "--local", TOP, clone]).returncode:
            tell("gate: no clone could be made", "0 passed, 1 failed")
            return 2
        gate = Gate(clone, clock, asked.anew, asked.mutants)
        done = gate.steps()
        if gate.is_proved:
            leave_programs(clone)
    tell_all(gate, done)
    passed, failed, skipped = (sum(getattr(it, part) for it in done) for part in ("passed", "failed", "skipped"))
    tell(counted(passed, failed, skipped))
    return 1 if failed else 0


if __name__ == "__main__":
    sys.exit(main())
