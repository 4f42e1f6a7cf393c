"""Judges the mutants of one crate, in rounds over one copy of it."""
import os
import re
import shutil
import signal
import tempfile
import time
from typing import Callable, NamedTuple, Optional

from .checking import Clock, run
from .copies import Copy, Source, can_be_copied, copies_of, copy_proofs, proofs_of, refused_copies, stem_for
from .functions import Function, functions_of
from .kept_verdicts import KeptVerdicts
from .mutant import Mutant
from .toolchain import rtlib
from .verdicts import BAD_EDIT, REFUSED, SKIPPED
from .verdicts import Outcome, Said, judged_by_functions, judged_whole, not_read

SHOWN = 240
# How many mutants are too few for a further check.
FEW = 5


class Room:
    """A copy of a crate, its mutants, and the folder in which the checks of one run keep their work.

    Without older work the folder starts empty, so that nothing is taken that this run has not proved. With it, each check starts
    over the older work anew, which is linked and stays as it was.
    """

    def __init__(self, crate, older: Optional[str], clock: Clock):
        self.crate, self.older, self.clock = crate, older, clock
        self.made = tempfile.TemporaryDirectory(prefix="mutants-")
        self.folder, self.kept = f"{self.made.name}/crate", f"{self.made.name}/kept"
        for part in rtlib.PARTS:
            if os.path.isdir(f"{crate.folder}/{part}"):
                shutil.copytree(f"{crate.folder}/{part}", f"{self.folder}/{part}")
        os.mkdir(self.kept)
        self.changed: set[str] = set()
        self.sources: dict[str, Source] = {}
        self.proofs: list[str] = []

    def take_older(self) -> None:
        if self.older and os.path.isdir(self.older):
            shutil.rmtree(self.kept)
            try:
                shutil.copytree(self.older, self.kept, copy_function=os.link)
            except (OSError, shutil.Error):
                shutil.rmtree(self.kept, ignore_errors=True)
                shutil.copytree(self.older, self.kept)

    def write(self, mutants: list[Mutant], copies: tuple[Copy, ...] = ()) -> list[Mutant]:
        """Puts these mutants alone into the copy, and copies of functions beside them.

        Returns the mutants that fit: a new text may hold another's old one.
        """
        while self.proofs:
            shutil.rmtree(f"{self.folder}/{self.proofs.pop()}")
        texts: dict[str, str] = {}
        fitting = []
        for mutant in mutants:
            with_it = self.with_mutant(texts, mutant)
            if with_it is not None:
                texts = with_it
                fitting.append(mutant)
        self.sources = {}
        for file in self.changed | {*texts} | {it.of.file for it in copies}:
            raw = self.text_of(file)
            self.sources[file] = Source(texts.get(file, raw), raw.encode(), [it for it in copies if it.of.file == file])
            with open(f"{self.folder}/{file}", "w", encoding="utf-8") as out:
                out.write(self.sources[file].text)
        self.changed = {*self.sources}
        for copy in copies:
            self.proofs += [copy_proofs(self.folder, it, copy.name) for it in proofs_of(self.crate.folder, copy.of)]
        return fitting

    def placed(self) -> dict[Copy, Function]:
        """The copies that stand here, and where."""
        return {copy: at for source in self.sources.values() for copy, at in source.placed.items()}

    def here(self, functions: list[Function]) -> list[Function]:
        """The functions, where they stand here."""
        moved = lambda it: self.sources[it.file].moved if it.file in self.sources else range(it.lines.stop)
        return [it._replace(lines=range(moved(it)[it.lines.start], moved(it)[it.lines.stop - 1] + 1)) for it in functions]

    def of_crate(self, outcome: Outcome) -> Outcome:
        """An outcome that tells the lines of the crate's own sources in place of those here."""

        def row(found: re.Match) -> str:
            rows = self.sources[found[1]].rows if found[1] in self.sources else []
            return f"{found[1]}:{rows[int(found[2])] if int(found[2]) < len(rows) else found[2]}:"

        return outcome._replace(why=re.sub(r"(src/\S+?):(\d+):", row, outcome.why))

    def with_mutant(self, texts: dict[str, str], mutant: Mutant) -> Optional[dict[str, str]]:
        texts = dict(texts)
        for file, old, new in mutant.pairs:
            text = texts[file] if file in texts else self.text_of(file)
            if text.count(old) != 1:
                return None
            texts[file] = text.replace(old, new)
        return texts

    def text_of(self, file: str) -> str:
        with open(f"{self.crate.folder}/{file}", encoding="utf-8") as text:
            return text.read()

    def check(self, only: list[str], jobs: int) -> Said:
        """Checks the copy: these functions, or all of it. A check that is killed, most likely for memory, is run once more."""
        self.take_older()
        words = [rtlib.RATTLE, "check", *self.crate.words(["--jobs", str(jobs)], keeps=False), "--incremental", self.kept]
        words += [word for path in only for word in ("--only", path)]
        said = run(words, self.folder, self.clock, self.crate.name)
        if said.status == -signal.SIGKILL and not self.clock.is_over():
            words[words.index("--jobs") + 1], before = "1", said.processor
            said = run(words, self.folder, self.clock, self.crate.name)
            said.processor += before
        return said

    def close(self) -> None:
        self.made.cleanup()


def next_round(mutants: list[Mutant]) -> list[Mutant]:
    """The mutants that one copy can hold: of different functions and cycles. One that changes more than bodies stands alone."""
    first, *others = mutants
    batch, taken = [first], first.keys()
    for mutant in others:
        if first.shares and mutant.shares and not taken & mutant.keys():
            batch.append(mutant)
            taken = taken | mutant.keys()
    return batch


class Result(NamedTuple):
    crate: str
    outcomes: dict[Mutant, Outcome]
    checks: int
    processor: float
    clock: float

    def count(self, word: str) -> int:
        return sum(it.word == word for it in self.outcomes.values())

    def kept(self) -> int:
        return sum(it.is_kept for it in self.outcomes.values())

    def line(self) -> str:
        took = f"{self.processor:.1f} s of processor, {self.clock:.1f} s by the clock"
        more = "".join(f", {count} {word}" for count, word in ((self.kept(), "kept"), (self.count(SKIPPED), "skipped")) if count)
        return f"{self.crate}: {self.count(REFUSED)} of {len(self.outcomes)} refused, {self.checks} checks, {took}{more}"


class CrateRun:
    """Judges a crate's mutants, in one pass or in several, of which the last one ends with `close`."""

    def __init__(self, crate, mutants: list[Mutant], older: Optional[str], clock: Clock, tell: Callable[..., None], verdicts: KeptVerdicts,
                 tells_skipped: bool = True):
        """`older` is a folder of kept work, if the checks are to begin with that."""
        self.crate, self.mutants, self.older, self.clock, self.tell = crate, mutants, older, clock, tell
        self.verdicts, self.tells_skipped = verdicts, tells_skipped
        self.outcomes: dict[Mutant, Outcome] = {}
        self.told: set[Mutant] = set()
        self.checks, self.processor, self.took = 0, 0.0, 0.0
        # The seconds of processor that the proofs of each mutant's functions took.
        self.cost: dict[Mutant, float] = {}
        self.room: Optional[Room] = None
        self.stem = ""
        self.waiting: list[Mutant] = []
        self.whole: list[Mutant] = []

    def place(self) -> None:
        """Finds where the mutants stand. One that cannot be applied is judged by that."""
        functions = functions_of(self.crate.folder) if any(not it.fault for it in self.mutants) else []
        for mutant in self.mutants:
            if not mutant.fault:
                mutant.place(functions)
            kept = self.verdicts.of(mutant)
            if mutant.fault:
                self.outcomes[mutant] = Outcome(BAD_EDIT, mutant.fault)
            elif kept:
                self.outcomes[mutant] = kept

    def left(self) -> list[Mutant]:
        """The mutants that are not judged yet."""
        return [it for it in self.mutants if it not in self.outcomes]

    def first_of_each_function(self) -> list[Mutant]:
        """For each public function the first mutant that is judged by it."""
        firsts: dict[str, Mutant] = {}
        for mutant in self.mutants:
            for function in mutant.functions:
                if function.is_public and not mutant.fault:
                    firsts.setdefault(function.path, mutant)
        return [*dict.fromkeys(firsts.values())]

    def first_pass(self) -> list[Mutant]:
        """One mutant of each public function, and the rest where that is few: a further check takes as long as several mutants."""
        first, left = self.first_of_each_function(), self.left()
        return left if len(left) <= len(first) + FEW else first

    def judge(self, jobs: int, chosen: list[Mutant]) -> None:
        """Judges those of these mutants that are not judged yet, until the clock ends, and tells what was found."""
        began = time.monotonic()
        left = [it for it in self.left() if it in chosen]
        # (the most in the first round, whose work the others start over)
        self.waiting = sorted((it for it in left if it.functions), key=lambda it: not it.shares)
        self.whole = [it for it in left if not it.functions]
        if left and not self.clock.is_over():
            self.room = self.room or Room(self.crate, self.older, self.clock)
            self.stem = self.stem or stem_for(self.crate.folder)
        try:
            while room := self.room_for(len(self.waiting)):
                self.round(jobs, room)
            while self.room_for(len(self.whole[:1])):
                self.alone(self.whole.pop(0), jobs)
        finally:
            # (other crates wait for what was set aside)
            self.clock.budget.drop(self.crate.name)
        self.tell_new()
        self.took += time.monotonic() - began

    def room_for(self, mutants: int) -> int:
        """For how many of these mutants the clock and the budget leave room in a check that begins now."""
        return self.clock.budget.begin(self.crate.name, mutants) if mutants and not self.clock.is_over() else 0

    def tell_new(self) -> None:
        """Tells what was found of mutants of which nothing was told before."""
        found = [it for it in self.mutants if it in self.outcomes and it not in self.told]
        self.verdicts.keep({it: self.outcomes[it] for it in found})
        self.told.update(found)
        self.tell(*(line_of(it, self.outcomes[it]) for it in found if self.tells_skipped or self.outcomes[it].word != SKIPPED))

    def close(self) -> Result:
        """Ends the run: what is not judged by now is skipped."""
        if self.room:
            self.room.close()
        for mutant in self.mutants:
            self.outcomes.setdefault(mutant, Outcome(SKIPPED, ""))
        self.tell_new()
        ordered = {it: self.outcomes[it] for it in self.mutants}
        result = Result(self.crate.name, ordered, self.checks, self.processor, self.took)
        slow = sorted(self.cost, key=lambda it: -self.cost[it])[:3]
        if slow:
            self.tell(f"{self.crate.name}: slowest: {', '.join(f'{it.label} {self.cost[it]:.1f} s' for it in slow)}")
        self.tell(result.line())
        return result

    def round(self, jobs: int, most: int) -> None:
        """Judges as many mutants as one copy can hold, or as may be at most, by one check: one of each function in its place, others beside it."""
        waiting = self.waiting[:most]
        batch = next_round(waiting)
        beside = [it for it in waiting if it not in batch and batch[0].shares and self.can_stand_beside(it)]
        batch = self.room.write(batch, (*copies_of(beside, self.stem, self.crate.folder),))
        self.waiting = [it for it in self.waiting if it not in batch and it not in beside]
        placed = self.room.placed()
        said = self.checked(sorted({f.path for it in batch for f in it.functions} | {it.path() for it in placed}), jobs, len(batch) + len(beside))
        if said.was_ended:
            return
        self.note_cost(batch, placed, said)
        before = len(self.outcomes)
        files, here = {*self.room.sources}, {it: self.room.here(it.functions) for it in batch}
        bad = {*not_read([f for it in here.values() for f in it] + [*placed.values()], files, said)}
        if said.reached_prover and not bad:
            self.take(here, placed, said)
        else:
            self.part([it for it in batch if bad.intersection(here[it])], [it for it, at in placed.items() if at in bad], batch, beside)
        self.report(f"{len(batch)} mutants in one copy, {len(beside)} beside them, {len(self.outcomes) - before} judged", said)

    def note_cost(self, batch: list[Mutant], placed: dict[Copy, Function], said: Said) -> None:
        of_mutants = [(it, f) for it in batch for f in it.functions] + [(it.mutant, at) for it, at in placed.items() if it.mutant]
        for mutant, function in of_mutants:
            self.cost[mutant] = self.cost.get(mutant, 0.0) + sum(took for name, took in said.took.items() if function.names(name))

    def can_stand_beside(self, mutant: Mutant) -> bool:
        """Whether the mutant may be judged by a copy of its function: as long as no copy of it was tried, and left it open."""
        return bool(mutant.changes) and not mutant.was_copied and can_be_copied(self.crate.folder, mutant.changes)

    def take(self, here: dict[Mutant, list[Function]], placed: dict[Copy, Function], said: Said) -> None:
        """Takes what a check says of mutants in their place, and the refusals of copies. The other copies' mutants wait for their place."""
        for mutant, functions in here.items():
            outcome = judged_by_functions(functions, said)
            if outcome:
                self.outcomes[mutant] = self.room.of_crate(outcome)
            else:
                self.put_off(mutant, len(here))
        refused = refused_copies(placed, said)
        for mutant in (it.mutant for it in placed if it.mutant):
            if mutant in refused:
                self.outcomes[mutant] = self.room.of_crate(refused[mutant])
            else:
                mutant.was_copied = True
                self.waiting.append(mutant)

    def part(self, bad: list[Mutant], lost: list[Copy], batch: list[Mutant], beside: list[Mutant]) -> None:
        """After a round with a text that cannot be read: its mutants alone, the others once more.

        A copy that cannot be read waits for its place, as all of them do where nothing is found; and where there is none, each mutant is
        tried alone.
        """
        left = {it.of for it in lost if not it.mutant}
        for mutant in beside:
            is_lost = mutant.changes in left or any(it.mutant is mutant for it in lost)
            mutant.was_copied = mutant.was_copied or is_lost or not (bad or lost)
        bad = bad if bad or lost or beside else batch
        self.whole += bad
        self.waiting = [it for it in [*batch, *beside] if it not in bad] + self.waiting

    def put_off(self, mutant: Mutant, together: int) -> None:
        """Tries a mutant once more in a later round, as where only a function that it calls was refused; and then alone."""
        if together > 1 and not mutant.was_unclear:
            mutant.was_unclear = True
            self.waiting.append(mutant)
        else:
            self.whole.append(mutant)

    def alone(self, mutant: Mutant, jobs: int) -> None:
        """Judges a mutant by a check of the whole crate with it alone."""
        if not self.room.write([mutant]):
            self.outcomes[mutant] = Outcome(BAD_EDIT, "its pairs cannot be applied one after the other")
            return
        said = self.checked([], jobs, 1)
        if said.was_ended:
            return
        self.outcomes[mutant] = judged_whole(mutant, said)
        self.report(f"{mutant.label} alone, by a whole check", said)

    def checked(self, only: list[str], jobs: int, mutants: int) -> Said:
        said = self.room.check(only, jobs)
        self.clock.budget.end(self.crate.name, said.processor, mutants)
        said.was_ended = said.status == -signal.SIGKILL and self.clock.is_over()
        self.checks += 1
        self.processor += said.processor
        return said

    def report(self, what: str, said: Said) -> None:
        left = len(self.mutants) - len(self.outcomes)
        took = f"{said.processor:.1f} s of processor, {said.clock:.1f} s by the clock"
        self.tell(f"{self.crate.name}: check {self.checks}: {what}, {left} left ({took})")


def line_of(mutant: Mutant, outcome: Outcome) -> str:
    told = f"refused, as it must be{' (kept)' if outcome.is_kept else ''}" if outcome.word == REFUSED else outcome.word
    return ": ".join([mutant.label, told, *([outcome.why[:SHOWN]] if outcome.why else [])])


def fails(result: Result) -> list[str]:
    return [it.label for it, outcome in result.outcomes.items() if outcome.word not in (REFUSED, SKIPPED)]
