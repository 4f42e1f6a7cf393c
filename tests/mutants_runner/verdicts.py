"""Reads what a check said, and judges mutants by it.

A mutant is refused for itself alone: by an error in its functions' own lines or in their own proof files, or by their own
verdict. That a function calls another which is not proved says nothing of it, nor does a proof file that names what the
mutant took away.
"""
import re
from typing import NamedTuple, Optional

from .functions import Function
from .mutant import Mutant
from .toolchain import rt, rtlib

REFUSED, NOT_REFUSED, NOT_CLEAR, BAD_EDIT, SKIPPED = "refused", "NOT REFUSED", "NOT CLEAR", "BAD EDIT", "SKIPPED"
# A line that tells of a place: an error, or a note that something is not proved there.
PLACED = re.compile(r"(note: )?(?:\./)?((?:src|specs|proofs)/\S+?):(\d+):\d+: (.*)")
TOLD = re.compile(r"error\b|it is not proved")
# What follows from another error, and what a proof file says where it names what the mutant took away.
FOLLOWS = re.compile(r"that depends? on `")
NAMES = re.compile(r"has no field|is not in scope|has no `|was not admitted")
# What is said of a function that lacks nothing of its own.
CALLS = re.compile(r"no proof: it (calls|passes) `")
# What is said of a function that is proved; one with the bound `Wait` is not said to return.
PROVED = ("proved", "proved, may wait")
# What is said where no function, or more than one, has the name that was asked for.
MISNAMED = re.compile(r"(?:functions are named|has no function) `([^`]+)`")


class Outcome(NamedTuple):
    word: str
    why: str
    is_kept: bool = False  # whether an earlier run judged it


class Trouble(NamedTuple):
    """A line of a check that tells of something wrong at a place."""

    file: str
    line: int
    text: str

    def is_of(self, function: Function, printed: list[str]) -> bool:
        """Whether it stands in the function's own lines, or in its own proof files or those of its cycle."""
        if self.file == function.file:
            return self.line in function.lines
        # (the folder of a function that calls itself begins with a plus, as that of a cycle)
        paths = [it.split("::")[1:] for it in printed]
        folders = ["/".join([*it[:-1], plus + it[-1]]) for it in paths for plus in ("", "+")]
        own = any(self.file.startswith(f"proofs/{it}/") for it in folders)
        return own or bool(function.cycle) and self.file.startswith("proofs/") and f"/+{function.cycle}/" in self.file

    def counts(self) -> bool:
        """Whether a refusal may rest on it."""
        return not FOLLOWS.search(self.text) and not (self.file.startswith("proofs/") and NAMES.search(self.text))


class Said:
    """What a check said, its status, and what it took, in all and, in seconds of processor, for each function."""

    def __init__(self, text: str, status: int, processor: float = 0.0, clock: float = 0.0, took: Optional[dict[str, float]] = None):
        self.text, self.status, self.processor, self.clock, self.took = text, status, processor, clock, took or {}
        # Whether it was ended with the clock, so that it says nothing.
        self.was_ended = False
        self.lines = text.rstrip("\n").split("\n")
        self.last = self.lines[-1]
        self.reached_prover = self.last.startswith(("only=", "logic=")) and not rtlib.STALE.search(text)
        self.verdicts = dict(re.findall(r"(?m)^fn (\S+): (.*)$", text))
        placed = [it for it in map(PLACED.match, self.lines) if it and TOLD.match(it[4])]
        self.troubles = [Trouble(it[2], int(it[3]), it[0]) for it in placed]

    def unread(self, changed: set[str]) -> list[str]:
        """The lines that say that a text could not be read, so that no proof was tried over it."""
        return [it for it in self.lines if rt.unread(it, changed)]


def files_of(mutants: list[Mutant]) -> set[str]:
    return {file for mutant in mutants for file, _, _ in mutant.pairs}


def not_read(functions: list[Function], files: set[str], said: Said) -> list[Function]:
    """The functions in whose lines a text could not be read, or whose names do not tell one function."""
    misnamed = {*MISNAMED.findall(said.text)} if not said.reached_prover else set()
    lines = "\n".join(said.unread(files)) if said.reached_prover else said.text
    troubles = Said(lines, 1).troubles
    return [it for it in functions if it.path in misnamed or any(trouble.is_of(it, []) for trouble in troubles)]


def judged_by_functions(functions: list[Function], said: Said) -> Optional[Outcome]:
    """What a check says of a mutant that is in the bodies of these functions, beside others or alone, where that is clear."""
    proved = []
    for function in functions:
        own = {name: verdict for name, verdict in said.verdicts.items() if function.names(name)}
        refused = {name: verdict for name, verdict in own.items() if verdict.startswith(("not proved", "no proof"))}
        proved.append(bool(own) and all(it in PROVED for it in own.values()))
        if not refused:
            continue
        for trouble in said.troubles:
            if trouble.counts() and trouble.is_of(function, [*own]):
                return Outcome(REFUSED, trouble.text)
        for name, verdict in refused.items():
            if "did not prove `" in verdict:
                return Outcome(REFUSED, f"{name}: {verdict}")
    if functions and all(proved):
        return Outcome(NOT_REFUSED, f"{', '.join(it.path for it in functions)}: proved with this mutant")
    return None


def is_whole(function: Function, said: Said) -> bool:
    """Whether the function is proved, as far as it is its own matter: it is told of, and lacks at most the proof of one that it calls."""
    own = {name: verdict for name, verdict in said.verdicts.items() if function.names(name)}
    if any(it.is_of(function, [*own]) for it in said.troubles):
        return False
    return bool(own) and all(it in PROVED or CALLS.match(it) for it in own.values())


def judged_whole(mutant: Mutant, said: Said) -> Outcome:
    """What a check of the whole crate with this mutant alone says of it."""
    unread = said.unread(files_of([mutant]))
    if unread:
        return Outcome(BAD_EDIT, f"the prover cannot read the edited text, so no contract was tried: {unread[0]}")
    if rtlib.STALE.search(said.text):
        return Outcome(NOT_CLEAR, "the work of a library below could not be used")
    if said.status == 0:
        return Outcome(NOT_REFUSED, "the crate is proved with this mutant")
    if said.status != 1 or not said.last.startswith("logic=not-proved"):
        first = next((it.text for it in said.troubles), said.last)
        return Outcome(BAD_EDIT if said.troubles else NOT_CLEAR, f"it did not reach the prover: {first}")
    clear = judged_by_functions(mutant.functions, said)
    counting = [it.text for it in said.troubles if it.counts()]
    if clear and clear.word == REFUSED:
        return clear
    if counting and not mutant.only:
        return Outcome(REFUSED, counting[0])
    why = "only a proof file that names what the mutant took away tells of it: change a value and keep the names"
    return clear or Outcome(NOT_CLEAR, f"no error in its own text: {said.last}" if counting or not said.troubles else why)
