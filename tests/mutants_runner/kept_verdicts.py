"""Refusals that earlier runs on this machine judged, by the sum of all that each was judged from.

A sum covers the mutant's text, the crate's sources, definitions and proofs, its line of crates.txt, the same of all libraries below it, the
toolchain and this runner, so that a refusal never goes stale. Nothing else is kept: what was not refused is judged anew by each run.
"""
import contextlib
import hashlib
import json
import os
import tempfile
from typing import Optional

from .mutant import Mutant
from .toolchain import own_sum, rt, sum_of_toolchain
from .verdicts import REFUSED, Outcome

# How many files of a crate stay: each is of other texts, the newest of the last run that wrote one.
MOST = 16
# Where a file of verdicts has the sum of the crate's own texts: no mutant has this sum.
OWN = "own texts"


def folder_of_verdicts() -> str:
    """Where verdicts are kept: outside of each checkout."""
    above = os.environ.get("XDG_CACHE_HOME") or os.path.expanduser("~/.cache")
    return f"{above}/tilefarm/verdicts"


def sum_of_runner() -> str:
    """A sum of what decides how a mutant is judged."""
    here = os.path.dirname(os.path.realpath(__file__))
    files = [f"{os.path.dirname(here)}/run_mutants", *sorted(f"{here}/{it}" for it in os.listdir(here) if it.endswith(".py"))]
    found = hashlib.sha256()
    for path in files:
        with open(path, "rb") as file:
            found.update(hashlib.sha256(file.read()).digest())
    return found.hexdigest()


def sum_of_crate(crate, seen: dict[str, str]) -> str:
    """A sum of all but the mutant that a verdict rests on: the texts of the crate and of those below it, the toolchain and the runner.

    `seen` has the sums of crates that were read before, by name.
    """
    for it in [*crate.below(), crate]:
        if it.name not in seen:
            seen[it.name] = own_sum(it)
    texts = [(it.name, seen[it.name]) for it in sorted([*crate.below(), crate], key=lambda it: it.name)]
    return hashlib.sha256(f"{texts} {sum_of_toolchain()} {sum_of_runner()}".encode()).hexdigest()


def is_fresh(crate) -> bool:
    """Whether the libraries below stand as they were built from the texts that stand there now."""
    return all(it.is_built() or is_newer(it) for it in crate.below())


def is_newer(crate) -> bool:
    """Whether the library is newer than each of its texts, as where `rt ci` built it in a new clone, without a stamp."""
    texts = [f"{at}/{name}" for part in rt.rtlib.PARTS for at, _, names in os.walk(f"{crate.folder}/{part}") for name in names]
    with contextlib.suppress(OSError):
        return os.stat(f"{crate.rlib}/format").st_mtime_ns > max(os.stat(it).st_mtime_ns for it in texts)
    return False


class KeptVerdicts:
    """Those of one crate, as its texts stand. They are kept in any case, and used where that is asked for."""

    def __init__(self, crate, folder: str, is_used: bool, seen: Optional[dict[str, str]] = None):
        self.crate, self.folder, self.sum = crate, folder, sum_of_crate(crate, {} if seen is None else seen)
        self.known = self.read(self.path()) if is_used else {}

    def path(self) -> str:
        return f"{self.folder}/{self.crate.name}-{self.sum}.json"

    def paths(self) -> list[str]:
        """The files of all texts of the crate."""
        names = os.listdir(self.folder) if os.path.isdir(self.folder) else []
        return [f"{self.folder}/{it}" for it in names if it.rpartition("-")[0] == self.crate.name]

    def is_of_another_text(self) -> bool:
        """Whether the crate's own text changed since its mutants were judged: some were, and none of this text, over whatever libraries."""
        own = [self.read(it).get(OWN) for it in self.paths()]
        return any(own) and own_sum(self.crate) not in own

    def read(self, path: str) -> dict[str, str]:
        """What each refused mutant was refused for, by the sum of its text; nothing where that cannot be read."""
        try:
            with open(path, encoding="utf-8") as file:
                found = json.load(file) if os.fstat(file.fileno()).st_uid == os.geteuid() else {}
        except (OSError, ValueError):
            return {}
        is_told = isinstance(found, dict) and all(isinstance(it, str) for pair in found.items() for it in pair)
        return found if is_told else {}

    def of(self, mutant: Mutant) -> Optional[Outcome]:
        why = self.known.get(mutant.sum())
        return None if why is None else Outcome(REFUSED, why, True)

    def keep(self, outcomes: dict[Mutant, Outcome]) -> None:
        """Keeps what is refused, where no text changed since the run began; a verdict that cannot be kept is judged again."""
        found = {it.sum(): outcome.why for it, outcome in outcomes.items() if outcome.word == REFUSED and not outcome.is_kept}
        if not found or not is_fresh(self.crate) or self.sum != sum_of_crate(self.crate, {}):
            return
        with contextlib.suppress(OSError):
            os.makedirs(self.folder, 0o700, exist_ok=True)
            with tempfile.NamedTemporaryFile("w", dir=self.folder, prefix=".new-", delete=False, encoding="utf-8") as made:
                json.dump({**self.read(self.path()), **found, OWN: own_sum(self.crate)}, made)
            os.replace(made.name, self.path())
            self.drop_oldest()

    def drop_oldest(self) -> None:
        for path in sorted(self.paths(), key=os.path.getmtime)[:-MOST]:
            os.remove(path)
