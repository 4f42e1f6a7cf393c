"""Mutants as copies of their function, which stand beside it under other names: one check judges many of them."""
import itertools
import os
import re
import shutil
from typing import NamedTuple, Optional

from .functions import Function
from .mutant import Mutant
from .verdicts import REFUSED, Outcome, Said, is_whole, judged_by_functions


class Copy(NamedTuple):
    """A function once more under another name: with the body of a mutant or, where there is none, as it stands."""

    mutant: Optional[Mutant]
    of: Function
    name: str

    def path(self) -> str:
        return "::".join([*self.of.path.split("::")[:-1], self.name])

    def text(self, raw: bytes) -> str:
        """The copy's own lines, from those of the source."""
        end = self.of.end
        start = raw.rindex(b"\n", 0, self.of.item) + 1 if b"\n" in raw[: self.of.item] else 0
        for _, old, new in self.mutant.pairs if self.mutant else []:
            raw = raw.replace(old.encode(), new.encode())
            end += len(new.encode()) - len(old.encode())
        behind = self.of.named + len(self.of.path.split("::")[-1].encode())
        return (raw[start : self.of.named] + self.name.encode() + raw[behind:end]).decode()

    def at(self, lines: range) -> Function:
        """The copy, where it stands on these lines."""
        return self.of._replace(path=self.path(), lines=lines)


class Source:
    """A source with copies behind their functions.

    Its text may have mutants in it: as none has a line feed, each function ends on the line on which it does in the source as it stands.
    """

    def __init__(self, text: str, raw: bytes, copies: list[Copy]):
        self.placed: dict[Copy, Function] = {}
        # Where each line of the source stands here, and of which line of the source each line here is; the lines are counted from one.
        self.moved, self.rows = [0], [0]
        made: list[str] = []
        for row, line in enumerate(text.split("\n"), 1):
            made.append(line)
            self.moved.append(len(made))
            self.rows.append(row)
            for copy in copies:
                if copy.of.lines.stop - 1 == row:
                    lines = copy.text(raw).split("\n")
                    self.placed[copy] = copy.at(range(len(made) + 2, len(made) + 2 + len(lines)))
                    made += ["", *lines]
                    self.rows += [row, *range(row + 1 - len(lines), row + 1)]
        self.text = "\n".join(made)


def copies_of(mutants: list[Mutant], stem: str, folder: str) -> list[Copy]:
    """A copy for each mutant.

    Where a function has proof files, one more as it stands: only where that is not refused do the others tell anything.
    """
    numbers, found = itertools.count(), []
    for function in dict.fromkeys(it.changes for it in mutants):
        named = f"{function.path.split('::')[-1]}{stem}"
        mine = [it for it in mutants if it.changes == function]
        as_it_stands = [None] if proofs_of(folder, function) else []
        found += [Copy(it, function, f"{named}{next(numbers)}") for it in [*as_it_stands, *mine]]
    return found


def refused_copies(placed: dict[Copy, Function], said: Said) -> dict[Mutant, Outcome]:
    """The mutants whose copies are refused, where the copy of their function as it stands is not."""
    told = {it: judged_by_functions([at], said) for it, at in placed.items()}
    is_refused = {it for it, outcome in told.items() if outcome and outcome.word == REFUSED}
    faithless = {it.of for it, at in placed.items() if not it.mutant and (it in is_refused or not is_whole(at, said))}
    of_function = lambda it: told[it].why.replace(it.name, it.of.path.split("::")[-1])
    return {it.mutant: Outcome(REFUSED, of_function(it)) for it in is_refused if it.mutant and it.of not in faithless}


def stem_for(folder: str) -> str:
    """What follows the function's name in that of a copy: no file of the crate has it."""
    texts = []
    for part in ("src", "specs", "proofs"):
        for at, _, names in os.walk(f"{folder}/{part}"):
            for name in names:
                with open(f"{at}/{name}", "rb") as file:
                    texts.append(file.read())
    stem = "_m"
    while any(re.search(rf"{stem}\d".encode(), it) for it in texts):
        stem += "m"
    return stem


def proofs_of(folder: str, function: Function) -> list[str]:
    """The folders that may hold the function's own proof files, by their paths in the crate."""
    end = "/" + function.path.replace("::", "/")
    found = [at[len(folder) + 1 :] for at, _, _ in os.walk(f"{folder}/proofs")]
    module = "/" + function.path.split("::")[-1] if function.file in ("src/lib.rt", "src/main.rt") else end
    return [it for it in found if it.endswith(end) or it == f"proofs{module}"]


def copy_proofs(folder: str, found: str, name: str) -> str:
    """Copies the proof files of a function for a copy of that name, and returns their folder."""
    made = os.path.join(os.path.dirname(found), name)
    shutil.copytree(f"{folder}/{found}", f"{folder}/{made}")
    dotted = lambda it: it.removeprefix("proofs/").replace("/", ".")
    own = re.compile(rf"(\.proofs\.|\.contracts\.){re.escape(dotted(found))}(?![\w+-])")
    # (a file Proof.antt exports the whole proof under this name)
    whole = re.compile(rf"\b{re.escape(os.path.basename(found))}_spec\b")
    for at, _, names in os.walk(f"{folder}/{made}"):
        for it in names:
            with open(f"{at}/{it}", encoding="utf-8") as file:
                text = file.read()
            with open(f"{at}/{it}", "w", encoding="utf-8") as file:
                file.write(whole.sub(f"{name}_spec", own.sub(lambda it: it[1] + dotted(made), text)))
    return made


def can_be_copied(folder: str, function: Function) -> bool:
    """Whether a copy of the function is judged as it is: it stands apart, is called by itself in no way, and its proof is found."""
    *above, name = function.path.split("::")
    recursive = any(it.endswith(f"/+{name}") for it in proofs_of(folder, function._replace(path="::".join([*above, f"+{name}"]))))
    return function.stands_apart and not function.cycle and not recursive and len(proofs_of(folder, function)) <= 1
