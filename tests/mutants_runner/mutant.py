"""A mutant: the texts that it changes, and the functions whose proofs must fail for it."""
import hashlib
import itertools
import re
from typing import Optional

from .functions import Function
from .toolchain import rt


class Mutant:
    """A mutant of the crate in a folder: what its text says, with a label for it.

    `fault` says why it cannot be applied, if it cannot. Once placed, `functions` are those that it is judged by, and none where
    only a check of the whole crate can tell; `shares` says whether it may stand in one copy beside mutants of other functions.
    """

    def __init__(self, label: str, folder: str, text: str):
        self.label, self.folder, self.text = label, folder, text
        only = re.search(r"(?m)^only: *(\S+) *$", text)
        self.only = only[1] if only else ""
        self.pairs = pairs_of(text)
        self.fault: Optional[str] = rt.edited(text, folder)[1]
        self.functions: list[Function] = []
        self.shares = False
        # The one function whose body is all that it changes, where it is judged by that.
        self.changes: Optional[Function] = None
        # Whether a check of it in its place, or of a copy of its function, left it open.
        self.was_unclear = False
        self.was_copied = False

    def sum(self) -> str:
        return hashlib.sha256(self.text.encode()).hexdigest()

    def place(self, functions: list[Function]) -> None:
        """Finds the functions in whose bodies the changed texts stand, or the one that `only:` names."""
        around = self.bodies(functions)
        # What changes outside of bodies, as a constant or a clause, can change what other functions are to prove.
        self.shares = all(around)
        if self.only:
            is_end = lambda end, path: f"::{path}".endswith(f"::{end}")
            named = [it for it in functions if is_end(self.only, it.path) or is_end(it.path, self.only)]
            self.functions = [it._replace(path=self.only) for it in named[:1]]
            if not named:
                self.fault = f"no function with a body has the name {self.only}, which its 'only:' line gives"
            self.changes = around[0] if {*around} == {*named[:1]} else None
            return
        inside = [it for it in around if it]
        is_use = lambda pair: pair[1].lstrip().startswith(("use ", "pub use ", "pub(crate) use "))
        if all(it or is_use(pair) for it, pair in zip(around, self.pairs)):
            self.functions = [*dict.fromkeys(inside)]
        self.changes = around[0] if len({*around}) == 1 else None

    def bodies(self, functions: list[Function]) -> list[Optional[Function]]:
        """For each pair the function in whose body its old text stands, if there is one.

        A pair may change what one above it made. No text has a line feed, so that each line stays where it is.
        """
        sources = {file: text_of(f"{self.folder}/{file}").split("\n") for file, _, _ in self.pairs}
        starts = {file: line_starts(lines) for file, lines in sources.items()}
        known: dict[tuple[str, int], Optional[Function]] = {}
        found = []
        for file, old, new in self.pairs:
            lines = sources[file]
            row = next(at for at, it in enumerate(lines) if old in it)
            if (file, row) not in known:
                at = starts[file][row] + len(lines[row].partition(old)[0].encode())
                known[file, row] = enclosing(functions, file, at, len(old.encode()))
            found.append(known[file, row])
            lines[row] = lines[row].replace(old, new)
        return found

    def keys(self) -> set[str]:
        """What no other mutant of its round may have."""
        return {it.path for it in self.functions} | {f"+{it.cycle}" for it in self.functions if it.cycle}


def pairs_of(text: str) -> list[tuple[str, str, str]]:
    """The file, the old text and the new text of each pair, as the toolchain reads them."""
    file, old, pairs = "", "", []
    for line in text.split("\n"):
        if line.startswith("file: "):
            file = line[len("file: ") :].strip()
        elif line.startswith("old: "):
            old = line[len("old: ") :]
        elif line.startswith("new:"):
            new = line[len("new:") :]
            pairs.append((file, old, new[1:] if new.startswith(" ") else new))
    return pairs


def text_of(path: str) -> str:
    with open(path, encoding="utf-8") as file:
        return file.read()


def line_starts(lines: list[str]) -> list[int]:
    """The byte at which each line begins."""
    return [0, *itertools.accumulate(len(it.encode()) + 1 for it in lines)]


def enclosing(functions: list[Function], file: str, at: int, length: int) -> Optional[Function]:
    """The innermost function in whose body the text stands, if there is one."""
    around = [it for it in functions if it.file == file and it.body < at and at + length < it.end]
    return min(around, key=lambda it: it.end - it.start, default=None)
