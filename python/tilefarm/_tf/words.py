"""The words of tf's command line, parted into what is tf's own and what the program judges."""
import os
from typing import Iterable, Mapping

from .near import meant
from .text import Refused
from .usage import COMMANDS, OPTIONS, OWN_OPTIONS, Command, valued

OWN = {it.name: it.value for it in OWN_OPTIONS}
# what stands for the name of each picture in that of its result, and the commands that take several pictures
NAME = "{name}"
OF_MANY = ("eval", "run")
# the options that go with Dask alone
OF_DASK = ("--scheduler", "--facts", "--audit", "--task-seconds", "--scheduler-file", "--wait")


class Asked:
    """The words of the command line, parted: the command, files, words for the program, tf's own options, and files by stages."""

    def __init__(self, name: str = "", files: Iterable[str] = (), own: Mapping[str, str] | None = None, tables: Iterable[str] = (),
                 stages: Mapping[str, str] | None = None):
        self.name, self.files, self.tables = name, [*files], [*tables]
        self.own, self.stages = {**(own or {})}, {**(stages or {})}
        self.words: list[str] = []

    def with_target(self, target: str, stages: Mapping[str, str] | None = None) -> "Asked":
        """What is asked of the same files, with another one for the result, and for the results of stages."""
        return Asked(self.name, self.files, {**self.own, "-o": target}, self.tables, stages)

    @property
    def target(self) -> str | None:
        """The file that -o names; standard output, which - is, is what serves without it."""
        return None if self.own.get("-o") == "-" else self.own.get("-o")

    def is_many(self) -> bool:
        """Whether there are several pictures, or a name for the result of each."""
        return self.name in OF_MANY and (len(self.files) > 2 or (len(self.files) == 2 and NAME in self.own.get("-o", "")))

    def command(self) -> Command:
        """The command of `tilefarm` that runs. What draws and joins takes the files of `eval`; what joins more, those of `audit`;
        what lists facts, those of `merge`."""
        takes_facts = self.name == "answer" or (not self.name and len(self.files) > 2)
        usual = "audit" if takes_facts else "merge" if "--list" in self.own else "eval"
        return COMMANDS.get(self.name, COMMANDS[usual])


def asked(words: list[str]) -> Asked:
    """What the words ask for. Options that are not tf's go to the program, which judges them."""
    found, rest, is_named = Asked(), list(words), False
    while rest:
        word = rest.pop(0)
        name, is_joined, value = word.partition("=")
        if name == "--table":
            found.tables.append(own_value(name, value if is_joined else None, rest))
        elif name == "--stage" and "=" in (value if is_joined else "".join(rest[:1])):
            add_stage(found, own_value(name, value if is_joined else None, rest))
        elif name in OWN:
            if name in found.own and OWN[name]:
                raise Refused(f"{name} is given twice: {name} {found.own[name]}, and once more", 1)
            found.own[name] = own_value(name, value if is_joined else None, rest)
        elif name.startswith("--"):
            found.words += [word, *([rest.pop(0)] if not is_joined and takes_next(name, rest) else [])]
        elif not is_named and "--join" not in found.own:
            found.name, is_named = word, True
        elif "=" in word and not os.path.exists(word):
            found.words.append(word)
        else:
            found.files.append(word)
    return found


def add_stage(found: Asked, value: str) -> None:
    """Adds a stage with the file that its picture goes to."""
    stage, _, file = value.partition("=")
    if stage in found.stages:
        raise Refused(f"--stage {stage} is given two files: name one", 1)
    found.stages[stage] = file


def takes_next(name: str, rest: list[str]) -> bool:
    """Whether an option of the program takes the next word: by its name, or where nobody knows it and the word is a number. A file or
    another option is no value."""
    if not rest or rest[0].startswith("--") or os.path.exists(rest[0]):
        return False
    known = {it.name for it in OPTIONS}
    return name in valued() if name in known else rest[0].isdigit()


def misread(asked: Asked) -> str:
    """What is wrong with words that were read otherwise than they were meant, or nothing."""
    alone = next((it for it in asked.words if not it.startswith("--") and "" in it.split("=")), None)
    if alone is not None and len(asked.files) > len(asked.command().files):
        return f"a value stands directly behind its name and a =, without blanks: R=5, and not R = 5 (here: {alone})."
    known = {it.name for it in OPTIONS}
    other = next((it for it in asked.words if it.startswith("--") and it.partition("=")[0] not in known), None)
    if other and len(asked.files) > len(asked.command().files):
        return f"there is no option {other}: tf --help lists them.{meant(other, [*known, *OWN])}"
    return ""


def own_value(name: str, joined_value: str | None, rest: list[str]) -> str:
    """The value of one of tf's own options."""
    if not OWN[name]:
        return ""
    if joined_value is None and not rest:
        raise Refused(f"{name} takes {OWN[name]}", 1)
    return rest.pop(0) if joined_value is None else joined_value
