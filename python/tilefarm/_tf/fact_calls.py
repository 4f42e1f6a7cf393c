"""Calls of tf that take fact files which may be large: merge and answer. The facts are on the disk, and no more than a piece of them is held."""
import contextlib
import re
from typing import BinaryIO, Iterable, Iterator, NoReturn

from .answering import Answer
from .blame import Situation
from .call import FOUND_FALSE, Call, tell_costs, wanted
from .fact_rounds import Union, merged
from .fact_spools import Odd, Place, Spool, spool_of, spooled
from .facts import Ids
from .faults import explained
from .joining import SEPARATOR, Input, Section, ended, joined, table_bytes
from .making import Maker
from .output import show
from .parser import known_program
from .progress import doing
from .running import Ended, run, run_files
from .text import Failed, Refused, Text
from .usage import COMMANDS, FACTS, ONE

# how many bytes one run is given at most
MOST_INPUT = 536_870_912
# how a line of an audit begins that is of a fact
VERDICT = re.compile(rb"(True|False|Misshapen|Foreign) ")
# the options that a merge by rounds takes
OF_MERGES = {"-o", "--quiet", "--time", "--memory"}


class FactFiles:
    """The fact files of a call. `section` is their text where that was part of a whole input."""

    def __init__(self, spools: list[Spool], own: dict[str, str], command_line: list[str], section: Section | None = None):
        self.spools, self.own, self.command_line, self.section = spools, own, command_line, section
        self.costs: Ended | None = None

    def union(self) -> Union:
        """The merge of all of them. What is wrong with one ends tf."""
        try:
            found = merged(self.spools, self.run)
        except Odd:
            self.explain()
        if self.costs:
            tell_costs(self.own, self.costs)
        return found

    @contextlib.contextmanager
    def run(self, blocks: Iterable[bytes]) -> Iterator[BinaryIO | None]:
        """A run of merge."""
        with run_files(["merge"], blocks, "--memory" in self.own) as (ran, written):
            before = self.costs or ran._replace(seconds=0.0)
            self.costs = ran._replace(seconds=before.seconds + ran.seconds, memory=max(before.memory, ran.memory))
            yield None if ran.status else written

    def explain(self) -> NoReturn:
        """Shows what the program says is wrong: of all files, where they are one input, else of the first that has something wrong."""
        is_one = sum(it.length for it in self.spools) <= MOST_INPUT
        for spools in [self.spools] if is_one else [[it] for it in self.spools]:
            section = self.section or section_of(spools)
            ran = run(["merge"], section.data)
            if ran.status:
                given = Input({FACTS: section}, section.data)
                show("\n".join(explained(ran.written.decode("utf-8", "replace").rstrip("\n"), Situation(["merge"], given, command_line=self.command_line))))
                raise Failed(ran.status)
        raise Refused("tf does not read these fact files as tilefarm does: this is a mistake of tf, or TILEFARM names a program that is no tilefarm", 7)

    def retiring(self, ids: Ids) -> str | None:
        """Where a job is retired, by the first line that does, if any does."""
        lines = ((spool.name, number, line) for spool in self.spools for number, line in spool.lines())
        return next((f"{name}:{number}" for name, number, line in lines if ids in line.retired()), None)


def section_of(spools: list[Spool]) -> Section:
    """The texts of spools, one behind the other."""
    texts = [Text(it.name, ended(b"".join(it.blocks()))) for it in spools]
    return Section(texts[0], b"".join(it.data for it in texts), more=texts[1:])


def spools_of(paths: list[str]) -> list[Spool]:
    """The texts of fact files. One that is named again is the same."""
    known: dict[str, Spool] = {}
    for path in paths:
        if path not in known:
            with doing(f"reading {path}"):
                known[path] = spooled(path)
    return [*known.values()]


class Merging(Call):
    """A call of merge, of files alone."""

    def read(self, said: list[str]) -> Input:
        self.files = FactFiles(spools_of(self.asked.files), self.asked.own, ["tf", *self.all_words])
        return Input({}, b"")

    def perform(self) -> int:
        self.deliver_lines(self.files.union())
        return 0


class Answering(Call):
    """A call of answer. Its program and its picture are held."""

    def read(self, said: list[str]) -> Input:
        files, section = self.asked.files, None
        if len(files) > len(ONE):
            command = COMMANDS["eval"]._replace(name=self.asked.name)
            found = joined(command, files[: len(ONE)], wanted(self.asked.own), said, self.asked.tables, self.asked.words)
            spools = spools_of(files[len(ONE) :])
        else:
            found = super().read(said)
            section = found.sections.get(FACTS)
            if not {*ONE} <= {*found.sections}:
                return found
            spools = [spool_of(section.text.name, [section.data])]
        self.files = FactFiles(spools, {}, ["tf", *self.all_words], section)
        return Input({it: found.sections[it] for it in ONE}, b"", found.tables, found.supplied)

    def blocks(self, more: Iterable[bytes] = (), has_facts: bool = False) -> Iterator[bytes]:
        """The input of the program, with facts or without."""
        yield self.input.sections["program"].data + SEPARATOR
        yield from more
        yield SEPARATOR * has_facts + table_bytes(self.input.tables)
        yield self.input.sections["picture"].data

    def perform(self) -> int:
        """Puts the result together, out of the facts that an audit calls true, or out of all."""
        if not {*ONE} <= {*self.input.sections}:
            return self.explain(super().run("audit"), "audit")
        check = self.checked()
        program = known_program(self.input.sections["program"].data)
        if program is None:
            raise Refused("tf does not read this program as tilefarm does")
        found, union = Answer(Maker(self.input, program, self.asked.words), check), self.files.union()
        where = self.files.retiring((found.program, found.input))
        if where:
            job = " and ".join(self.input.sections[it].text.name for it in ONE)
            raise Refused(f"the job of {job} is retired, by {where}: its tiles are not to be put together any more")
        places = union.places() if "--trust" in self.asked.own else self.true_places(union)
        found.take(map(union.record, places))
        picture, totals = found.result()
        if picture:
            self.deliver_picture(picture, totals)
        else:
            self.deliver_lines([totals])
        return 0

    def checked(self) -> str:
        """What `check` tells of the job; a fault ends tf."""
        with run_files(["check", *self.asked.words], self.blocks()) as (ran, written):
            ran = ran._replace(written=written.read())
        if ran.status:
            raise Failed(self.explain(ran, "check"))
        return ran.written.decode("ascii", "replace")

    def true_places(self, union: Union) -> Iterator[Place]:
        """Where the facts stand that an audit calls true: it tells them in their order."""
        most = MOST_INPUT - sum(map(len, self.blocks()))
        places = union.places()
        for count, share in union.shares(most):
            with run_files(["audit", *self.asked.words], self.blocks(share, True), "--memory" in self.asked.own) as (ran, written):
                if ran.status not in (0, FOUND_FALSE):
                    raise Failed(self.explain(ran._replace(written=written.read()), "audit"))
                tell_costs(self.asked.own, ran)
                for _ in range(count):
                    verdict, place = written.readline(), next(places)
                    if not VERDICT.match(verdict):
                        raise Refused("the audit does not tell as many facts as there are")
                    if verdict.startswith(b"True "):
                        yield place


def merge(asked: "Asked", words: list[str]) -> int:
    """Merges fact files."""
    is_plain = bool(asked.files) and not asked.words and not asked.tables and {*asked.own} <= OF_MERGES
    return (Merging if is_plain else Call)(words).perform()


def answer(_: "Asked", words: list[str]) -> int:
    """Puts the result of a job together."""
    return Answering(words).perform()
