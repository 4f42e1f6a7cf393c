"""A job whose tiles are made by others: they give facts, which are merged, audited by share, and put together."""
import math
import random
import struct
from collections import deque
from typing import Iterator, NamedTuple

from .answering import Answer
from .fact_calls import FactFiles
from .fact_spools import spool_of
from .facts import Record, line_of, records_of
from .joining import SEPARATOR
from .machines import Done, Machines, Task
from .fact_scripts import Group, Scripts, node_line, told
from .making import Maker, Tile
from .running import run
from .text import Refused

# how many tasks each thread of a worker gets, so that what is late or lost is little
TASKS_A_THREAD = 4
FALSE = 6
# the bytes of what a world of two nodes writes, without the facts
MORE = 1000


class Given(NamedTuple):
    """Who made the tiles of a group, their facts as a line of a fact file, and those that are to be audited."""

    worker: str
    line: bytes
    drawn: list[Record]


class Sharing:
    """One job, shared among workers."""

    def __init__(self, maker: Maker, check: str, plan: str, words: list[str], share: int):
        self.maker, self.words, self.share = maker, words, share
        self.answer = Answer(maker, check)
        self.tiles = {it.label(): it for it in self.answer.wanted}
        self.scripts = Scripts(maker, check, plan)
        self.groups: dict[str, Group] = {}
        self.given: dict[str, Given] = {}
        # the groups whose drawn facts were audited, and how many facts these were in all
        self.seen: set[str] = set()
        self.count = 0

    def parted(self, count: int) -> list[Group]:
        """The tiles in as many groups, neighbours together, and more where a script would be too long."""
        tiles, size = self.answer.wanted, max(-(-len(self.answer.wanted) // max(count, 1)), 1)
        groups = (Group(tuple(tiles[at : at + size])) for at in range(0, len(tiles), size))
        return [fit for it in groups for fit in self.scripts.fitting(it)]

    def task(self, group: Group) -> Task:
        self.groups[group.words()] = group
        data = self.scripts.input(group)
        most = MORE + sum(map(self.answer.digits, group.tiles))
        return Task(group.words(), ["world", "--nodes", "2", *self.words], lambda: data, most)

    def written(self, machines: Machines) -> bytes:
        """What `eval` writes of the job, by the facts of the workers. What is audited is drawn when all tasks have ended."""
        count = TASKS_A_THREAD * max(sum(machines.threads().values()), 1)
        tasks = deque(map(self.task, self.parted(count)))
        while tasks:
            for done in machines.results(tasks):
                wrong = self.wrong(done)
                if wrong:
                    leave_out(done.worker, wrong, machines)
                    tasks.append(done.task)
                tasks += self.again(machines)
            for worker, wrong in self.audited():
                leave_out(worker, wrong, machines)
            tasks += self.again(machines)
        self.answer.take(self.merged())
        return self.answer.written()

    def again(self, machines: Machines) -> list[Task]:
        """The tasks of all that workers gave which are left out since: it is thrown away."""
        workers = machines.left_out_since()
        names = [name for name, it in self.given.items() if it.worker in workers]
        for name in names:
            del self.given[name]
            self.seen.discard(name)
        return [self.task(self.groups[it]) for it in names]

    def wrong(self, done: Done) -> str:
        """What is wrong with the form of what a task gave, or nothing; then its facts are held."""
        if done.status and done.is_so_here():
            raise Refused(f"{done.task.name}: {done.line()}", done.status)
        if done.status:
            return f"it told a fault of {done.task.name} that the program here does not find"
        group, line = self.groups[done.task.name], node_line(done.written)
        facts = facts_in(line)
        if facts is None:
            return f"for {group.words()} it gave no file of facts"
        if sorted(map(Record.label, facts)) != sorted(map(Tile.label, group.tiles)) or not all(map(self.is_of_job, facts)):
            return f"for {group.words()} it gave facts of something else"
        drawn = random.SystemRandom().sample(facts, math.ceil(len(facts) * self.share / 100))
        self.given[done.task.name] = Given(done.worker, line, drawn)
        return ""

    def is_of_job(self, fact: Record) -> bool:
        """Whether a fact is of this job and has as many numbers as its tile."""
        is_shaped = self.answer.is_shaped(fact.kind, fact.count, self.tiles[fact.label()])
        return is_shaped and fact.ids() == (self.answer.program, self.answer.input)

    def audited(self) -> list[tuple[str, str]]:
        """The workers that gave a fact which is not true, among those that were drawn of what is new, each with the first such fact."""
        fresh = [it for name, it in self.given.items() if name not in self.seen]
        drawn = {fact.label(): (it.worker, fact) for it in fresh for fact in it.drawn}
        self.count += len(drawn)
        found: dict[str, str] = {}
        for verdict, label in self.verdicts([it for _, it in drawn.values()]) if drawn else []:
            if verdict != "True":
                found.setdefault(drawn[label][0], f"its fact of tile {self.place(label)} is {verdict}")
        self.seen = {name for name, it in self.given.items() if it.worker not in found}
        return [*found.items()]

    def verdicts(self, facts: list[Record]) -> Iterator[tuple[str, tuple[int, ...]]]:
        """What `tilefarm audit` says of facts, each of another tile."""
        ended = run(["audit", *self.words], SEPARATOR.join((self.maker.text, line_of(facts), self.maker.given.last())))
        if ended.status not in (0, FALSE):
            raise Refused(f"tilefarm does not audit: {ended.written.decode('utf-8', 'replace').strip()}", ended.status)
        for line in ended.written.decode("ascii").splitlines():
            verdict, *label = line.split()
            yield verdict, tuple(map(int, label))

    def place(self, label: tuple[int, int, int]) -> str:
        it = self.tiles[label]
        return f"{told(it)} (rows {it.rows.least} to {it.rows.most}, columns {it.cols.least} to {it.cols.most})"

    def merged(self) -> Iterator[Record]:
        """The union of all facts that are held, as `tilefarm merge` tells it."""
        found = FactFiles([spool_of("the facts of workers", (it.line for it in self.given.values()))], {}, ["tf"]).union()
        return map(found.record, found.places())

    def done(self) -> float:
        """The share of tiles that are held."""
        return sum(len(self.groups[it].tiles) for it in self.given) / max(len(self.tiles), 1)

    def summary(self) -> str:
        workers = {it.worker for it in self.given.values()}
        return f"{len(self.tiles)} tiles by {counted(len(workers), 'worker')}; {counted(self.count, 'fact')} audited"


def leave_out(worker: str, wrong: str, machines: Machines) -> None:
    """Leaves a worker out that gave what is wrong."""
    machines.leave_out(worker, f"{wrong}; what it gave is made again by others")


def counted(count: int, what: str) -> str:
    return f"{count} {what}{'s' * (count != 1)}"


def facts_in(line: bytes) -> list[Record] | None:
    """The facts of a line, where it is spelled as it should be."""
    try:
        found = records_of(line.removesuffix(b"\n"))
        return found if line_of(found) == line else None
    except (ValueError, struct.error):
        return None
