"""Jobs in parts whose runs are left to engines: the workers of a Dask scheduler, or whoever runs a list of commands."""
import random
import shlex
import subprocess
import sys
from collections import deque
from typing import NamedTuple

from . import cutting, listing
from .cutting import Counting
from .finding_dask import go_on_with_dask
from .machines import Done, Machines, Task, machines_for
from .output import give, tell
from .parts import Fault, Joiner, Part, Picture, Plan, plan, read_part
from .parts.performing import KEPT, InParts, is_of_text, numbers_in, refuse_words, samples_of
from .progress import doing
from .rooms import room_for
from .text import Refused
from .words import Asked


# the draws of audits, which no worker can tell beforehand
CHANCE = random.SystemRandom()
# the most digits of a number in a total, with the blank before it, and what else its line has
DIGITS, MORE = 21, 64


class ForEngine(InParts):
    """A job in parts, each of which is a task."""

    def task(self, part: Part, found: Plan, picture: Picture) -> Task:
        return Task(f"part {part.number}", ["eval", *self.options(), *part.words], lambda: read_part(picture, part), most_of(found, part))


def most_of(found: Plan, part: Part) -> int:
    """How many bytes a part's result has at most."""
    lines = sum(len(it.name) + MORE + DIGITS * it.bins.count() for it in found.totals if it.name in part.totals)
    return lines + (MORE + part.output.count() * found.output.width if part.output else 0)


class ByDask(ForEngine):
    """The parts are run by workers; some of a hundred, as many as `share`, are run here too, and compared."""

    share = 0
    # the workers that were left out of this call
    left_out: frozenset[str] = frozenset()

    def run_parts(self, found: Plan, picture: Picture, joiner: Joiner) -> int:
        parts = {f"part {it.number}": it for it in found.parts}
        self.compared, self.keys = 0, {}
        tasks = deque(self.task(it, found, picture) for it in self.not_kept(found, picture, joiner))
        with machines_for(self.asked, self.left_out) as machines, doing("parts by workers", lambda: 1 - len(joiner.missing) / len(parts)):
            while tasks:
                for done in machines.results(tasks):
                    part = parts[done.task.name]
                    if done.status and done.is_so_here():
                        return self.explain_part(found, part, subprocess.CompletedProcess([], done.status, done.written))
                    wrong = self.wrong(done, part, joiner)
                    if wrong:
                        machines.leave_out(done.worker, f"{wrong}; what it gave is made again by others")
                        tasks.append(done.task)
                    tasks += self.again(machines, found, picture, joiner)
                # (the last answer may have shown a worker to be at fault)
                tasks += self.again(machines, found, picture, joiner)
            self.left_out = frozenset(machines.left_out)
        self.tell_kept(joiner)
        if "--quiet" not in self.asked.own and not self.is_counting:
            tell(f"{len(parts)} parts by workers; {self.compared} compared with a run here")
        return 0

    def again(self, machines: Machines, found: Plan, picture: Picture, joiner: Joiner) -> list[Task]:
        """The tasks of all parts that were given by workers which are left out since."""
        numbers = {number for it in machines.left_out_since() for number in self.taken_back(joiner, it)}
        return [self.task(it, found, picture) for it in found.parts if it.number in numbers]

    def wrong(self, done: Done, part: Part, joiner: Joiner) -> str:
        """What is wrong with a part, or nothing; then it is put in."""
        if done.status:
            return f"it told a fault of {done.task.name} that the program here does not find"
        if self.is_drawn() and not done.is_so_here():
            return f"it gave another result of {done.task.name} than the program here"
        try:
            joiner.put(part, done.written, done.worker)
        except Refused as fault:
            return f"of {done.task.name} it gave what is none ({fault})"
        self.kept.put(self.keys[part.number], done.written)
        return ""

    def is_drawn(self) -> bool:
        """Whether a part is to be compared."""
        found = CHANCE.randrange(100) < self.share
        self.compared += found
        return found

    def not_kept(self, found: Plan, picture: Picture, joiner: Joiner) -> list[Part]:
        """The parts that are to be made: not those that are kept, unless one that is compared is another here. Then none of them is believed."""
        is_believed = True
        for part in found.parts:
            task = self.task(part, found, picture)
            key = self.keys[part.number] = self.kept.key(task.words, task.data)
            known = self.kept.result(key)
            if known is not None and is_believed and self.is_drawn() and not Done(task, KEPT, 0, known).is_so_here():
                is_believed = False
                tell(f"{self.asked.own['--resume']}: {task.name} there is not what the program here makes of it; all its parts are made again")
                self.taken_back(joiner, KEPT)
                self.kept.drop(key)
            if known is not None and is_believed:
                joiner.put(part, known, KEPT)
        return [it for it in found.parts if it.number in joiner.missing]

    def taken_back(self, joiner: Joiner, source: str) -> list[int]:
        """The numbers of the parts that a source gave, none of which is kept any more."""
        numbers = joiner.take_back(source)
        for number in numbers:
            self.kept.drop(self.keys[number])
        return numbers


class ByList(ForEngine):
    """The parts are written into a folder, with the commands that make their results."""

    def in_parts(self, picture: Picture) -> int:
        status = self.refuse_text(picture)
        if status:
            return status
        counting, folder = self.counted(picture), self.asked.target
        found = self.plan(picture, self.text)
        tasks = (self.task(it, found, picture) for it in found.parts)
        with doing(f"writing {len(found.parts)} parts"):
            count = listing.write(folder, tasks, {**self.planned(found), **counting})
        tell(f"{count} lines in {folder}/{listing.COMMANDS}; when all of them are done: tf join {shlex.quote(folder)} -o RESULT")
        return 0

    def counted(self, picture: Picture) -> dict:
        """Lets the text count the samples that are cut, where that is accepted, and answers what the plan says of them."""
        self.text, found = self.input.sections["program"].data, self.counting()
        if found is None or is_of_text(self.checked(picture, self.text + found[1].text())):
            return {}
        self.text += found[1].text()
        return {"cut": {"times": found[1].times, "where": cutting.where(self.input, found[0].program)}}

    def planned(self, found: Plan) -> dict:
        """What the plan is made from again."""
        text, tables = self.text, b"".join(it.data + b"\n" for it in self.input.tables)
        values = dict(word.split("=") for word in found.parts[0].words)
        return {"program": text.decode("latin-1"), "values": values, "rows": found.height, "cols": found.width, "planes": found.planes,
                "side": self.side, "tables": tables.decode("latin-1")}


class Joined(InParts):
    """The results of a list, put together."""

    def __init__(self, given: Asked, room: str):
        self.asked, self.room = given, room

    def perform(self) -> int:
        listed = listing.read(self.asked.files[0])
        listed.refuse_faults()
        found = plan_of(listed)
        if found.output and self.asked.target is None and sys.stdout.isatty():
            raise Refused("a picture would go to the terminal: name a file for it, as -o result.png", 1)
        with open(f"{self.room}/result", "wb") as out:
            joiner = Joiner(found, out)
            for part, result in zip(found.parts, listing.results(listed)):
                joiner.put(part, result)
            totals = self.judged(joiner.close(), found, counting_in(listed))
        self.deliver_file(found, f"{self.room}/result")
        give(totals)
        return 0

    def judged(self, totals: bytes, found: Plan, counting: "Counted") -> bytes:
        """The lines of the program's own accumulators. Those behind them count the samples that are cut, which are told where they are many."""
        lines = totals.splitlines(keepends=True)
        own = len(lines) - len(counting.times)
        counts = numbers_in(b"".join(lines[own:]))
        share = Counting([], counting.times).share(counts, samples_of(found)) if counts and found.output else 0.0
        if share > cutting.MOST_SHARE:
            self.say_cut(f"{100 * share:.0f} %{counting.where}")
        return b"".join(lines[:own])


class Counted(NamedTuple):
    """How often the output has what each of the last accumulators counts, and what is said of samples that are cut."""

    times: list[int]
    where: str


def counting_in(listed: listing.Listed) -> Counted:
    """What a list says of its counts of samples that are cut."""
    try:
        it = listed.planned.get("cut", {"times": [], "where": ""})
        return Counted([int(times) for times in it["times"]], str(it["where"]))
    except (KeyError, TypeError, ValueError, AttributeError) as error:
        raise Refused(f"{listed.folder}: no counts can be read of what {listing.PLAN} has there ({error})") from error


def plan_of(listed: listing.Listed) -> Plan:
    """The plan of a list, made again."""
    it = listed.planned
    try:
        values = {name: int(value) for name, value in it["values"].items()}
        text, tables = it["program"].encode("latin-1"), it["tables"].encode("latin-1")
        found = plan(text, values, it["rows"], it["cols"], it["planes"], it["side"], tables)
    except (Fault, KeyError, ValueError, AttributeError) as error:
        raise Refused(f"{listed.folder}: no plan can be made again of what {listing.PLAN} has there ({error})") from error
    if len(found.parts) != len(listed.names):
        raise Refused(f"{listed.folder}: the tf here cuts this job into {len(found.parts)} parts, and the list has {len(listed.names)}")
    return found


def by_dask(words: list[str], given: Asked, share: int) -> int:
    """Runs the parts by workers."""
    refuse_words(given)
    go_on_with_dask()
    with room_for(given.target) as room:
        job = ByDask(words, given, room)
        job.share = share
        return job.perform()


def by_list(words: list[str], given: Asked) -> int:
    """Writes the parts and their commands."""
    refuse_words(given)
    listing.refuse_folder(given.target)
    with room_for(None) as room:
        return ByList(words, given, room).perform()


def join_list(given: Asked) -> int:
    """Joins the results of a list."""
    with room_for(given.target) as room:
        return Joined(given, room).perform()
