"""One program over many pictures, each as by a tf of its own, but in one process."""
import contextlib
import os
import re
import threading
from typing import NamedTuple

from . import aside
from .cutting import SIGN
from .output import ending, say, tell
from .progress import counting
from .joining import read_file
from .running import MOST_IN_MEMORY, program
from .text import Refused
from .targets import identities, judge, judge_stages
from .whole_numbers import whole_number
from .words import NAME, Asked

ENDING = "{ending}"
OWN_HERE = ("-o", "--jobs", "--skip-done")
# the options of calls that do nothing beside one run of the program, where the picture is one of these, and the result too, or a PNG
LIGHT, RAW = {*OWN_HERE, "--strict", "--quiet", "--table"}, (".pgm", ".ppm", ".pnm")
# what a line about a picture that the program refuses says to people
FAULTS = {"OtherFormat": "no picture that is known", "HeaderCut": "the file ends within its header", "BadNumber": "something else than a number",
          "BadSize": "sides that no picture has", "BadMax": "a greatest sample that no picture has", "RasterCut": "the picture is cut off",
          "CommentBehindDigit": "a comment where none can stand", "SampleTooBig": "a sample above the greatest", "TrailingBytes": "bytes behind the picture"}


class Ran(NamedTuple):
    """How one ended: its status, and the lines that it wrote and told."""

    status: int
    written: list[str]
    told: list[str]


class One(NamedTuple):
    """A picture, the file that its result goes to, and those of stages."""

    picture: str
    target: str
    stages: dict[str, str]

    def targets(self) -> list[str]:
        return [self.target, *self.stages.values()]


def named(picture: str, target: str) -> str:
    """The name of a picture's result."""
    name, ending = os.path.splitext(os.path.basename(picture))
    return target.replace(NAME, name).replace(ENDING, ending.removeprefix("."))


def each(asked: Asked) -> list[One]:
    """The pictures with their results, which are all different files."""
    target = asked.own.get("-o", "")
    unnamed = next((it for it in (target, *asked.stages.values()) if NAME not in it), None)
    if unnamed is not None:
        raise Refused(f"{len(asked.files) - 1} pictures have as many results: name them by their pictures, as -o 'out/{NAME}.png'", 1)
    if "--stages" in asked.own:
        raise Refused("--stages writes the stages of one picture: give one at a time", 1)
    found = [One(it, named(it, target), {stage: named(it, file) for stage, file in asked.stages.items()}) for it in asked.files[1:]]
    first: dict[str, str] = {}
    read = identities(asked)
    for it in found:
        refuse_twice(it, first)
        own = asked.with_target(it.target, it.stages)
        judge(own, makes_folder=True, read=read)
        judge_stages(own, makes_folder=True, read=read)
    return found


def refuse_twice(it: One, first: dict[str, str]) -> None:
    """Refuses a result that has the name of another picture's."""
    for target in it.targets():
        other = first.setdefault(os.path.realpath(target), it.picture)
        if other is not it.picture:
            raise Refused(f"{other} and {it.picture} would both become {target}: name a folder for each, or give one at a time", 1)


def jobs_of(asked: Asked) -> int:
    jobs = whole_number(asked.own.get("--jobs", "1"), 1, 64)
    if jobs is None:
        raise Refused("--jobs takes a number from 1 to 64", 1)
    return jobs


def words_of(asked: Asked, it: One) -> list[str]:
    """The words by which tf does one of them."""
    own = [word for name, value in asked.own.items() if name not in OWN_HERE for word in ((name, value) if value else (name,))]
    tables = [word for path in asked.tables for word in ("--table", path)]
    stages = [word for stage, file in it.stages.items() for word in ("--stage", f"{stage}={file}")]
    return [asked.name, asked.files[0], it.picture, "-o", it.target, *own, *tables, *stages, *asked.words]


def is_done(asked: Asked, it: One) -> bool:
    """Whether all results of a picture are there, and none is older than what it is made of."""
    try:
        oldest = min(os.stat(path).st_mtime_ns for path in it.targets())
        return oldest >= max(os.stat(path).st_mtime_ns for path in (it.picture, asked.files[0], *asked.tables))
    except OSError:
        return False


def make_folders(every: list[One]) -> None:
    """Makes the folders of the results that are not there."""
    for folder in dict.fromkeys(os.path.dirname(os.path.realpath(path)) for it in every for path in it.targets()):
        try:
            os.makedirs(folder, exist_ok=True)
        except OSError as error:
            raise Refused(f"{folder}: {error.strerror}", 4) from error


def eval_many(asked: Asked) -> int:
    """Does each of them, tells what failed, and gives the worst status."""
    from concurrent.futures import ThreadPoolExecutor

    from .main import status_of

    jobs, every = jobs_of(asked), each(asked)
    rest = [it for it in every if not ("--skip-done" in asked.own and is_done(asked, it))]
    make_folders(rest)
    if asked.own.get("--engine") == "dask":
        from .finding_dask import go_on_with_dask

        go_on_with_dask()
    program(), read_pipes(asked)
    done: list[int] = []
    turns = threading.BoundedSemaphore(jobs)

    def run(it: One) -> Ran:
        is_light = asked.own.keys() <= LIGHT and not it.stages and is_small(it.picture) and ending(it.target) in (*RAW, ".png")
        with contextlib.nullcontext() if is_light else turns, aside.kept(turns if is_light else None) as said:
            status = status_of(words_of(asked, it))
        done.append(status)
        return Ran(status, said.lines_written(), said.lines_told())

    cut = 0
    # (so many programs run at a time; where pictures are light, one more is read or written beside them)
    with ThreadPoolExecutor(jobs + 1) as pool, counting(asked.name, lambda: len(done), len(rest)):
        for it, ran in zip(rest, pool.map(run, rest)):
            report(it, ran)
            cut += not ran.status and any(SIGN in line for line in ran.told)
    tell_counts(len(every), skipped=len(every) - len(rest), failed=sum(map(bool, done)), cut=cut)
    return max(done, default=0)


def is_small(picture: str) -> bool:
    """Whether this is a PGM or PPM that a run has in memory."""
    try:
        return ending(picture) in RAW and os.stat(picture).st_size <= MOST_IN_MEMORY
    except OSError:
        return False


def tell_counts(every: int, skipped: int, failed: int, cut: int) -> None:
    """The last lines: how many were done before, failed, or are cut."""
    for number, what in ((skipped, "were done before"), (failed, "failed"), (cut, "results are cut")):
        if number:
            tell(f"{number} of {every} {what}")


def read_pipes(asked: Asked) -> None:
    """Reads what can be read once alone, for all that read it."""
    for path in (*asked.files, *asked.tables):
        if path == "-" or (os.path.exists(path) and not os.path.isfile(path) and not os.path.isdir(path)):
            read_file(path)


def report(it: One, ran: Ran) -> None:
    """Passes on the lines of one, each behind the picture's name, and why it failed, in a line."""
    for line in ran.written:
        say(f"{it.picture}: {line}")
    said = [line.removeprefix("tf: ").removeprefix(f"{it.picture}: ") for line in ran.told] or [f"status {ran.status}"]
    for line in [reason(said)] if ran.status else said if ran.told else []:
        tell(line if it.picture in line else f"{it.picture}: {line}")


def reason(said: list[str]) -> str:
    """Why one failed, in a line for people: what a picture is, or what cures a fault, at its place."""
    fault = re.match(r"picture: \d+ (\w+)", said[0])
    if fault and fault[1] in FAULTS:
        return FAULTS[fault[1]]
    place = next((it for it in said[1:] if re.search(r":\d+:\d+$", it)), None)
    return f"{place}: {said[-1]}" if place else said[0]
