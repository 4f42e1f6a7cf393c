"""A program, and what it gives for arrays."""
from __future__ import annotations

import html
import os
from collections import deque
from dataclasses import replace
from concurrent.futures import Future, ThreadPoolExecutor
from typing import Iterable, Iterator, Mapping, NamedTuple, Sequence, Union

import numpy as np
import numpy.typing as npt

from ._tf import graph
from ._tf.joining import ended, refuse_separator
from ._tf.netpbm import MOST_SIDE
from ._tf.stages import PLAN, STAGE, stages_of
from ._tf.text import Refused as RefusedByTf
from .errors import Refused, TilefarmError
from .jobs import Job, Params, Tables, lines_of, parsed, values_of
from .pictures import MOST_SAMPLE, Array, Samples, Shape, samples_of
from .processes import run as run_process
from .results import Result, result_of

# an array, or the shape of one
Sides = Union[Sequence[int], Array]
# the sides of the picture for which a notebook shows a program's graph
SHOWN = (512, 512)


class Domain(NamedTuple):
    """What `check` says of a stage: its kind (plane, func or accum), its rows and columns with both ends, its tiles, the least and the greatest value
    that it can have, and whether a value can wrap."""

    kind: str
    rows: tuple[int, int]
    cols: tuple[int, int]
    tiles: int
    values: tuple[int, int]
    can_wrap: bool


class Check(NamedTuple):
    """The identities of a program and of its input, and the domains of the stages by name."""

    program: str
    input: str
    stages: dict[str, Domain]


class Cost(NamedTuple):
    """What `plan` says of a stage: whether it is inlined, and else how many points its tiles compute."""

    is_inlined: bool
    points: int | None


class Program:
    """A program of the language, with values for its parameters and tables where these stay the same.

    `text` is the program, `name` what errors call it. Arrays are (H, W), or (H, W, 3) for a program of three planes, of whole numbers from 0
    to 65535. A parameter without a value takes it from a side of the array, as docs/LANGUAGE.md says.
    """

    def __init__(self, text: str, *, name: str = "program", params: Params | None = None, tables: Tables | None = None):
        self._text, self.name, self.params, self.tables = text, name, dict(params or {}), dict(tables or {})

    @classmethod
    def from_file(cls, path: str | os.PathLike[str], *, params: Params | None = None, tables: Tables | None = None) -> "Program":
        """The program of a file. Raises OSError where it cannot be read."""
        with open(path, encoding="utf-8", newline="") as file:
            return cls(file.read(), name=os.fspath(path), params=params, tables=tables)

    @property
    def text(self) -> str:
        """The program in the language."""
        return self._text

    def text_for(self, shape: Shape) -> str:
        """The program for pictures of (rows, columns): the same for all of them, unless it was built for each."""
        return self.text

    def places(self) -> Mapping[str, str]:
        """Where each stage was built, as `file:line`."""
        return {}

    # what it gives

    def run(self, array: npt.ArrayLike, *, tables: Tables | None = None, params: Params | None = None, threads: int | None = None) -> Result:
        """The result for an array. `threads` is how many threads a process may start, all processors unless given.

        A picture or a result with a side over 4096 is computed in parts. Raises Refused for what is no picture, and Fault where the program
        is refused or fails.
        """
        samples = samples_of(array)
        job = self.job(samples.shape, samples.planes, samples.most, tables, params)
        if job.is_large():
            from .parts import run_in_parts

            return run_in_parts(job, samples, threads)
        return run_job(job, samples, threads)

    def frames(self, arrays: Iterable[npt.ArrayLike], *, tables: Tables | None = None, params: Params | None = None,
               processes: int | None = None) -> Iterator[Result]:
        """The results for a stream of arrays, in its order: each by a process of one thread, `processes` of them at a time (as many as
        processors unless given). So many arrays are taken ahead, and no more."""
        many = len(os.sched_getaffinity(0)) if processes is None else processes
        if many < 1:
            raise Refused(f"processes is a number from 1, and not {many}")
        with ThreadPoolExecutor(many) as pool:
            waiting: deque[Future[Result]] = deque()
            for array in arrays:
                waiting.append(pool.submit(self.run, array, tables=tables, params=params, threads=1))
                if len(waiting) == many:
                    yield waiting.popleft().result()
            while waiting:
                yield waiting.popleft().result()

    def check(self, sides: Sides, *, tables: Tables | None = None, params: Params | None = None) -> Check:
        """The domains and the ranges of all stages over a picture of this shape, which is given, or is that of an array. Samples are up to 255,
        or up to 65535 for an array of uint16. Raises Fault as `run` does."""
        job = self.job_over(sides, tables, params)
        lines = ask(job, "check").splitlines()
        ranges = job.ranges()
        wrapping = {it.stage for it in ranges.wraps}
        stages = {}
        for it in filter(None, map(STAGE.fullmatch, lines)):
            name, top, bottom, left, right = it[3], *map(int, it.group(4, 5, 6, 7))
            values = ranges.found[name]
            stages[name] = Domain(it[2], (top, bottom), (left, right), int(it[8]), (values.least, values.most), name in wrapping)
        return Check(lines[0].split()[1], lines[1].split()[1], stages)

    def plan(self, sides: Sides, *, tables: Tables | None = None, params: Params | None = None) -> dict[str, Cost]:
        """What is inlined, and what each stage costs, over a picture of this shape."""
        found = [it for it in map(PLAN.fullmatch, ask(self.job_over(sides, tables, params), "plan").splitlines()) if it]
        return {it[2]: Cost(it[1] == "inlined", int(it[3]) if it[3] else None) for it in found}

    # how

    def job(self, shape: Shape, planes: int, most: int = 255, tables: Tables | None = None, params: Params | None = None) -> Job:
        """The job over a picture of these sides, with the program's own values and those that are given here."""
        values = values_of({**self.params, **(params or {})})
        draft = Job(self.name, one_section(self.name, self.text_for(shape)), values, (), shape, planes, most, self.places()).with_supplied()
        return replace(draft, lines=lines_of(draft.text, {**self.tables, **(tables or {})}, draft.settings()))

    def job_over(self, sides: Sides, tables: Tables | None = None, params: Params | None = None) -> Job:
        """The job over a picture of this shape."""
        shape = tuple(sides.shape) if isinstance(sides, np.ndarray) else tuple(sides)
        if len(shape) not in (2, 3) or min(shape) < 1:
            raise Refused(f"{shape} is no shape of a picture: (rows, columns), or (rows, columns, 3)")
        most = MOST_SAMPLE if isinstance(sides, np.ndarray) and sides.dtype == np.uint16 else 255
        rows, cols = shape[:2]
        if max(rows, cols) > MOST_SIDE:
            raise Refused(f"{shape} is more than one run takes, and check and plan tell of one run: its sides are up to {MOST_SIDE}. run and map_parts "
                          "take larger pictures, in parts")
        return self.job((rows, cols), planes_of(self.text_for((rows, cols)), len(shape)), most, tables, params)

    def __repr__(self) -> str:
        return f"<tilefarm program {self.name}, {len(self.text.splitlines())} lines>"

    def _repr_html_(self) -> str:
        """The program's graph for a notebook, over a picture of 512 by 512, and its text."""
        return f"{self.graph(SHOWN)}<pre>{html.escape(self.text)}</pre>"

    def graph(self, sides: Sides) -> str:
        """The graph of the stages over a picture of this shape, as SVG; nothing where that is refused."""
        try:
            check, plan = (ask(self.job_over(sides), it) for it in ("check", "plan"))
        except TilefarmError:
            return ""
        known = parsed(self.text_for((sides[0], sides[1])).encode())
        return graph.svg(stages_of(known, check, plan)).decode() if known else ""


def one_section(name: str, text: str) -> bytes:
    """A text as the first section of an input. Raises Refused where a line of it would end that."""
    data = ended(text.encode())
    try:
        refuse_separator(name, data, "the program's text")
    except RefusedByTf as error:
        raise Refused(str(error)) from error
    return data


def planes_of(text: str, axes: int) -> int:
    """How many planes the picture of a program has: as many as it names, or as the axes of a shape say where it is no program."""
    known = parsed(text.encode())
    named = next((len(it.names) for it in known.items if it.kind == "image"), 0) if known else 0
    return named or (3 if axes == 3 else 1)


def ask(job: Job, command: str) -> str:
    """What a command of the program says of a job over a picture of zeros."""
    ran = run_process([command, *job.words()], [*job.sections(), Samples.zeros(job.shape, job.planes, job.most).raster()])
    if ran.status:
        raise job.fault(ran)
    return ran.written.decode("ascii")


def run_job(job: Job, samples: Samples, threads: int | None) -> Result:
    """The result of a job that one run takes."""
    ran = run_process(["eval", *job.words()], [*job.sections(), samples.raster()], threads)
    if ran.status:
        raise job.fault(ran)
    return result_of(ran.written, ran.seconds)


def run(program: Program | str, array: npt.ArrayLike, *, tables: Tables | None = None, params: Params | None = None,
        threads: int | None = None) -> Result:
    """The result of a program, or of the text of one, for an array: see Program.run."""
    known = Program(program) if isinstance(program, str) else program
    return known.run(array, tables=tables, params=params, threads=threads)
