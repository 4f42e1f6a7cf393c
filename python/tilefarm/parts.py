"""Pictures larger than one run takes: in parts that the planner of `tf eval --parts` makes exactly, here or by Dask."""
from __future__ import annotations

from typing import Any, NamedTuple

import numpy as np
import numpy.typing as npt

from ._tf import parts as tf_parts
from ._tf.demands import Area, Ends
from ._tf.joining import SEPARATOR
from ._tf.parts import Output, Part, Plan
from ._tf.text import Refused as RefusedByTf
from .errors import Refused
from .jobs import Job, Params, Tables
from .pictures import MOST_SAMPLE, Array, Samples, Shape, refuse_other_pictures, samples_of
from .processes import run as run_process
from .program import Program
from .results import Result, Totals, result_of

SIDE = 2048
# the side below which no grid of parts is looked for
LEAST_SIDE = 16
# the types whose samples are never above 255
NARROW = (np.dtype(np.bool_), np.dtype(np.int8), np.dtype(np.uint8))
# the status of the program where it refuses a program
REFUSED = 3
JOINED: dict[str, np.ufunc] = {"sum": np.add, "min": np.minimum, "max": np.maximum}


def cut(job: Job, side: int) -> Plan:
    """The parts of a job, each of at most `side` by `side` points."""
    try:
        return tf_parts.plan(job.text, job.settings(), *job.shape, job.planes, side, job.table_bytes())
    except tf_parts.Fault as fault:
        raise job.fault_of_line(fault.line, REFUSED) from fault
    except RefusedByTf as error:
        raise Refused(str(error)) from error


def run_in_parts(job: Job, samples: Samples, threads: int | None = None, side: int = SIDE) -> Result:
    """The result of a job, part by part."""
    plan = cut(job, side)
    image = np.empty(shape_of(plan.output), dtype_of(plan.output)) if plan.output else None
    totals = {it.name: Totals(it.bins.least, np.full(it.bins.count(), it.starts(), np.int64)) for it in plan.totals}
    operators = {it.name: JOINED[it.operator] for it in plan.totals}
    seconds = 0.0
    for part in plan.parts:
        found = run_part(part, samples.array[slices(part.picture)], job.name, threads)
        seconds += found.seconds
        if image is not None and part.output:
            image[slices(part.output)] = found.image
        for name, it in found.totals.items():
            operators[name](totals[name].values, it.values, out=totals[name].values)
    return Result(image, totals, seconds)


def run_part(part: Part, area: npt.ArrayLike, name: str, threads: int | None = None) -> Result:
    """The result of a part, over its area of the picture."""
    samples = samples_of(area)
    values = {word.partition("=")[0]: int(word.partition("=")[2]) for word in part.words}
    job = Job(f"part {part.number} of {name}", part.program, values, (), samples.shape, samples.planes, samples.most)
    sections = [part.program, SEPARATOR, part.tables, samples.head(), samples.raster()]
    ended = run_process(["eval", *job.words()], sections, threads)
    if ended.status:
        raise job.fault(ended)
    return result_of(ended.written, ended.seconds)


def slices(area: Area) -> tuple[slice, slice]:
    return slice(area.rows.least, area.rows.most + 1), slice(area.cols.least, area.cols.most + 1)


def shape_of(output: Output) -> tuple[int, ...]:
    """The shape of the whole result's array."""
    return (output.rows, output.cols) if output.planes == 1 else (output.rows, output.cols, output.planes)


def dtype_of(output: Output) -> type[np.uint8] | type[np.uint16]:
    return np.uint8 if output.most < 256 else np.uint16


# Dask


def map_parts(program: Program | str, array: Any, *, tables: Tables | None = None, params: Params | None = None, side: int = SIDE) -> Any:
    """The picture of a program over a dask.array, as a dask.array: lazy, part by part, exactly what one run over the whole would write.

    The array is (H, W) or (H, W, 3), of whole numbers from 0 to 65535, with sides of any length and chunks of any shape. The chunks of the
    result are the parts, of at most `side` by `side` points. Each part reads the box of the array that it needs, however the program's
    positions, remainders and scales are. A default client of Dask's runs the parts; its workers need this package. Raises Refused for what
    is no picture by its shape and type, before anything is computed, and Fault where the program is refused.
    """
    import dask.array as da

    known = Program(program) if isinstance(program, str) else program
    job = job_over_lazy(known, array, tables, params)
    rows = ([piece_of(it, array, job.name) for it in row] for row in pieces_of(job, side))
    return da.concatenate([da.concatenate(row, axis=1) for row in rows], axis=0)


def job_over_lazy(program: Program, array: Any, tables: Tables | None, params: Params | None) -> Job:
    """The job over an array whose samples are not known yet. Raises Refused where one of them would have to be: the array's type does not say
    whether the greatest sample is 255 or 65535, and the program asks for it."""
    if np.isnan(array.shape).any():
        raise Refused(f"the array has the shape {array.shape}, whose sides are not known: take array.compute_chunk_sizes()")
    refuse_other_pictures(array.shape, array.dtype)
    shape: Shape = (array.shape[0], array.shape[1])
    narrow, wide = (program.job(shape, 1 if array.ndim == 2 else 3, most, tables, params) for most in (255, MOST_SAMPLE))
    if array.dtype in NARROW:
        return narrow
    if array.dtype != np.uint16 and (narrow.text, narrow.values) != (wide.text, wide.values):
        raise Refused(f"the program asks for the greatest sample, which an array of {array.dtype} does not tell before it is computed: take "
                      "array.astype(np.uint8) or np.uint16")
    return wide


class Piece(NamedTuple):
    """A part of a picture's grid, and the array of its result."""

    part: Part
    shape: tuple[int, ...]
    dtype: type[np.uint8] | type[np.uint16]


def pieces_of(job: Job, side: int) -> list[list[Piece]]:
    """The parts of a job as rows of a grid: of this side, or of a smaller one, where the parts of that are no grid."""
    while side >= LEAST_SIDE:
        plan = cut(job, side)
        if plan.totals or not plan.output:
            raise Refused("map_parts gives a picture: take the accumulators out, and an output in")
        rows = grid_of(plan.parts, plan.output)
        if rows:
            return rows
        side //= 2
    raise Refused(f"the parts of this program are no grid of rows and columns with sides from {LEAST_SIDE}")


def grid_of(parts: list[Part], output: Output) -> list[list[Piece]]:
    """The parts as rows of a grid; none where they are no grid."""
    by_place = {it.output: piece for it, piece in ((part, piece_in(part, output)) for part in parts) if it.output}
    rows, cols = sorted({it.rows for it in by_place}), sorted({it.cols for it in by_place})
    if len(rows) * len(cols) != len(parts):
        return []
    return [[by_place[Area(row, col)] for col in cols] for row in rows]


def piece_in(part: Part, output: Output) -> Piece:
    area = part.output or Area(Ends(0, -1), Ends(0, -1))
    return Piece(part, (area.rows.count(), area.cols.count(), *shape_of(output)[2:]), dtype_of(output))


def piece_of(piece: Piece, array: Any, name: str) -> Any:
    """A part's result as a dask.array."""
    import dask
    import dask.array as da

    found = dask.delayed(image_of_part)(piece.part, array[slices(piece.part.picture)], name)
    return da.from_delayed(found, piece.shape, piece.dtype)


def image_of_part(part: Part, area: Array, name: str) -> Array:
    """A part's picture."""
    return run_part(part, area, name, threads=1).image
