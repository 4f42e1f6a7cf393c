"""A world as a page shows it: of each stage the tiles and the values that nodes hold, and of each step what it does and who holds what after it."""
import base64
from typing import NamedTuple

from .demands import Area
from .text import Refused
from .world_states import State, Tile
from .world_steps import MOST_EACH, Job
from .world_trace import Trace
from .world_words import said

# the longest side of a stage that is shown; of longer ones each so many-th row and column is
MOST_SIDE = 256
# the shade of a tile that has bins, and no points
OF_BINS = 160


class Shown(NamedTuple):
    """A stage as it is drawn: its sides, where its tiles lie in it (top, left, rows, columns), and a byte for each point."""

    name: str
    rows: int
    cols: int
    tiles: dict[Tile, tuple[int, int, int, int]]
    shades: bytes


def shown_stages(trace: Trace) -> list[Shown]:
    """The stages of which some node holds a tile at some time."""
    if len(trace.steps) > MOST_EACH:
        raise Refused(f"a drawing has at most {MOST_EACH} events, and this script has {len(trace.steps)}: tf world --trace tells them in lines", 1)
    return [shown(trace, it) for it in sorted({tile[0] for tile in trace.worlds.numbers})]


def shown(trace: Trace, stage: int) -> Shown:
    job, name = trace.job, trace.job.stages[stage]
    domain = job.schedules.domains[name]
    step = -(-max(it.count() for it in domain) // MOST_SIDE)
    areas = {it: job.schedules.area_of(*it) for it in job.tiles(stage)}
    rows, cols = (-(-it.count() // step) for it in domain)
    values = {tile: numbers for tile, numbers in trace.worlds.numbers.items() if tile[0] == stage}
    shades = bytearray(rows * cols)
    for tile, numbers in shades_of(job, name, values).items():
        fill(shades, cols, numbers, areas[tile], domain, step)
    return Shown(name, rows, cols, {it: place(area, domain, step) for it, area in areas.items()}, bytes(shades))


def shades_of(job: Job, name: str, values: dict[Tile, tuple[int, ...]]) -> dict[Tile, bytes]:
    """The numbers of tiles as bytes: samples of the output by its greatest one, other values from their least to their greatest."""
    if job.schedules.kinds[name] == "accum":
        return {tile: bytes([OF_BINS]) * job.schedules.area_of(*tile).count() for tile in values}
    if name in job.schedules.outputs:
        least, most = 0, job.schedules.most
    else:
        least, most = min(map(min, values.values())), max(map(max, values.values()))
    spread = max(most - least, 1)
    return {tile: bytes((min(max(it, least), most) - least) * 255 // spread for it in numbers) for tile, numbers in values.items()}


def fill(shades: bytearray, width: int, tile: bytes, area: Area, domain: Area, step: int) -> None:
    """Puts those points of a tile into a stage that are shown."""
    top, left, rows, cols = place(area, domain, step)
    skip = left * step - (area.cols.least - domain.cols.least)
    for row in range(top, top + rows):
        start = (row * step - (area.rows.least - domain.rows.least)) * area.cols.count()
        shades[row * width + left : row * width + left + cols] = tile[start + skip : start + area.cols.count() : step]


def place(area: Area, domain: Area, step: int) -> tuple[int, int, int, int]:
    """Where an area lies among the points that are shown: top, left, rows and columns."""
    (top, rows), (left, cols) = (part(ends.least - whole.least, ends.count(), step) for ends, whole in zip(area, domain))
    return top, left, rows, cols


def part(first: int, count: int, step: int) -> tuple[int, int]:
    start, end = -(-first // step), -(-(first + count) // step)
    return start, end - start


def view_of(trace: Trace, drawing: str) -> dict:
    """All that the page shows. A tile is named by its number among those of its stage."""
    stages = shown_stages(trace)
    return {"nodes": len(trace.worlds.after(0).states), "stages": [stage_view(it) for it in stages],
            "steps": [step_view(trace, stages, at) for at in range(len(trace.steps) + 1)], "drawing": drawing}


def stage_view(it: Shown) -> dict:
    return {"name": it.name, "rows": it.rows, "cols": it.cols, "tiles": list(it.tiles.values()), "shades": base64.b64encode(it.shades).decode()}


def step_view(trace: Trace, stages: list[Shown], at: int) -> dict:
    """A step, of which the first one is the beginning."""
    states = [state_view(it, stages) for it in trace.worlds.after(at).states]
    if not at:
        return {"line": 0, "said": "no node holds anything", "refused": False, "states": states}
    step = trace.steps[at - 1]
    return {"line": step.event.line, "said": said(trace.job, step, trace.messages), "refused": step.is_refused, "states": states}


def state_view(state: State, stages: list[Shown]) -> dict:
    """The numbers of the tiles of each stage that a node holds."""
    held = [[number for number, tile in enumerate(it.tiles) if tile in state.tiles] for it in stages]
    return {"retired": state.is_retired, "held": held}
