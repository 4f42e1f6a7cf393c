"""The stages of a program as a picture: each stored stage in a frame with what is inlined in it."""
from dataclasses import dataclass

from .stages import Stage, homes, layers
from .svg import Drawing

HEIGHT, GAP, LEVEL, PAD, LANE = 44, 16, 34, 12, 7
Box = tuple[float, float, float]  # left, top and width; all are of one height
FILLS = {"plane": "#e8e8e8", "func": "#dbe9f9", "accum": "#fbe9cf"}


@dataclass
class Group:
    """A stage that is stored, or a plane, with the functions that are computed in it: by rows, from the top."""

    home: str
    rows: list[list[Stage]]

    def width(self) -> float:
        return max(sum(map(width_of, row)) + GAP * (len(row) - 1) for row in self.rows) + 2 * PAD

    def height(self) -> float:
        return len(self.rows) * HEIGHT + (len(self.rows) - 1) * LEVEL + 2 * PAD


def width_of(stage: Stage) -> float:
    """Room for the longer of its two lines."""
    return max(7.0 * len(stage.words()), 9.0 * len(stage.name), 60) + 12


def groups_of(stages: dict[str, Stage]) -> list[list[Group]]:
    """The groups, each below all that it reads."""
    home = homes(stages)
    names = [name for name in stages if home[name] == name]
    below = {it: [home[read] for name in stages if home[name] == it for read in stages[name].reads if home[read] != it] for it in names}
    made = {it: Group(it, by_layer([s for s in stages.values() if home[s.name] == it])) for it in names}
    found: dict[int, list[Group]] = {}
    for name, layer in layers(names, below).items():
        found.setdefault(layer, []).append(made[name])
    return [found[it] for it in sorted(found)]


def by_layer(members: list[Stage]) -> list[list[Stage]]:
    """The members of a group in rows, each below all of them that it reads."""
    names = [it.name for it in members]
    found: dict[int, list[Stage]] = {}
    for name, layer in layers(names, {it.name: it.reads for it in members}).items():
        found.setdefault(layer, []).append(next(it for it in members if it.name == name))
    return [found[it] for it in sorted(found)]


def places(rows: list[list[Group]]) -> tuple[dict[str, Box], list[tuple[Group, float, float]], float, float]:
    """The left, top and width of each stage; the left and top of each group; and the whole width and height."""
    whole = max(sum(it.width() for it in row) + GAP * (len(row) - 1) for row in rows) + 2 * GAP
    stages, groups, top = {}, [], float(GAP)
    for row in rows:
        left = (whole - sum(it.width() for it in row) - GAP * (len(row) - 1)) / 2
        for group in row:
            groups.append((group, left, top))
            stages |= places_in(group, left, top)
            left += group.width() + GAP
        top += max(it.height() for it in row) + LEVEL
    return stages, groups, whole, top - LEVEL + GAP


def places_in(group: Group, left: float, top: float) -> dict[str, Box]:
    found = {}
    for number, row in enumerate(group.rows):
        x = left + (group.width() - sum(map(width_of, row)) - GAP * (len(row) - 1)) / 2
        for stage in row:
            found[stage.name] = (x, top + PAD + number * (HEIGHT + LEVEL), width_of(stage))
            x += width_of(stage) + GAP
    return found


def svg(stages: dict[str, Stage]) -> bytes:
    """The stages from the picture at the top to what is written at the bottom."""
    at, groups, width, height = places(groups_of(stages))
    drawing = Drawing(width, height)
    for group, left, top in groups:
        if sum(map(len, group.rows)) > 1:
            drawing.box(left, top, group.width(), group.height(), "#f7f9fc", "#99a", "5 3")
    draw_reads(drawing, stages, at)
    for stage in stages.values():
        draw_stage(drawing, stage, at[stage.name])
    return drawing.svg()


def draw_reads(drawing: Drawing, stages: dict[str, Stage], at: dict[str, Box]) -> None:
    """An arrow for each read; one that would run behind a stage goes round all of them, in a lane of its own."""
    middle, lanes = drawing.width / 2, {True: 0, False: 0}
    for above, below in ((at[read], at[it.name]) for it in stages.values() for read in it.reads):
        start, end = (above[0] + above[2] / 2, above[1] + HEIGHT), (below[0] + below[2] / 2, below[1])
        if not runs_behind(start, end, [it for it in at.values() if it not in (above, below)]):
            drawing.arrow(start, end)
            continue
        is_left = start[0] + end[0] < 2 * middle
        lanes[is_left] += 1
        lane = -LANE * lanes[is_left] if is_left else 2 * middle + LANE * lanes[is_left]
        drawing.way(round_all(start, end, lane, lanes[is_left]))
    drawing.left = -LANE * (lanes[True] + 1)
    drawing.width += LANE * (lanes[True] + lanes[False] + 2)


def runs_behind(start: tuple[float, float], end: tuple[float, float], boxes: list[Box]) -> bool:
    """Whether the curve between two points meets one of the boxes."""
    (x, y), (to_x, to_y) = start, end
    for step in range(1, 40):
        part = step / 40
        bend = 3 * part**2 - 2 * part**3
        here_x, here_y = x + (to_x - x) * bend, y + (to_y - y) * part
        if any(left - 3 <= here_x <= left + width + 3 and top - 3 <= here_y <= top + HEIGHT + 3 for left, top, width in boxes):
            return True
    return False


def round_all(start: tuple[float, float], end: tuple[float, float], lane: float, number: int) -> list[tuple[float, float]]:
    """The corners of a way by a lane: down into the gap, out, down, and in again above the end."""
    depth = 6 + 3 * (number % 5)
    return [start, (start[0], start[1] + depth), (lane, start[1] + depth), (lane, end[1] - 24 + depth), (end[0], end[1] - 24 + depth), end]


def draw_stage(drawing: Drawing, stage: Stage, place: Box) -> None:
    x, y, width = place
    drawing.box(x, y, width, HEIGHT, "white" if stage.is_inlined else FILLS[stage.kind], dash="4 3" if stage.is_inlined else "")
    drawing.text(x + width / 2, y + 18, stage.name, 14)
    drawing.text(x + width / 2, y + 35, stage.words(), 11, colour="#444")


def dot(stages: dict[str, Stage]) -> bytes:
    """The same as a graph for the command dot."""
    home = homes(stages)
    lines = ["digraph stages {", "  node [shape=box, style=filled, fontname=Helvetica];"]
    for name in [it for it in stages if home[it] == it]:
        members = [it for it in stages.values() if home[it.name] == name]
        frame = (f"  subgraph cluster_{name} {{ style=dashed;", "  }") if len(members) > 1 else ()
        lines += [*frame[:1], *map(dot_stage, members), *frame[1:]]
    lines += [f"  {read} -> {it.name};" for it in stages.values() for read in it.reads]
    return "\n".join([*lines, "}", ""]).encode()


def dot_stage(stage: Stage) -> str:
    fill = "white" if stage.is_inlined else FILLS[stage.kind]
    return f'  {stage.name} [label="{stage.name}\\n{stage.words()}", fillcolor="{fill}"];'
