"""A world as a drawing: a column for each node, time downward, and an arrow for each message that arrives."""
import base64
from typing import NamedTuple

from . import png
from .netpbm import Picture
from .svg import FONT, escape
from .world_states import State
from .world_steps import Step
from .world_trace import Trace
from .world_view import Shown, shown_stages
from .world_words import said

GUTTER, COLUMN, HEAD, ROW, THUMB, GAP = 30, 122, 30, 24, 40, 6
# how far the line of a node is from the left of its column, how many letters stand to its right and how far from it, and how wide a letter is
LIFE, LETTERS, ASIDE, LETTER = 20, 16, 10, 7
MOST_THUMBS = 3
LABELS = {"keep": "keeps", "restart": "restarts", "retire": "retires"}
STYLE = """
.ground { fill: #fff } .life, .message, .lost, .merge { stroke: #57606a; fill: none } text { fill: #1b1f24 } .number { fill: #57606a }
.message, .lost { stroke: #1f5fae; stroke-width: 1.5 } .late { stroke-dasharray: 5 3 } .merge { stroke-width: 3 }
.refused, .lost-mark { stroke: #b3261e; stroke-width: 2; fill: none } .tip, .dot { fill: #1f5fae } .dot { stroke: none }
.empty { fill: #e9ecf0; stroke: #d4d9e0 } .kept { fill: #0a6f51 } .again { fill: none; stroke: #d97706; stroke-width: 2 } .now { fill: none }
@media (prefers-color-scheme: dark) {
.ground { fill: #1b2028 } .life, .merge { stroke: #a3adb9 } text { fill: #e4e8ee } .number { fill: #a3adb9 }
.message, .lost { stroke: #6aa9f4 } .refused, .lost-mark { stroke: #ff8f86 } .tip, .dot { fill: #6aa9f4 }
.empty { fill: #2a303a; stroke: #343c48 } .kept { fill: #6fd6ae } .again { stroke: #f5a623 } }
"""


class Arrival(NamedTuple):
    """A message that arrives: its number, the event that delivers it, and whether it came before, or after one that was sent later."""

    message: int
    event: int
    is_repeat: bool
    is_late: bool


def arrivals(steps: list[Step]) -> list[Arrival]:
    """The arrivals of all messages, in their order."""
    found: list[Arrival] = []
    seen: set[int] = set()
    newest: dict[int, int] = {}
    for at, step in enumerate(steps):
        if step.event.verb == "deliver" and not step.is_refused:
            node, number = step.event.numbers
            found.append(Arrival(number, at, number in seen, number not in seen and newest.get(node, -1) > number))
            seen.add(number)
            newest[node] = max(newest.get(node, -1), number)
    return found


class WorldDrawing:
    """Draws a trace, row by row."""

    def __init__(self, trace: Trace):
        self.trace, self.steps = trace, trace.steps
        self.stages = shown_stages(trace)
        self.thumbs = self.stages[-MOST_THUMBS:]
        self.nodes = len(trace.worlds.after(0).states)
        self.arrived = {it.event: it for it in arrivals(self.steps)}
        self.taken = {it.message for it in self.arrived.values()}
        self.column = max(COLUMN, LIFE + GAP + len(self.thumbs) * (THUMB + GAP) + GAP)
        self.shapes: list[str] = []
        self.tops = [HEAD]
        for at in range(len(self.steps)):
            self.tops.append(self.tops[-1] + ROW + (THUMB + GAP if self.changed(at) is not None else 0))
        # (what stands beside the last node has nothing to its right that it may go over)
        self.width = max(GUTTER + self.nodes * self.column, int(self.x(self.nodes - 1)) + ASIDE + LETTERS * LETTER)
        self.height = self.tops[-1] + GAP

    def state(self, at: int, node: int) -> State:
        """What a node holds before an event."""
        return self.trace.worlds.after(at).states[node]

    def changed(self, at: int) -> int | None:
        """The node that holds something else after an event, if one does."""
        return next((it for it in range(self.nodes) if self.state(at, it) != self.state(at + 1, it)), None)

    def x(self, node: int) -> float:
        return GUTTER + node * self.column + LIFE

    def y(self, at: int) -> float:
        """The height of an event's mark."""
        return self.tops[at] + ROW / 2

    def svg(self, is_alone: bool = True) -> str:
        """The drawing: with its own colours where it stands alone."""
        for node in range(self.nodes):
            self.text(self.x(node) - LIFE / 2, 20, f"node {node}", 13)
            self.shapes.append(f"<path class='life' d='{self.life(node)}'/>")
        for at, step in enumerate(self.steps):
            self.row(at, step)
        head = (f"<svg xmlns='http://www.w3.org/2000/svg' class='world' viewBox='0 0 {self.width} {self.height}' width='{self.width}' "
                f"height='{self.height}' {FONT}>")
        style = f"<style>{STYLE}</style>" if is_alone else ""
        return "\n".join([head, style + f"<defs>{TIP}{''.join(map(image, self.thumbs))}</defs>", "<rect class='ground' width='100%' height='100%'/>",
                          *self.shapes, "</svg>", ""])

    def life(self, node: int) -> str:
        """The line of a node, which is cut where it restarts."""
        breaks = [self.y(at) for at, it in enumerate(self.steps) if it.event.verb == "restart" and it.event.numbers[0] == node and not it.is_refused]
        starts, ends = [HEAD - 4.0, *(it + 8 for it in breaks)], [*(it - 8 for it in breaks), self.height]
        return " ".join(f"M{self.x(node):g},{start:g}V{end:g}" for start, end in zip(starts, ends))

    def row(self, at: int, step: Step) -> None:
        """All that an event draws."""
        self.shapes.append(f"<g class='step' data-step='{at + 1}'><title>{escape(said(self.trace.job, step, self.trace.messages))}</title>")
        self.shapes.append(f"<rect class='now' x='0' y='{self.tops[at]}' width='{self.width}' height='{self.tops[at + 1] - self.tops[at]}'/>")
        self.text(GUTTER - 6, self.y(at) + 4, str(step.event.line), 10, "end", "number")
        if at in self.arrived:
            self.shapes.append(self.arrow(self.arrived[at]))
        node = min(step.event.numbers[0], self.nodes - 1)
        if step.is_refused:
            self.cross(self.x(node), self.y(at), "refused")
        else:
            self.mark(at, step)
        self.text(self.x(node) + ASIDE, self.y(at) + 4, short(self.label(step)), 11)
        changed = self.changed(at)
        if changed is not None:
            self.thumbnails(at, changed)
        self.shapes.append("</g>")

    def label(self, step: Step) -> str:
        """An event in two or three words."""
        verb, numbers = step.event.verb, step.event.numbers
        if step.is_refused:
            return f"no {verb}"
        if verb == "make":
            return f"makes {self.trace.job.named(step.event.tiles[0])}"
        if verb == "deliver":
            return f"takes {numbers[1]}"
        if verb == "send":
            return f"sends {step.message} to {numbers[1]}"
        return f"takes all of {numbers[1]}" if verb == "merge" else LABELS[verb]

    def mark(self, at: int, step: Step) -> None:
        """What stands on the line of a node, and the message that never arrives."""
        verb, node, y = step.event.verb, step.event.numbers[0], self.y(at)
        if verb == "keep":
            self.shapes.append(f"<rect class='kept' x='{self.x(node) - 5:g}' y='{y - 5:g}' width='10' height='10'/>")
        elif verb == "restart":
            self.shapes.append(f"<path class='again' d='M{self.x(node) + 4:g},{y - 5:g}a6,6 0 1 0 2,6'/>")
        elif verb == "merge":
            self.shapes.append(f"<path class='merge' d='M{self.x(step.event.numbers[1]):g},{y:g}H{self.x(node):g}' marker-end='url(#tip)'/>")
        elif verb == "retire":
            self.cross(self.x(node), y, "again")
        elif verb != "deliver":
            self.shapes.append(f"<circle class='dot' cx='{self.x(node):g}' cy='{y:g}' r='3.5'/>")
        if step.message is not None and step.message not in self.taken:
            self.lost(at, step)

    def lost(self, at: int, step: Step) -> None:
        """An arrow that ends in a cross on its way."""
        start, to = step.event.numbers[0], self.trace.messages[step.message].to
        x, y = self.x(start), self.y(at)
        end = (self.x(to) - x) / 2 if to != start else -10
        self.shapes.append(f"<path class='lost' d='M{x:g},{y:g}l{end:g},{ROW / 2 - 4:g}'/>")
        self.cross(x + end, y + ROW / 2 - 4, "lost-mark")

    def arrow(self, it: Arrival) -> str:
        """A message from the event that sent it to the one that delivers it: twice where it came before, dashed where it is late."""
        message = self.trace.messages[it.message]
        start, end = self.steps[message.event].event.numbers[0], message.to
        y, to_y = self.y(message.event), self.y(it.event)
        classes = f"message{' late' * it.is_late}{' repeated' * it.is_repeat}"
        ways = [self.way(start, y, end, to_y, shift) for shift in ((-2.0, 2.0) if it.is_repeat else (0.0,))]
        return "".join(f"<path class='{classes}' d='{way}' marker-end='url(#tip)'/>" for way in ways)

    def way(self, start: int, y: float, end: int, to_y: float, shift: float) -> str:
        if start != end:
            return f"M{self.x(start):g},{y + shift:g}L{self.x(end) - (5 if end > start else -5):g},{to_y + shift:g}"
        side = self.x(start) - 14 + shift
        return f"M{self.x(start):g},{y:g}C{side:g},{y + 4:g} {side:g},{to_y - 4:g} {self.x(start) - 4:g},{to_y + shift:g}"

    def thumbnails(self, at: int, node: int) -> None:
        """What a node holds after an event, stage by stage."""
        state, x, y = self.state(at + 1, node), self.x(node) + ASIDE, self.tops[at] + ROW
        if state.is_retired:
            self.text(x, y + THUMB / 2, "holds nothing", 11)
            self.text(x, y + THUMB / 2 + 14, "of the job", 11)
            return
        for number, stage in enumerate(self.thumbs):
            self.thumbnail(f"held-{at}-{number}", stage, state, x + number * (THUMB + GAP), y)

    def thumbnail(self, name: str, stage: Shown, state: State, x: float, y: float) -> None:
        """The tiles of a stage that a state has, cut out of its picture."""
        scale = THUMB / max(stage.rows, stage.cols)
        held = [place for tile, place in stage.tiles.items() if tile in state.tiles]
        outline = "".join(f"M{left},{top}h{cols}v{rows}h{-cols}z" for top, left, rows, cols in held)
        self.shapes.append(f"<g transform='translate({x:g},{y:g}) scale({scale:.6g})'><rect class='empty' width='{stage.cols}' height='{stage.rows}' "
                           f"vector-effect='non-scaling-stroke'/><clipPath id='{name}'><path d='{outline}'/></clipPath>"
                           f"<use href='#stage-{stage.name}' clip-path='url(#{name})'/></g>")

    def cross(self, x: float, y: float, kind: str) -> None:
        self.shapes.append(f"<path class='{kind}' d='M{x - 4:g},{y - 4:g}l8,8m-8,0l8,-8'/>")

    def text(self, x: float, y: float, words: str, size: int, anchor: str = "start", kind: str = "word") -> None:
        self.shapes.append(f"<text class='{kind}' x='{x:g}' y='{y:g}' font-size='{size}' text-anchor='{anchor}'>{escape(words)}</text>")


TIP = ("<marker id='tip' viewBox='0 0 8 8' refX='7' refY='4' markerWidth='7' markerHeight='7' markerUnits='userSpaceOnUse' orient='auto'>"
       "<path class='tip' d='M0,0 L8,4 L0,8 z'/></marker>")


def image(stage: Shown) -> str:
    """The picture of a stage, of which thumbnails are cut out."""
    data = base64.b64encode(png.write(Picture(stage.cols, stage.rows, 1, 255, stage.shades))[0]).decode()
    return (f"<image id='stage-{stage.name}' width='{stage.cols}' height='{stage.rows}' image-rendering='pixelated' "
            f"href='data:image/png;base64,{data}'/>")


def short(words: str) -> str:
    return words if len(words) <= LETTERS else f"{words[: LETTERS - 1]}…"
