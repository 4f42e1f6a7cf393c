"""Stages as pictures: what a function or a plane has at each point, cut to what a sample can be, or scaled to its least and greatest.

The values come from `tilefarm eval`, of the same program with another output.
"""
import base64
import html
import re
from typing import NamedTuple

from . import png
from .joining import SEPARATOR, Input
from .making import Maker
from .netpbm import Picture, in_columns, picture_of
from .output import encoded, put
from .program import Item, Program
from .rewriting import halves
from .running import run
from .stage_folder import PAGE, Folder, digest, sealed
from .text import Refused

TOTAL = re.compile(r"^\S+ 0\.\.0: (-?\d+)$", re.M)
THUMB = 192
HTML = """<!DOCTYPE html>
<html lang="en"><meta charset="utf-8"><title>Stages of {title}</title>
<style>
body {{ font-family: sans-serif; margin: 2em; }}
figure {{ display: inline-block; margin: 0 1.5em 1.5em 0; vertical-align: top; }}
img {{ image-rendering: pixelated; border: 1px solid #ccc; min-width: 4em; }}
figcaption {{ font-size: 90%; }}
</style>
<h1>Stages of {title}</h1>
{figures}
</html>
"""
FIGURE = """<figure data-sha256="{digest}"><a href="{file}"><img src="data:image/png;base64,{data}" alt="{name}"></a>
<figcaption><b>{name}</b>, {kind}, {rows} by {cols}<br>{least} to {most}</figcaption></figure>"""


class Values(NamedTuple):
    """The least and the greatest value of a stage."""

    least: int
    most: int

    def words(self) -> str:
        return f"from {self.least} to {self.most}"


class Stages:
    """The pictures of one job's stages."""

    def __init__(self, given: Input, program: Program, words: list[str]):
        self.given, self.program, self.words = given, program, words
        self.maker = Maker(given, program, words)

    def names(self) -> list[str]:
        return [name for name, item in self.program.stages() if item.kind != "accum"]

    def item(self, name: str) -> Item:
        found = dict(self.program.stages()).get(name)
        if not found:
            raise Refused(f"there is no stage {name}: there are {', '.join(self.names())}", 1)
        if found.kind == "accum":
            raise Refused(f"{name} is an accumulator, which has bins and no points: tf hist draws it", 1)
        return found

    def over(self, name: str) -> str:
        """The points of a stage, as a program writes them."""
        item, text = self.item(name), self.maker.text
        if item.kind == "image":
            spans = [f"[0 .. {text[it.span.start : it.span.end].decode()} - 1]" for it in item.extents]
        else:
            spans = [text[it.span.start : it.span.end].decode() for it in item.intervals]
        return f"({self.maker.fresh('x')} in {spans[0]}, {self.maker.fresh('y')} in {spans[1]})"

    def read(self, name: str) -> str:
        return f"{name}({self.maker.fresh('x')}, {self.maker.fresh('y')})"

    def ran(self, items: str) -> bytes:
        """What the program writes with these items in the place of its output and its accumulators."""
        data = self.maker.plain + items.encode() + SEPARATOR + self.given.last()
        ended = run(["eval", *self.words], data)
        if ended.status:
            raise Refused(f"tilefarm does not tell the stage's values: {ended.written.decode('utf-8', 'replace').strip()}", ended.status)
        return ended.written

    def total(self, own_name: str, stage: str, what: str) -> str:
        """An accumulator of one bin over all points of a stage: `sum`, `min` or `max`, and of what."""
        return f"accum {self.maker.fresh(own_name)} [0 .. 0] over {self.over(stage)} {what} at 0;"

    def totals(self, items: list[str]) -> list[int]:
        """The numbers of accumulators of one bin."""
        written = self.ran("\n".join(["", *items, ""]))
        return [int(it) for it in TOTAL.findall(written.decode("ascii"))]

    def values(self, name: str) -> Values:
        return Values(*self.totals([self.total(f"{it}_value", name, f"{it} {self.read(name)}") for it in ("min", "max")]))

    def cut(self, name: str) -> Picture:
        """The stage as the program's own output would show it: what is below 0 is 0, and what is above the greatest sample is that."""
        output = self.program.output()
        return self.picture(name, self.read(name), output.most.value if output and output.most else 255)

    def numbers(self, name: str) -> str:
        """The values themselves, which need not be samples, as rows of numbers."""
        low, high = self.maker.fresh("low"), self.maker.fresh("high")
        picture, _ = picture_of(self.ran(halves(self.read(name), self.over(name), low, high)))
        samples = picture.samples()
        return in_columns([low + 65536 * (high - 32768) for low, high in zip(samples[::3], samples[1::3])], picture.cols)

    def scaled(self, name: str, values: Values) -> Picture:
        """The stage with its least value black and its greatest white."""
        shift = max((values.most - values.least).bit_length() - 16, 0)
        low = values.least >> shift
        value = f"({self.read(name)} >> {shift}) {'+' if low < 0 else '-'} {abs(low)}"
        return self.picture(name, value, max((values.most >> shift) - low, 1)).scaled(255)

    def picture(self, name: str, value: str, most: int) -> Picture:
        shown = self.maker.fresh("shown")
        written = self.ran(f"\nfunc {shown}{self.over(name)} {{ else : {value}; }}\noutput {shown} max {most};\n")
        return picture_of(written)[0]

    def all(self, folder: Folder, title: str) -> None:
        """A picture for each stage, scaled, and a page of them."""
        names = self.names()
        files = [*(f"{it}.png" for it in names), PAGE]
        folder.judge(files)
        folder.fill(files, lambda room: self.make(room, title))

    def make(self, room: str, title: str) -> None:
        """The same, in a room where nothing is yet."""
        figures = []
        for name in self.names():
            values = self.values(name)
            picture = self.scaled(name, values)
            data = encoded(picture, f"{name}.png")
            put(f"{room}/{name}.png", data)
            figures.append(figure(name, self.item(name).kind, picture, values, digest(data)))
        put(f"{room}/{PAGE}", sealed(HTML.format(title=html.escape(title), figures="\n".join(figures))))


def figure(name: str, kind: str, picture: Picture, values: Values, digest: str) -> str:
    kind = {"image": "plane", "func": "function"}[kind]
    data = base64.b64encode(png.write(thumbnail(picture))[0]).decode()
    return FIGURE.format(file=f"{name}.png", digest=digest, data=data, name=name, kind=kind, rows=picture.rows, cols=picture.cols,
                         **values._asdict())


def thumbnail(picture: Picture) -> Picture:
    """Each so many-th point of a grey picture of bytes, so that it is small."""
    step = max(-(-max(picture.cols, picture.rows) // THUMB), 1)
    rows = [picture.raster[at * picture.cols : (at + 1) * picture.cols : step] for at in range(0, picture.rows, step)]
    return Picture(len(rows[0]), len(rows), 1, picture.most, b"".join(rows))

