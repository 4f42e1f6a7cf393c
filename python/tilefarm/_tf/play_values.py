"""Programs that make visible what no output shows: the values of any stage, and smaller copies of pictures.

A sample has 16 bits and a value 32. So a stage's values are written as a picture of two functions, the lower and the upper half of each
value, and all numbers that a page shows come from `tilefarm eval`.
"""
from typing import NamedTuple

from . import rewriting
from .demands import Area, Ends
from .netpbm import Header, Picture
from .program import Program
from .rewriting import fresh, interval, is_result, names_of, needed, without

MOST_SIDE, MOST_FACTOR, MOST_POINTS = 4096, 16, 2_000_000
GREY = ("image r, g, b({rows}, {cols});\nfunc grey(x in [0 .. {rows} - 1], y in [0 .. {cols} - 1]) {{\n"
        "  else : (299 * r(x, y) + 587 * g(x, y) + 114 * b(x, y) + 500) / 1000;\n}}\noutput grey max {most};\n")
COLOURS = "image i({rows}, {cols});\nfunc f(x in [0 .. {rows} - 1], y in [0 .. {cols} - 1]) {{ else : i(x, y); }}\noutput f, f, f max {most};\n"


class Shown(NamedTuple):
    """The points of a stage that are shown: those whose row and column are multiples of `step`, in an area of such points."""

    area: Area
    step: int

    def sides(self) -> tuple[int, int]:
        return self.area.rows.count(), self.area.cols.count()


def every_point(domain: Area) -> Shown:
    """All points, but not more rows and columns than a picture has."""
    return Shown(Area(*(Ends(it.least, min(it.most, it.least + MOST_SIDE - 1)) for it in domain)), 1)


def spread(domain: Area, step: int) -> Shown:
    """Each so-many-th point of the domain; all of them where there would be none."""
    if step <= 1:
        return every_point(domain)
    area = Area(*(Ends(-(-it.least // step), it.most // step) for it in domain))
    return Shown(area, step) if area.count() else every_point(domain)


def step_for(domain: Area, side: int) -> int:
    """The step by which no side has many more points than `side`."""
    return max(1, min(max(it.count() for it in domain) // side, MOST_FACTOR))


def showing(text: bytes, program: Program, name: str, shown: Shown) -> bytes:
    """The program that writes a stage's values: the lower halves as red, the upper halves, plus 32768, as green and blue."""
    taken, kept = names_of(program), needed(program, name)
    low, high, x, y = (fresh(it, taken) for it in ("low", "high", "x", "y"))
    factor = "" if shown.step == 1 else f"{shown.step}*"
    rows, cols = (interval(*it) for it in shown.area)
    added = rewriting.halves(f"{name}({factor}{x}, {factor}{y})", f"({x} in {rows}, {y} in {cols})", low, high)
    return without(text, program, lambda it: is_result(it) or it.kind == "func" and it.names[0].text not in kept) + added.encode()


def halves(picture: Picture) -> bytes:
    """The four bytes of all values, as planes: the upper and the lower byte of each half, the lower half first."""
    return b"".join(picture.raster[at::6] for at in range(4))


def grey_program(head: Header) -> bytes:
    """The program that makes one grey plane of three, as --grey does."""
    return GREY.format(rows=head.rows, cols=head.cols, most=head.most).encode()


def colours_program(head: Header) -> bytes:
    """The program that makes three equal planes of one, as --colours does."""
    return COLOURS.format(rows=head.rows, cols=head.cols, most=head.most).encode()


def smaller_program(head: Header, factor: int) -> bytes:
    """The program that makes each point the mean of so many rows and columns."""
    planes = ("p0", "p1", "p2")[: head.parts]
    domain = f"(x in [0 .. {head.rows // factor - 1}], y in [0 .. {head.cols // factor - 1}])"
    near = [(row, col) for row in range(factor) for col in range(factor)]

    def mean(plane: str) -> str:
        return " + ".join(f"{plane}({factor}*x+{row}, {factor}*y+{col})" for row, col in near)

    lines = [f"image {', '.join(planes)}({head.rows}, {head.cols});"]
    lines += [f"func m{it}{domain} {{ else : ({mean(it)}) / {factor * factor}; }}" for it in planes]
    return "\n".join([*lines, f"output {', '.join('m' + it for it in planes)} max {head.most};", ""]).encode()


def factor_for(head: Header, points: int = MOST_POINTS) -> int:
    """By how much a picture's sides are divided so that it has no more points than are shown at once, as far as an index goes."""
    factor = 1
    while (head.rows // factor) * (head.cols // factor) > points and min(head.rows, head.cols, MOST_FACTOR) > factor:
        factor += 1
    return factor
