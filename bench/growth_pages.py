"""The tables and the plot of docs/SCALE.md."""
import math
import os
import re
import sys

TOP = os.path.dirname(os.path.dirname(os.path.realpath(__file__)))
sys.path.insert(0, f"{TOP}/python/tilefarm")

from _tf.svg import Drawing

PAGE, PLOT = f"{TOP}/docs/SCALE.md", f"{TOP}/docs/scale.svg"
WIDTH, HEIGHT, LEFT, BOTTOM, RIGHT, TOP_SPACE = 620, 360, 70, 44, 110, 16
COLOURS = ("#4a7ab5", "#b5534a", "#4a9b5e", "#8a5ab5", "#b58b3a", "#3a9bb5", "#57606a")
# of each line its points: how many tiles, and how many seconds
Lines = dict[str, list[tuple[int, float]]]
Tables = dict[str, list[list[str]]]


def markdown(head: list[str], rows: list[list[str]]) -> str:
    lines = [f"| {' | '.join(it)} |" for it in (head, *rows)]
    return "\n".join([lines[0], f"|{'---|' * len(head)}", *lines[1:]])


def marks(name: str) -> tuple[str, str]:
    return f"<!-- bench/growth {name}: from here -->", "<!-- to here -->"


def table_of(page: str, name: str) -> str:
    """A table as the page has it."""
    start, end = marks(name)
    return page.partition(start)[2].partition(end)[0].strip()


def content() -> str:
    with open(PAGE, encoding="utf-8") as file:
        return file.read()


def write(heads: dict[str, list[str]], tables: Tables, is_kept: bool) -> int:
    """Prints the tables, and writes them into the page where that is asked for."""
    page = content() if is_kept else ""
    for name, rows in tables.items():
        made, (start, end) = markdown(heads[name], rows), marks(name)
        print(f"{made}\n", flush=True)
        page = re.sub(f"({re.escape(start)}).*?({re.escape(end)})", lambda it, made=made: f"{it[1]}\n\n{made}\n\n{it[2]}", page, flags=re.S)
    if is_kept:
        with open(PAGE, "w", encoding="utf-8") as file:
            file.write(page)
    return 0


def check(heads: dict[str, list[str]], tables: Tables, worlds: list[tuple[str, bool]]) -> int:
    """Whether the page has these tables, and each world ended well."""
    page = content()
    found = [(f"table {name}", table_of(page, name) == markdown(heads[name], rows)) for name, rows in tables.items()] + worlds
    for what in (name for name, is_well in found if not is_well):
        print(f"failed: {what}")
    failed = sum(not is_well for _, is_well in found)
    print(f"{len(found) - failed} passed, {failed} failed")
    return 1 if failed else 0


def plot(lines: Lines) -> None:
    """Draws seconds by tiles, both by their logarithms."""
    points = [it for line in lines.values() for it in line]
    sides = [(math.log2(min(it)), math.log2(max(it))) for it in zip(*points)]
    drawing = Drawing(WIDTH, HEIGHT)

    def place(tiles: float, seconds: float) -> tuple[float, float]:
        across, up = ((math.log2(it) - low) / (high - low) for it, (low, high) in zip((tiles, seconds), sides))
        return LEFT + across * (WIDTH - LEFT - RIGHT), HEIGHT - BOTTOM - up * (HEIGHT - BOTTOM - TOP_SPACE)

    for tiles in sorted({it[0] for it in points}):
        drawing.text(place(tiles, 2 ** sides[1][0])[0], HEIGHT - BOTTOM + 18, f"{tiles:,}")
    drawing.text((WIDTH + LEFT - RIGHT) / 2, HEIGHT - 8, "tiles")
    for power in range(math.ceil(sides[1][0] / math.log2(10)), math.floor(sides[1][1] / math.log2(10)) + 1):
        height = place(1, 10.0**power)[1]
        drawing.line(LEFT, height, WIDTH - RIGHT, height)
        drawing.text(LEFT - 8, height + 4, f"{10.0**power:g} s", 12, "end")
    ends: list[float] = []
    for number, (name, line) in enumerate(sorted(lines.items(), key=lambda it: -it[1][-1][1])):
        colour = COLOURS[number % len(COLOURS)]
        way = " ".join("{:.1f},{:.1f}".format(*place(*it)) for it in line)
        drawing.shapes.append(f"<polyline points='{way}' fill='none' stroke='{colour}' stroke-width='2'/>")
        ends.append(max(place(*line[-1])[1], ends[-1] + 15 if ends else 0))
        drawing.text(WIDTH - RIGHT + 8, ends[-1] + 4, f"{name} nodes", 12, "start", colour)
    with open(PLOT, "wb") as file:
        file.write(drawing.svg())
