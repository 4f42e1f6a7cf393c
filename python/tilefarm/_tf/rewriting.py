"""Programs made of the user's own, so that `tilefarm` tells what its output does not: items are left out, and others stand behind them."""
from typing import Callable

from .program import Item, Program


def names_of(program: Program) -> set[str]:
    """All names that a program has."""
    return {it.text for item in program.items for it in (*item.names, *item.variables)}


def fresh(name: str, taken: set[str]) -> str:
    """A name that the program does not have."""
    while name in taken:
        name += "_"
    return name


def without(text: bytes, program: Program, is_left_out: Callable[[Item], bool]) -> bytes:
    """The text without the items of which this holds, which nothing may read."""
    spans = [it.span for it in program.items if is_left_out(it)]
    starts, ends = [0, *(it.end for it in spans)], [*(it.start for it in spans), len(text)]
    return b"".join(text[start:end] for start, end in zip(starts, ends))


def is_result(item: Item) -> bool:
    """Whether an item is part of the result: the output, or an accumulator. Nothing reads it."""
    return item.kind in ("output", "accum")


def needed(program: Program, name: str) -> set[str]:
    """A stage and all that it is made of."""
    reads, found, rest = {it: {read.stage.text for case in item.cases for read in case.reads} for it, item in program.stages()}, set(), [name]
    while rest:
        it = rest.pop()
        if it not in found:
            found.add(it)
            rest += reads.get(it, ())
    return found


def halves(value: str, domain: str, low: str, high: str) -> str:
    """Items that write values of 32 bits as a picture of samples of 16: their lower halves as red, their upper halves, plus 32768, as
    green and blue."""
    return (f"\nfunc {low}{domain} {{ else : {value} % 65536; }}\nfunc {high}{domain} {{ else : ({value} >> 16) + 32768; }}\n"
            f"output {low}, {high}, {high} max 65535;\n")


def affine(value: int) -> str:
    """A number as an interval's end is written."""
    return f"-{-value}" if value < 0 else str(value)


def interval(least: int, most: int) -> str:
    return f"[{affine(least)} .. {affine(most)}]"
