"""The values of parameters: those that are given, those that the program takes from the picture, and those that `tf` supplies.

`tf` supplies what a comment directly behind a parameter asks for, as `param M; # greatest sample` or `param H; # R / 2, rounded up`, and what
a side of the picture leaves as the one value, as H in `image I(2*H, 2*W)`. The number behind `max` is the greatest sample where the output's
own comment says so.
"""
import re
from typing import Iterable

from .netpbm import Header
from .program import Item, Program
from .whole_numbers import whole_number

# the ends of a parameter's values
LEAST, MOST = -(2**31), 2**31 - 1
GREATEST = "greatest sample"
SHARE = rf"(?P<top>\w+) */ *(?P<last>{GREATEST}|\d+)(?P<up>, rounded up)?"


def settings(program: Program, given: dict[str, int], head: Header | None) -> dict[str, int]:
    """Each parameter that has a value."""
    found = own_settings(program, given, head)
    for name, value in side_values(program, head).items():
        found.setdefault(name, value)
    for item in program.items:
        if item.kind == "param" and item.names[0].text not in found:
            value = asked_value(item.comment, found, head.most if head else None)
            if value is not None:
                found[item.names[0].text] = value
    return found


def own_settings(program: Program, given: dict[str, int], head: Header | None) -> dict[str, int]:
    """Each parameter that is given, or that the program takes from the picture, where a side is exactly this parameter: from the rows
    first, then from the columns."""
    found = dict(given)
    for item in images(program) if head else []:
        for extent, side in zip(item.extents, (head.rows, head.cols)):
            factor, name = extent.terms[0]
            if len(extent.terms) == 1 and factor == 1 and name is not None:
                found.setdefault(name, side)
    return found


def supplied(program: Program, given: dict[str, int], head: Header | None) -> dict[str, int]:
    """The values that the program has from `tf` alone."""
    own = own_settings(program, given, head)
    return {name: value for name, value in settings(program, given, head).items() if name not in own}


def side_values(program: Program, head: Header | None) -> dict[str, int]:
    """Parameters for which a side of the picture leaves one value: where it is a number times the parameter, plus a number."""
    found: dict[str, int] = {}
    for extent, side in [pair for it in images(program) if head for pair in zip(it.extents, (head.rows, head.cols))]:
        named = [(factor, name) for factor, name in extent.terms if name is not None]
        rest = side - sum(factor for factor, name in extent.terms if name is None)
        if len(named) == 1 and named[0][0] and rest % named[0][0] == 0:
            found.setdefault(named[0][1], rest // named[0][0])
    return found


def asked_value(comment: str, found: dict[str, int], most: int | None) -> int | None:
    """The value that a comment asks for: the greatest sample, a number divided by it, or a parameter divided by a number."""
    if comment == GREATEST:
        return most
    share = re.fullmatch(SHARE, comment) if comment else None
    if not share:
        return None
    top = found.get(share["top"], whole_number(share["top"], 0, MOST))
    last = most if share["last"] == GREATEST else whole_number(share["last"], 0, MOST)
    if top is None or not last:
        return None
    return -(-top // last) if share["up"] else top // last


def images(program: Program) -> list[Item]:
    return [it for it in program.items if it.kind == "image"]


def with_greatest(text: bytes, program: Program, given: dict[str, int], head: Header | None) -> bytes:
    """The text with the greatest sample in its output, where the output's comment asks for it. No other byte changes its place: the
    comment becomes shorter or longer by as much as the number does."""
    output = program.output()
    if not output or not output.most or output.comment != GREATEST or not head:
        return text
    declared = next((it.names[0].text for it in program.items if it.kind == "param" and it.comment == GREATEST), "")
    number, last = output.most.span, text.index(GREATEST.encode(), output.span.end) + len(GREATEST)
    made = b"%d" % given.get(declared, head.most) + text[number.end : last]
    return text[: number.start] + made.ljust(last - number.start)[: last - number.start] + text[last:]


def given_values(words: Iterable[str]) -> dict[str, int]:
    """The values among the words; the first of a name counts."""
    found: dict[str, int] = {}
    for word in words:
        name, _, value = word.partition("=")
        number = whole_number(value, LEAST, MOST)
        if number is not None:
            found.setdefault(name, number)
    return found
