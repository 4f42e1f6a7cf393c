"""Faults of a program's names, numbers and cycles: `check: ..`."""
import re

from .blame import Blame, Situation, listed
from .blame_forms import CASTS, MATHS, accumulator_is_read, undeclared_call
from .blame_guess import WORDS
from .near import near
from .program import Item, Kernel, Number, Read, Use
from .text import Place
from .tokens import Token

WANTED = {
    "param": "a parameter", "row": "the first variable of this item", "column": "the second variable of this item",
    "variable": "a variable of this item", "value": "a variable or a parameter", "function": "a function",
    "stage": "a plane or a function", "table": "a table",
}
ARE = {"param": "a parameter", "image": "a plane", "func": "a function", "accum": "an accumulator", "table": "a table",
       "row": "the first variable",
       "column": "the second variable"}


def item_at(found: re.Match[str], at: Situation) -> Item | None:
    number = int(found["item"])
    return at.program.items[number] if number < len(at.program.items) else None


def place_of(token: Token, at: Situation) -> Place:
    return at.text().place(token.offset, len(token.text))


def whole(item: Item | None, at: Situation) -> list[Place | str]:
    """An item, by its first word."""
    return [at.text().place(item.span.start, len(item.kind))] if item else []


def standing(name: str, item: Item, at: Situation) -> str | None:
    """What a name stands for in an item."""
    variables = [it.text for it in item.variables[:2]]
    if name in variables:
        return ("row", "column")[variables.index(name)]
    return at.program.kinds().get(name)


def fits(use: Use, stands_for: str) -> bool:
    allowed = {"variable": ("row", "column"), "value": ("row", "column", "param"), "function": ("func",), "stage": ("image", "func")}
    return stands_for in allowed.get(use.wants, (use.wants,))


def misused(item: Item, at: Situation) -> Use | Number | Kernel | None:
    """The first part of an item that is not what its place wants."""
    return next((it for it in item.uses if not is_right(it, item, at)), None)


def is_right(part: Use | Number | Kernel, item: Item, at: Situation) -> bool:
    if isinstance(part, Use):
        stands_for = standing(part.token.text, item, at)
        return stands_for is not None and fits(part, stands_for)
    if isinstance(part, Number):
        return part.least <= part.value <= part.most
    return len(set(part.widths)) == 1 and all(it % 2 == 1 and it <= 15 for it in (len(part.widths), part.widths[0]))


def unknown(found: re.Match[str], at: Situation) -> Blame:
    item = item_at(found, at)
    use = misused(item, at) if item else None
    if item is None or not isinstance(use, Use):
        return Blame(whole(item, at), "A name of this item is declared nowhere: declare it, or mend its spelling.")
    if use.wants == "stage" and use.token.text in {**MATHS, **CASTS}:
        return Blame([place_of(use.token, at)], undeclared_call(use.token.text))
    known = [*at.program.kinds(), *(it.text for it in item.variables), *(WORDS if use.wants == "stage" else ())]
    close = near(use.token.text, known) or next((it for it in known if it.lower() == use.token.text.lower()), None)
    hint = f", or write {close}" if close else ", or mend its spelling"
    return Blame([place_of(use.token, at)], f"{use.token.text} is declared nowhere: declare it{hint}.")


def twice(found: re.Match[str], at: Situation) -> Blame:
    item = item_at(found, at)
    pair = twin(item, at) if item else None
    if pair is None:
        return Blame(whole(item, at), "A name of this item stands for two things: give one of them another name.")
    second, first = pair
    cure = f"{second.text} stands for two things: give one of the two another name."
    return Blame([place_of(second, at), place_of(first, at)], cure)


def twin(item: Item, at: Situation) -> tuple[Token, Token] | None:
    """A name of an item that stands for two things, and where it stands for the other."""
    every = [it for other in at.program.items if other.kind != "output" for it in other.names]
    for name in item.names if item.kind != "output" else []:
        first = next((it for it in every if it.text == name.text and it.offset < name.offset), None)
        if first:
            return name, first
    for number, name in enumerate(item.variables):
        other = next((it for it in [*item.variables[:number], *every] if it.text == name.text), None)
        if other:
            return name, other
    return None


def kind(found: re.Match[str], at: Situation) -> Blame:
    item = item_at(found, at)
    use = misused(item, at) if item else None
    if item is None or not isinstance(use, Use):
        return Blame(whole(item, at), "A name of this item is of another kind than its place wants.")
    name, is_one = use.token.text, ARE[standing(use.token.text, item, at) or "param"]
    cure = f"{name} is {is_one}, and {WANTED[use.wants]} is wanted here"
    ways = {"value": f": to read it write {name}(x, y).", "row": ": the first index takes the first variable.",
            "column": ": the second index takes the second variable.",
            "param": ": intervals and tests have numbers and parameters alone; select(x >= y, A, B) compares two variables."}
    stands_for = standing(name, item, at)
    if stands_for == "accum" and use.wants in ("stage", "table", "value"):
        return Blame([place_of(use.token, at)], accumulator_is_read(name))
    if stands_for == "table":
        ways = {"value": f": to read it write {name}[x].", "stage": f": to read it write {name}[x]."}
    elif use.wants == "value" and stands_for not in ("image", "func"):
        ways = {}
    elif use.wants == "table" and stands_for in ("image", "func"):
        ways = {"table": f": to read {name} write {name}(x, y)."}
    return Blame([place_of(use.token, at)], cure + ways.get(use.wants, "."))


def bad_kernel(found: re.Match[str], at: Situation) -> Blame:
    item = item_at(found, at)
    kernel = misused(item, at) if item else None
    if not isinstance(kernel, Kernel):
        return Blame(whole(item, at), "A kernel has rows of one length, and odd sides up to 15.")
    widths = listed([str(it) for it in dict.fromkeys(kernel.widths)])
    cure = f"A kernel has rows of one length and odd sides up to 15; this one has {len(kernel.widths)} rows of {widths}."
    return Blame([at.text().place(kernel.span.start, kernel.span.length)], cure)


def bad_literal(found: re.Match[str], at: Situation) -> Blame:
    item = item_at(found, at)
    number = misused(item, at) if item else None
    if not isinstance(number, Number):
        return Blame(whole(item, at), "A number of this item is out of its range (docs/LANGUAGE.md has the ranges).")
    cure = f"{number.value} is out of range here: this number is {number.least} to {number.most}."
    return Blame([at.text().place(number.span.start, number.span.length)], cure)


def no_result(found: re.Match[str], at: Situation) -> Blame:
    functions = [name for name, item in at.program.stages() if item.kind == "func"]
    example = functions[-1] if functions else "f"
    cure = f"Nothing is written: end the program with an output or an accumulator, as output {example} max 255;"
    return Blame([at.text().place(len(at.text().data))], cure)


def cycle(found: re.Match[str], at: Situation) -> Blame:
    names = found["names"].split()
    reads = [read_of(reader, stage, at) for reader, stage in zip(names, names[1:])]
    places = [place_of(it.stage, at) for it in reads if it]
    way = " reads ".join(names) if len(names) > 2 else f"{names[0]} reads itself"
    return Blame(places, f"{way}: no function may lead back to itself, so take one of these reads out.")


def read_of(reader: str, stage: str, at: Situation) -> Read | None:
    """Where a stage reads another."""
    declared = at.program.declaring(reader)
    reads = [it for case in declared[0].cases for it in case.reads] if declared else []
    return next((it for it in reads if it.stage.text == stage), None)
