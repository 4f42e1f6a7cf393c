"""The reserved words, and what those that stand before parentheses make of numbers. Written from docs/LANGUAGE.md and docs/FORMATS.md alone."""
from typing import Callable, NamedTuple


def wrapped(value: int, bits: int = 32) -> int:
    return (value + 2 ** (bits - 1)) % 2**bits - 2 ** (bits - 1)


class Call(NamedTuple):
    """How many expressions stand in the parentheses, and what they become."""

    operands: int
    value: Callable[..., int]


CALLS = {
    "min": Call(2, min),
    "max": Call(2, max),
    "abs": Call(1, lambda a: wrapped(abs(a))),
    "clamp": Call(3, lambda e, a, b: min(max(e, a), b)),
}
RESERVED = {*"param image func in case else accum over sum at output and select stencil table".split(), *CALLS}
