"""Faults of fact files."""
import re

from .blame import Blame, Situation
from .facts import part_at
from .text import Place

NO_DIGIT = re.compile(rb"[^0-9A-Fa-f]")
CURES = {
    "BadMagic": "A fact file begins with PTF1, which is 50544631 in digits, or with PTF2, 50544632, where jobs are retired: is this line one?",
    "Cut": "The line ends before all that its counts say is there: it was cut off, or a count is wrong.",
    "NotRising": "Facts rise, and none stands twice: by program, input, stage, row, column, kind, numbers. So do retired jobs: by program, "
                 "input. Give what is out of order a line each: tf merge puts it in order.",
    "BadKind": "The kind of a fact is 00, of a tile, or 01, of a partial.",
    "TooLong": "A tile has at most 1,048,576 numbers, and a partial at most 4,096.",
    "RetiredFact": "The file retires the job of this fact, and may then hold no fact of it: tf merge leaves these out, where facts and retired "
                   "jobs stand on lines of their own.",
    "NothingRetired": "A file that begins with PTF2 retires a job at least: without one it begins with PTF1, which is 50544631, and has no "
                      "count of retired jobs.",
    "TrailingBytes": "The facts are complete before this byte: take the rest out, or mend the count; another file takes a line of its own.",
}


def bad_hex(found: re.Match[str], at: Situation) -> Blame:
    start, line = line_of(at, int(found["line"]))
    wrong = NO_DIGIT.search(line)
    if wrong:
        cure = "A line is hexadecimal digits alone, 0 to 9 and a to f or A to F, without blanks and without CR before its end."
        return Blame([moved(start, wrong.start())], cure)
    return Blame([moved(start, len(line))], "Two digits make a byte, and this line has an odd number of them: is one missing?")


def bad_file(found: re.Match[str], at: Situation) -> Blame:
    start, line = line_of(at, int(found["line"]))
    part = part_at(bytes.fromhex(line.decode()), int(found["at"]))
    return Blame([moved(start, 2 * int(found["at"]), 2)], (f"This is {part}. " if part else "") + CURES.get(found["fault"], ""))


def line_of(at: Situation, number: int) -> tuple[Place, bytes]:
    """Where a line of the fact files begins, and the line. Lines are counted through all files from 1."""
    section = at.input.section("facts")
    texts = section.texts() if section else [at.text("facts")]
    for text in texts:
        lines = text.data.split(b"\n")
        count = len(lines) - 1 if text is not texts[-1] else len(lines)
        if number <= count:
            start = sum(len(it) + 1 for it in lines[: number - 1])
            return text.place(start), lines[number - 1]
        number -= count
    return texts[-1].place(len(texts[-1].data)), b""


def moved(start: Place, count: int, length: int = 1) -> Place:
    return start.text.place(start.offset + count, length)
