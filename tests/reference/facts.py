"""Facts, retired jobs, fact files and texts of fact files, written from docs/FORMATS.md alone: what they hold, or the first fault."""
import re
import struct
from typing import Iterable, NamedTuple

# how a file begins in which no job is retired, and one in which some are
MAGIC, MAGIC_OF_RETIRED = b"PTF1", b"PTF2"
HEAD = struct.Struct(">32s32sHIIBI")
# by kind, of tiles and of partials: how many numbers a fact may have, and how one is written
MOST, FORMS = (1_048_576, 4_096), ("i", "q")
# the identities of a job: of its program, and of its input
Ids = tuple[bytes, bytes]


class Fact(NamedTuple):
    """A fact. Its fields stand in the order by which facts are in order, and so do the numbers of a tuple."""

    program: bytes
    input: bytes
    stage: int
    row: int
    col: int
    kind: int
    numbers: tuple[int, ...]

    def ids(self) -> Ids:
        return self.program, self.input

    def record(self) -> bytes:
        head = HEAD.pack(*self[:6], len(self.numbers))
        return head + struct.pack(f">{len(self.numbers)}{FORMS[self.kind]}", *self.numbers)


class FileFault(Exception):
    """The first fault of bytes that are no fact file, with its offset."""

    def __init__(self, number: int, name: str, at: int):
        super().__init__(f"{number} {name} at {at}")


class LineFault(Exception):
    """The first line that is no fact file, as the program tells it."""

    def line(self) -> bytes:
        return f"facts: line {self}\n".encode()


class Content(NamedTuple):
    """What a fact file holds: the jobs that are retired, and facts of other jobs. Both rise."""

    retired: list[Ids]
    facts: list[Fact]

    def file(self) -> bytes:
        """The fact file of this."""
        head = MAGIC_OF_RETIRED + count(self.retired) + b"".join(map(b"".join, self.retired)) if self.retired else MAGIC
        return head + count(self.facts) + b"".join(it.record() for it in self.facts)


def count(many: list) -> bytes:
    return struct.pack(">I", len(many))


def file_of(facts: list[Fact], retired: Iterable[Ids] = ()) -> bytes:
    """The fact file of facts in order, where these jobs are retired."""
    return Content(sorted(retired), facts).file()


def joined(contents: list[Content]) -> Content:
    """All retired jobs, and all facts of other jobs, each once, in order."""
    retired = {ids for it in contents for ids in it.retired}
    return Content(sorted(retired), sorted({fact for it in contents for fact in it.facts if fact.ids() not in retired}))


class Reader:
    """Reads bytes from the left, as far as they are a fact file."""

    def __init__(self, data: bytes):
        self.data, self.at = data, 0

    def take(self, size: int) -> bytes:
        if self.at + size > len(self.data):
            raise FileFault(2, "Cut", len(self.data))
        self.at += size
        return self.data[self.at - size : self.at]

    def number(self) -> int:
        return int.from_bytes(self.take(4), "big")

    def content(self) -> Content:
        retired = self.retired() if self.magic() == MAGIC_OF_RETIRED else []
        facts: list[Fact] = []
        for _ in range(self.number()):
            begun, fact = self.at, self.fact()
            if facts and fact <= facts[-1]:
                raise FileFault(3, "NotRising", begun)
            if fact.ids() in retired:
                raise FileFault(8, "RetiredFact", begun)
            facts.append(fact)
        if self.at < len(self.data):
            raise FileFault(6, "TrailingBytes", self.at)
        return Content(retired, facts)

    def magic(self) -> bytes:
        for at in range(len(MAGIC)):
            if at < len(self.data) and not any(it.startswith(self.data[: at + 1]) for it in (MAGIC, MAGIC_OF_RETIRED)):
                raise FileFault(1, "BadMagic", at)
        return self.take(len(MAGIC))

    def retired(self) -> list[Ids]:
        found: list[Ids] = []
        begun, many = self.at, self.number()
        if not many:
            raise FileFault(9, "NothingRetired", begun)
        for _ in range(many):
            begun, ids = self.at, self.take(64)
            if found and (ids[:32], ids[32:]) <= found[-1]:
                raise FileFault(3, "NotRising", begun)
            found.append((ids[:32], ids[32:]))
        return found

    def fact(self) -> Fact:
        label, kind = self.take(74), self.take(1)[0]
        if kind > 1:
            raise FileFault(4, "BadKind", self.at - 1)
        length = self.take(4)
        head = HEAD.unpack(label + bytes([kind]) + length)
        if head[-1] > MOST[kind]:
            raise FileFault(5, "TooLong", self.at - 4)
        return Fact(*head[:6], struct.unpack(f">{head[-1]}{FORMS[kind]}", self.take(head[-1] * (8 if kind else 4))))


def content_of(text: bytes) -> Content:
    """What all files of a text hold together."""
    found: list[Content] = []
    for number, line in enumerate(text.split(b"\n"), 1):
        if len(line) % 2 or not re.fullmatch(rb"[0-9A-Fa-f]*", line):
            raise LineFault(f"{number} bad hex")
        try:
            found += [Reader(bytes.fromhex(line.decode())).content()] if line else []
        except FileFault as fault:
            raise LineFault(f"{number} {fault}") from None
    return joined(found)


def merged(text: bytes) -> tuple[int, bytes]:
    """The status of `merge` on a text, and what it writes."""
    try:
        return 0, content_of(text).file().hex().encode() + b"\n"
    except LineFault as fault:
        return 2, fault.line()


def mixed(digits: str) -> str:
    """Digits of which each other letter is a capital."""
    return "".join(it.upper() if at % 2 else it for at, it in enumerate(digits))
