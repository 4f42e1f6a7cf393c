"""Facts and retired jobs, and the lines of their files. `tilefarm` judges what a line is; what is read here it has taken."""
import struct
from typing import Iterator, NamedTuple

from .text import Text

HEAD, IDS = struct.Struct(">32s32sHIIBI"), struct.Struct(">32s32s")
# how a file begins that retires jobs, of which the count and the identities stand before the facts
RETIRES = b"PTF2"
SHOWN = 12
# the identities of a job: of its program, and of all that it is given
Ids = tuple[bytes, bytes]


class Fact(NamedTuple):
    """A fact: its key, its kind (0 for a tile, 1 for a partial), and its numbers."""

    program: bytes
    input: bytes
    stage: int
    row: int
    col: int
    kind: int
    numbers: tuple[int, ...]

    def ids(self) -> Ids:
        return self.program, self.input

    def record(self) -> bytes:
        """The bytes of a fact file that are this fact."""
        return HEAD.pack(*self[:6], len(self.numbers)) + struct.pack(form(self.kind, len(self.numbers)), *self.numbers)


class Record(NamedTuple):
    """A fact whose numbers are as a fact file has them, in bytes."""

    program: bytes
    input: bytes
    stage: int
    row: int
    col: int
    kind: int
    count: int
    data: bytes

    def ids(self) -> Ids:
        return self.program, self.input

    def label(self) -> tuple[int, int, int]:
        return self.stage, self.row, self.col

    def record(self) -> bytes:
        """The bytes of a fact file that are this fact."""
        return HEAD.pack(*self[:7]) + self.data

    def numbers(self) -> tuple[int, ...]:
        return struct.unpack(form(self.kind, self.count), self.data)


def form(kind: int, count: int) -> str:
    """How the numbers of a fact are laid out."""
    return f">{count}{'q' if kind else 'i'}"


def line_of(facts: list[Fact] | list[Record]) -> bytes:
    """The line of the file of these facts, which are of keys of their own where they are records."""
    data = b"PTF1" + struct.pack(">I", len(facts)) + b"".join(it.record() for it in sorted(facts))
    return data.hex().encode() + b"\n"


def count_at(data: bytes, at: int) -> int:
    return int.from_bytes(data[at : at + 4], "big")


def retired_end(data: bytes) -> int:
    """Where the retired jobs of a file end, and the count of its facts begins."""
    return 8 + IDS.size * count_at(data, 4) if data.startswith(RETIRES) else 4


def retired_in(line: bytes) -> list[Ids]:
    """The jobs that a line retires."""
    data = bytes.fromhex(line.decode())
    return [IDS.unpack_from(data, at) for at in range(8, retired_end(data), IDS.size)]


def facts_of(line: bytes) -> Iterator[Fact]:
    """The facts of a line."""
    data = bytes.fromhex(line.decode())
    return (fact_at(data, it) for it in starts_of(data))


def fact_at(data: bytes, at: int) -> Fact:
    """The fact that begins at a byte of a file."""
    *label, kind, count = HEAD.unpack_from(data, at)
    return Fact(*label, kind, struct.unpack_from(form(kind, count), data, at + HEAD.size))


def record_of(data: bytes) -> Record:
    """The fact whose bytes these are."""
    return Record(*HEAD.unpack_from(data), data[HEAD.size :])


def records_of(line: bytes) -> list[Record]:
    """The facts of a line, as they are there."""
    data = bytes.fromhex(line.decode())
    starts = [*starts_of(data), len(data)]
    found = [record_of(data[start:end]) for start, end in zip(starts, starts[1:])]
    if any(len(it.data) != it.count * (8 if it.kind else 4) for it in found):
        raise ValueError("a fact is cut off")
    return found


def starts_of(data: bytes) -> Iterator[int]:
    """Where the facts of a file begin."""
    at = retired_end(data) + 4
    while at < len(data):
        *_, kind, count = HEAD.unpack_from(data, at)
        yield at
        at += HEAD.size + count * (8 if kind else 4)


def tile_at(data: bytes, at: int) -> tuple[int, int, int]:
    """The tile of the fact that begins at a byte of a file: its stage, its row and its column."""
    return HEAD.unpack_from(data, at)[2:5]


def part_at(data: bytes, at: int) -> str:
    """Which of its retired jobs or facts a file has at a byte, in words, where all is well before it; or nothing."""
    begun = retired_end(data) + 4
    if 8 <= at < begun - 4:
        return f"retired job {(at - 8) // IDS.size + 1} of {count_at(data, 4)}"
    count = count_at(data, begun - 4)
    for number in range(1, count + 1 if at >= begun else 0):
        is_whole = begun + HEAD.size <= min(at, len(data))
        *_, kind, numbers = HEAD.unpack_from(data, begun) if is_whole else (0, 0)
        begun += HEAD.size + numbers * (8 if kind else 4)
        if not is_whole or at < begun or begun > len(data):
            return f"fact {number} of {count}"
    return ""


def lines_of(texts: list[Text]) -> Iterator[tuple[str, bytes]]:
    """The lines of fact files, each behind its file and its number."""
    for text in texts:
        for number, line in enumerate(text.data.split(b"\n"), 1):
            yield f"{text.name}:{number}", line


def retiring(texts: list[Text], ids: Ids) -> str | None:
    """Where fact files retire a job, by the first line that does, if any does."""
    return next((place for place, line in lines_of(texts) if ids in retired_in(line)), None)


def listing(texts: list[Text]) -> str:
    """The lines that tell what fact files hold: of each line the jobs that it retires, and then its facts."""
    found = []
    for place, line in lines_of(texts):
        found += [f"{place}: {named(it)} retired\n" for it in retired_in(line)]
        found += [f"{place}: {named(it.ids())} {told(it)}\n" for it in facts_of(line)]
    return "".join(found)


def named(ids: Ids) -> str:
    """The beginnings of the two identities."""
    return " ".join(it.hex()[:8] for it in ids)


def told(it: Fact) -> str:
    """What a fact says of which tile."""
    numbers = " ".join(map(str, it.numbers[:SHOWN])) + (f" .. ({len(it.numbers)} numbers)" if len(it.numbers) > SHOWN else "")
    return f"{'partial' if it.kind else 'tile'} {it.stage} {it.row} {it.col}: {numbers}"
