"""Fact files on the disk: they are unpacked into files without names, and read line by line and fact by fact, so that no more than a piece of
them is held."""
import os
import stat
import tempfile
from dataclasses import dataclass, field
from typing import BinaryIO, Iterable, Iterator, NamedTuple

from . import leaving
from .facts import HEAD, IDS, RETIRES, Ids, Record, record_of
from .packing import BLOCK, unpacked
from .text import Refused, of_device, piped

# the digits of a file's beginning, of a count, and of the identities of a job
MAGIC, COUNT, JOB = 8, 8, 2 * IDS.size
# the bytes of a fact's key, behind which its kind and the count of its numbers stand
KEY = HEAD.size - 5


class Odd(Exception):
    """A line is not as the line of a fact file is: the program says what is wrong with it."""


class Place(NamedTuple):
    """A fact in the line of a fact file: its key, and where its digits begin and end."""

    key: bytes
    first: int
    end: int


@dataclass
class Spool:
    """The text of a fact file, in a file without a name. `starts` is where its lines begin, and `length` where the last one ends."""

    name: str
    file: BinaryIO
    length: int = 0
    starts: list[int] = field(default_factory=lambda: [0])

    def lines(self) -> Iterator[tuple[int, "Line"]]:
        """The lines that are not empty, each with its number."""
        ends = [*(it - 1 for it in self.starts[1:]), self.length]
        for number, (start, end) in enumerate(zip(self.starts, ends), 1):
            if start < end:
                yield number, Line(self.file, start, end)

    def blocks(self, first: int = 0, end: int | None = None) -> Iterator[bytes]:
        return blocks_of(self.file, first, self.length if end is None else end)

    def is_ended(self) -> bool:
        """Whether its last line has an end, or is empty."""
        return self.starts[-1] == self.length


class Line(NamedTuple):
    """The line of a fact file, in digits, from one place of a file to another."""

    file: BinaryIO
    start: int
    end: int

    def bytes_at(self, at: int, count: int) -> bytes:
        """So many bytes behind so many digits of the line."""
        if self.start + at + 2 * count > self.end:
            raise Odd
        try:
            found = bytes.fromhex(os.pread(self.file.fileno(), 2 * count, self.start + at).decode("ascii"))
        except ValueError as error:
            raise Odd from error
        if len(found) != count:
            raise Odd
        return found

    def retires(self) -> bool:
        return self.bytes_at(0, len(RETIRES)) == RETIRES

    def head(self) -> int:
        """How many digits stand before the count of its facts."""
        return MAGIC + COUNT + JOB * int.from_bytes(self.bytes_at(MAGIC, COUNT // 2)) if self.retires() else MAGIC

    def count(self) -> int:
        return int.from_bytes(self.bytes_at(self.head(), COUNT // 2))

    def retired(self) -> Iterator[Ids]:
        """The jobs that it retires."""
        for at in range(MAGIC + COUNT, self.head(), JOB):
            yield IDS.unpack(self.bytes_at(at, IDS.size))

    def facts(self) -> Iterator[Place]:
        """Its facts, as many as it says."""
        return self.facts_from(self.head() + COUNT, self.count())

    def facts_from(self, at: int, count: int) -> Iterator[Place]:
        """The facts that stand from so many digits on to its end, with keys that do not fall."""
        last = b""
        for _ in range(count):
            head = self.bytes_at(at, HEAD.size)
            *_, kind, numbers = HEAD.unpack(head)
            end, key = at + 2 * (HEAD.size + numbers * (8 if kind else 4)), head[:KEY]
            if kind > 1 or key < last or self.start + end > self.end:
                raise Odd
            yield Place(key, self.start + at, self.start + end)
            at, last = end, key
        if self.start + at != self.end:
            raise Odd

    def record(self, place: Place) -> Record:
        return record_of(self.bytes_at(place.first - self.start, (place.end - place.first) // 2))


def spooled(path: str) -> Spool:
    """The text of a file, or of standard input, which is -. What is packed is unpacked."""
    return spool_of(path, unpacked(read_blocks(path), path))


def spool_of(name: str, blocks: Iterable[bytes]) -> Spool:
    """The text of these bytes."""
    try:
        spool = Spool(name, leaving.nameless_file())
        for it in blocks:
            add(spool, it)
        spool.file.flush()
    except OSError as error:
        raise Refused(f"{tempfile.gettempdir()}: {error.strerror}", 4) from error
    return spool


def add(spool: Spool, block: bytes) -> None:
    """Puts bytes at the end of a text."""
    spool.file.write(block)
    at = block.find(b"\n")
    while at >= 0:
        spool.starts.append(spool.length + at + 1)
        at = block.find(b"\n", at + 1)
    spool.length += len(block)


def read_blocks(path: str) -> Iterator[bytes]:
    """The bytes of a file, or of standard input. What came by a pipe before is taken from there."""
    if path in piped:
        yield piped[path]
        return
    try:
        with open(0 if path == "-" else path, "rb", closefd=path != "-") as file:
            is_device = stat.S_ISCHR(os.fstat(file.fileno()).st_mode) and not file.isatty()
            while block := of_device(path, file) if is_device else file.read(BLOCK):
                yield block
    except OSError as error:
        raise Refused(f"{'standard input' if path == '-' else path}: {error.strerror}") from error


def blocks_of(file: BinaryIO, first: int, end: int) -> Iterator[bytes]:
    """The bytes of a file from one place to another, a block at a time."""
    while first < end:
        block = os.pread(file.fileno(), min(BLOCK, end - first), first)
        if not block:
            raise Refused("a file of tf's own is shorter than it was: another program has changed it", 4)
        yield block
        first += len(block)
