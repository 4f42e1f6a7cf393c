"""Merges of more facts than one run is given: in rounds, of which each takes the facts of some keys out of all lines.

A line of a fact file rises by keys, and so does what `tilefarm merge` writes. So the merge of all lines is the merge of their least keys, then
that of the next ones, and so on. Each round is a run of the program, which judges the lines that it gets. Retired jobs go with each round.
"""
import heapq
import os
from dataclasses import dataclass
from itertools import chain
from typing import BinaryIO, Callable, ContextManager, Iterable, Iterator

from . import leaving
from .fact_spools import COUNT, Line, Odd, Place, Spool, blocks_of
from .facts import Record

# how many digits the facts of a round have, unless those of one key alone have more. The program holds twice that.
ROUND = 1 << 24
LF = b"\n"


@dataclass(frozen=True)
class Union:
    """All jobs that are retired and all facts of others, in digits: what stands before their count, the count, and a file of the facts."""

    head: bytes
    count: int
    facts: BinaryIO
    length: int

    def __iter__(self) -> Iterator[bytes]:
        """The line of its fact file, in blocks."""
        yield self.head + b"%08x" % self.count
        yield from blocks_of(self.facts, 0, self.length)
        yield LF

    def size(self) -> int:
        return len(self.head) + COUNT + self.length + len(LF)

    def places(self) -> Iterator[Place]:
        """Where each fact stands in the file."""
        return Line(self.facts, 0, self.length).facts_from(0, self.count)

    def record(self, place: Place) -> Record:
        return Line(self.facts, 0, self.length).record(place)

    def shares(self, most: int) -> Iterator[tuple[int, Iterator[bytes]]]:
        """Lines of its facts with so many digits at most, unless one fact has more, and how many each has. The first has the retired jobs."""
        head, first, last, count = self.head, 0, 0, 0
        for place in self.places():
            if count and len(head) + COUNT + place.end - first > most:
                yield count, self.share(head, count, first, last)
                head, first, count = b"PTF1".hex().encode(), last, 0
            last, count = place.end, count + 1
        yield count, self.share(head, count, first, last)

    def share(self, head: bytes, count: int, first: int, end: int) -> Iterator[bytes]:
        yield head + b"%08x" % count
        yield from blocks_of(self.facts, first, end)
        yield LF


# runs `merge` on bytes that come in blocks: the file that it writes, for as long as that is wanted, or none where it does not go well
Run = Callable[[Iterable[bytes]], ContextManager[BinaryIO | None]]


@dataclass
class Share:
    """What a round takes of a line: how many facts, and from where to where."""

    count: int
    first: int
    end: int


class Rounds:
    """The merge of the lines of some texts, by rounds of so many digits."""

    def __init__(self, spools: list[Spool], run: Run, digits: int = ROUND):
        self.lines = [line for spool in spools for _, line in spool.lines()]
        self.retiring = [number for number, it in enumerate(self.lines) if it.retires()]
        self.run, self.digits = run, digits
        self.facts, self.length, self.count, self.head = leaving.nameless_file(), 0, 0, b""
        # of the lines that the next round takes something of, what it takes; the first round judges all of them
        self.shares: dict[int, Share] = {it: self.nothing(it) for it in range(len(self.lines))}

    def nothing(self, number: int) -> Share:
        return Share(0, 0, 0)

    def union(self) -> Union:
        """All of it."""
        size = 0
        for keyed in self.by_keys():
            size += sum(place.end - place.first for _, place in keyed)
            for number, place in keyed:
                self.add(number, place)
            if size >= self.digits:
                self.merge()
                size = 0
        if self.shares or not self.head:
            self.merge()
        self.facts.flush()
        return Union(self.head, self.count, self.facts, self.length)

    def by_keys(self) -> Iterator[list[tuple[int, Place]]]:
        """The facts of each key, with the numbers of their lines; keys rise."""
        facts = heapq.merge(*(self.numbered(number) for number in range(len(self.lines))))
        found: list[tuple[int, Place]] = []
        for key, number, place in facts:
            if found and found[0][1].key != key:
                yield found
                found = []
            found.append((number, place))
        if found:
            yield found

    def numbered(self, number: int) -> Iterator[tuple[bytes, int, Place]]:
        return ((it.key, number, it) for it in self.lines[number].facts())

    def add(self, number: int, place: Place) -> None:
        """Lets the next round take a fact of a line, which stands behind what it takes of it already."""
        share = self.shares.setdefault(number, self.nothing(number))
        if not share.count:
            share.first = place.first
        share.count, share.end = share.count + 1, place.end

    def merge(self) -> None:
        """One round."""
        self.take(block for number in sorted({*self.shares, *self.retiring}) for block in self.blocks(number))
        self.shares = {}

    def blocks(self, number: int) -> Iterator[bytes]:
        """A line of its own, with what a round takes of a line."""
        line, share = self.lines[number], self.shares.get(number) or self.nothing(number)
        yield from blocks_of(line.file, line.start, line.start + line.head())
        yield b"%08x" % share.count
        yield from blocks_of(line.file, share.first, share.end)
        yield LF

    def take(self, given: Iterable[bytes]) -> None:
        """Merges lines, and puts what that writes behind what others have."""
        with self.run(given) as written:
            if written is None:
                raise Odd
            self.append(written)

    def append(self, written: BinaryIO) -> None:
        """Puts the facts of a round behind those of others, of lesser keys."""
        line = Line(written, 0, written.seek(0, os.SEEK_END) - len(LF))
        if line.end < 0 or os.pread(written.fileno(), len(LF), line.end) != LF:
            raise Odd
        head = line.head()
        self.head, self.count = b"".join(blocks_of(written, 0, head)), self.count + line.count()
        for block in blocks_of(written, head + COUNT, line.end):
            self.facts.write(block)
            self.length += len(block)


def merged(spools: list[Spool], run: Run, digits: int = ROUND) -> Union:
    """The merge of texts, in one run where they are short, and else in rounds. `Odd` is raised where a run does not go well."""
    if sum(it.length for it in spools) > digits:
        return Rounds(spools, run, digits).union()
    whole = Rounds([], run)
    whole.take(block for it in spools for block in chain(it.blocks(), [LF] * (not it.is_ended())))
    return whole.union()
