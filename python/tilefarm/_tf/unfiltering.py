"""The filters of PNG rows undone, on many bytes at once: each byte is stored as its difference from one that its neighbours tell.

A row that is told by the row above alone, or by what stands to the left alone, is undone as one number. A mean and Paeth's choice are told
by both: there a block of rows is undone diagonal by diagonal, since the points of a diagonal do not tell of each other.
"""
from typing import Callable

from . import lanes

PLAIN, LEFT, ABOVE, MEAN, PAETH = range(5)
# rows that are undone together: so few that a diagonal stays near the processor
BLOCK = 512


def undone(data: bytes, stride: int, step: int, prior: bytes) -> bytes:
    """Some rows of so many bytes, each behind the byte of its filter. The byte of the point before stands `step` bytes to the left, and
    `prior` is the row above them."""
    if not {MEAN, PAETH}.isdisjoint(data[:: stride + 1]):
        return Diagonals(data, stride, step, prior).rows()
    rows = []
    for at in range(0, len(data), stride + 1):
        prior = of_row(data[at], data[at + 1 : at + 1 + stride], prior, step)
        rows.append(prior)
    return b"".join(rows)


def of_row(kind: int, row: bytes, prior: bytes, step: int) -> bytes:
    """A row that is plain, or told by what stands to the left or above."""
    if kind == PLAIN:
        return row
    if kind == LEFT:
        return lanes.summed(row, step)
    return lanes.added(int.from_bytes(row, "little"), int.from_bytes(prior, "little"), len(row)).to_bytes(len(row), "little")


class Diagonals:
    """A block of rows. Its diagonal of some number has the point in that column of the first row, the one to the left of it in the second,
    and so on down. Each byte of a diagonal is a lane of two, `step` lanes a row; what stands outside of the picture is 0."""

    def __init__(self, data: bytes, stride: int, step: int, prior: bytes):
        self.data, self.stride, self.step = data, stride, step
        kinds = data[:: stride + 1]
        self.count, self.cols = len(kinds), stride // step
        self.size = 2 * step * self.count
        self.bytes = lanes.repeated_pair(0xFF, self.size // 2)
        self.kinds = {kind: self.lanes_of(kinds, kind) for kind in {*kinds} - {PLAIN}}
        self.tops = [int.from_bytes(spread(prior[at : at + step]), "little") for at in range(0, stride, step)] + [0] * self.count

    def lanes_of(self, kinds: bytes, kind: int) -> int:
        """The bytes of the lanes of the rows that have this filter."""
        mask = kinds.translate(bytes(255 * (it == kind) for it in range(256)))
        return int.from_bytes(b"".join(bytes([it, 0]) * self.step for it in mask), "little")

    def rows(self) -> bytes:
        """The rows with their filters undone."""
        found, left, above = bytearray(self.count * self.stride), 0, 0
        whole = (1 << 8 * self.size) - 1
        for number in range(self.cols + self.count - 1):
            # (what stood above on the diagonal before are the corners now)
            corner, above = above, (left << 16 * self.step | self.tops[number]) & whole
            left = self.given(number) + self.told(left, above, corner) & self.bytes
            self.put(found, number, left.to_bytes(self.size, "little"))
        return bytes(found)

    def ends(self, number: int) -> tuple[int, int]:
        """The first and the last row that a diagonal meets."""
        return max(0, number - self.cols + 1), min(self.count - 1, number)

    def lane(self, first: int, last: int, part: int) -> slice:
        """Where a diagonal has this byte of the points of some rows."""
        return slice(2 * (first * self.step + part), 2 * (last * self.step + part) + 1, 2 * self.step)

    def given(self, number: int) -> int:
        """The stored bytes of a diagonal."""
        (first, last), found, back = self.ends(number), bytearray(self.size), self.stride + 1 - self.step
        start, end = 1 + self.step * number + first * back, 1 + self.step * number + last * back + 1
        for part in range(self.step):
            found[self.lane(first, last, part)] = self.data[start + part : end + part : back]
        return int.from_bytes(found, "little")

    def put(self, found: bytearray, number: int, diagonal: bytes) -> None:
        """Puts a diagonal where it belongs."""
        (first, last), back = self.ends(number), self.stride - self.step
        start, end = self.step * number + first * back, self.step * number + last * back + 1
        for part in range(self.step):
            found[start + part : end + part : back or 1] = diagonal[self.lane(first, last, part)]

    def told(self, left: int, above: int, corner: int) -> int:
        """The bytes that the neighbours tell, row by row as the row's filter says."""
        choices: dict[int, Callable[[], int]] = {
            LEFT: lambda: left, ABOVE: lambda: above, MEAN: lambda: left + above >> 1,
            PAETH: lambda: lanes.nearest(left, above, corner, self.size // 2),
        }
        found = 0
        for kind, mask in self.kinds.items():
            found |= choices[kind]() & mask
        return found


def spread(row: bytes) -> bytes:
    """Each byte as a lane of two."""
    found = bytearray(2 * len(row))
    found[::2] = row
    return bytes(found)
