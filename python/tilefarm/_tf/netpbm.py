"""PGM and PPM pictures, as far as tf needs them: their header, and the samples of raw ones."""
import re
from array import array
from typing import NamedTuple
import sys

from . import lanes
from .text import Refused
from .whole_numbers import whole_number

GAP = rb"(?:[ \t\r\n]|#[^\r\n]*[\r\n])+"
HEADER = re.compile(rb"P([2356])" + GAP + rb"([0-9]+)" + GAP + rb"([0-9]+)" + GAP + rb"([0-9]+)[ \t\r\n]")
MOST_SIDE = 4096
# the greatest number of a header that is one here, and the digits of a sample with its leading zeros
MOST_NUMBER, MOST_DIGITS = 2**31 - 1, 64
# as many bytes as hold a header with its comments
HEAD = 1 << 16


class Header(NamedTuple):
    """What stands before a raster, and where that begins."""

    is_raw: bool
    parts: int
    cols: int
    rows: int
    most: int
    end: int

    def length(self) -> int:
        """The bytes of a raw raster."""
        return self.cols * self.rows * self.parts * (1 if self.most < 256 else 2)


def header_of(data: bytes) -> Header | None:
    """The header, where the bytes begin with one."""
    found = HEADER.match(data)
    numbers = [whole_number(it, 0, MOST_NUMBER) for it in found.groups()] if found else [None]
    if None in numbers:
        return None
    kind, cols, rows, most = numbers
    return Header(kind > 3, 3 if kind in (3, 6) else 1, cols, rows, most, found.end())


class Picture(NamedTuple):
    """Samples row by row, one or three a point; a sample is a byte, or two where `most` is 256 or more."""

    cols: int
    rows: int
    parts: int
    most: int
    raster: bytes

    def head(self) -> bytes:
        """What stands before the raster, as `tilefarm` writes it."""
        return b"P%d\n%d %d\n%d\n" % (5 if self.parts == 1 else 6, self.cols, self.rows, self.most)

    def raw(self) -> bytes:
        """The picture as `tilefarm` writes pictures."""
        return self.head() + self.raster

    def samples(self) -> array:
        """Its samples as numbers."""
        if self.most < 256:
            return array("B", self.raster)
        found = array("H", self.raster)
        if sys.byteorder == "little":
            found.byteswap()
        return found

    def numbers(self) -> str:
        """Its samples in decimal digits, a row of points a line, in columns."""
        return in_columns(self.samples(), self.cols * self.parts)

    def scaled(self, most: int) -> "Picture":
        """The same picture with another greatest sample: each sample times the new one, divided by the old, rounded."""
        if most == self.most:
            return self
        table = [(value * most + self.most // 2) // self.most for value in range(self.most + 1)]
        return Picture(self.cols, self.rows, self.parts, most, bytes_of([table[it] for it in self.samples()], most))

    def grey(self) -> "Picture":
        """One plane of three: 299 parts of red, 587 of green and 114 of blue in a thousand, rounded."""
        if self.parts == 1:
            return self
        return Picture(self.cols, self.rows, 1, self.most, lanes.grey(self.raster, 1 if self.most < 256 else 2))


    def colours(self) -> "Picture":
        """Three planes of one, each the same."""
        if self.parts == 3:
            return self
        found, width = bytearray(3 * len(self.raster)), 1 if self.most < 256 else 2
        for at in range(3 * width):
            found[at :: 3 * width] = self.raster[at % width :: width]
        return Picture(self.cols, self.rows, 3, self.most, bytes(found))

    def is_grey_valued(self) -> bool:
        """Whether it has three planes that are the same."""
        width = 1 if self.most < 256 else 2
        planes = ([self.raster[part * width + at :: 3 * width] for at in range(width)] for part in range(3))
        return self.parts == 3 and next(planes) == next(planes) == next(planes)


def in_columns(numbers: array | list[int], length: int) -> str:
    """Numbers in decimal digits, so many a line, in columns."""
    width = max(len(str(min(numbers))), len(str(max(numbers))))
    rows = (numbers[at : at + length] for at in range(0, len(numbers), length))
    return "".join(" ".join(str(it).rjust(width) for it in row) + "\n" for row in rows)


def bytes_of(samples: list[int], most: int) -> bytes:
    """Samples as a raster."""
    if most < 256:
        return bytes(samples)
    found = array("H", samples)
    if sys.byteorder == "little":
        found.byteswap()
    return found.tobytes()


def bits(data: bytes, name: str) -> Picture:
    """The picture of a bitmap (PBM), plain or raw: 1 is black and 0 is white there, which is 0 and 255 here."""
    head = re.match(rb"P([14])" + GAP + rb"([0-9]+)" + GAP + rb"([0-9]+)[ \t\r\n]", data)
    cols, rows = (whole_number(it, 1, MOST_SIDE) for it in head.groups()[1:]) if head else (None, None)
    if cols is None or rows is None:
        raise Refused(f"{name}: a bitmap (PBM) whose sides are not two numbers from 1 to {MOST_SIDE}")
    if head[1] == b"1":
        samples = re.sub(rb"#[^\r\n]*|[ \t\r\n]", b"", data[head.end() :])
        if samples.strip(b"01") or len(samples) != cols * rows:
            raise Refused(f"{name}: a plain bitmap of {cols} by {rows} points has as many digits 0 and 1, and no more")
        return Picture(cols, rows, 1, 255, samples.translate(bytes(255 * (it != ord("1")) for it in range(256))))
    stride = (cols + 7) // 8
    packed = data[head.end() :]
    if len(packed) != stride * rows:
        raise Refused(f"{name}: a raw bitmap of {cols} by {rows} points has {stride * rows} bytes behind its head, and this one {len(packed)}")
    points = [bytes(0 if byte >> at & 1 else 255 for at in range(7, -1, -1)) for byte in range(256)]
    whole = b"".join(points[it] for it in packed)
    return Picture(cols, rows, 1, 255, b"".join(whole[at : at + cols] for at in range(0, len(whole), 8 * stride)))


def picture_of(data: bytes) -> tuple[Picture, bytes] | None:
    """The raw or plain picture that the bytes begin with, and what stands behind a raw one."""
    head = header_of(data)
    if head is None:
        return None
    if head.is_raw:
        raster, rest = data[head.end : head.end + head.length()], data[head.end + head.length() :]
    else:
        words = data[head.end :].split()
        if not all(it.isdigit() and len(it) < MOST_DIGITS and int(it) <= head.most for it in words):
            return None
        raster, rest = bytes_of([int(it) for it in words], head.most), b""
    if len(raster) != head.length():
        return None
    return Picture(head.cols, head.rows, head.parts, head.most, raster), rest
