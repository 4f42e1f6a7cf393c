"""Pictures of any size, of which bands and parts are read, and never the whole."""
import os
from dataclasses import dataclass
from typing import BinaryIO

from ..joining import SEPARATOR
from ..netpbm import HEAD, header_of
from ..demands import Area
from ..text import Refused
from .planning import Part


@dataclass
class Picture:
    """A raw PGM or PPM picture in a file that can be read at any place. `first` is where its samples begin."""

    file: BinaryIO
    name: str
    rows: int
    cols: int
    planes: int
    most: int
    first: int

    @property
    def width(self) -> int:
        """The bytes of a point."""
        return self.planes * (1 if self.most < 256 else 2)

    def band(self, area: Area) -> bytes:
        """The samples of an area, row by row."""
        stride, length = self.cols * self.width, area.cols.count() * self.width
        start = self.first + area.rows.least * stride + area.cols.least * self.width
        if length == stride:
            return self.bytes(start, area.rows.count() * stride)
        return b"".join(self.bytes(start + row * stride, length) for row in range(area.rows.count()))

    def bytes(self, start: int, length: int) -> bytes:
        """Bytes at a place of the file. (Several threads read at a time, so that there is no place where the file stands.)"""
        found = os.pread(self.file.fileno(), length, start)
        while len(found) < length:
            more = os.pread(self.file.fileno(), length - len(found), start + len(found))
            if not more:
                raise Refused(f"{self.name}: the picture ended while it was read (byte {start + len(found)})", 4)
            found += more
        return found

    def part(self, area: Area) -> bytes:
        """An area as a picture of its own."""
        return head(self.planes, area.rows.count(), area.cols.count(), self.most) + self.band(area)

    def head(self, most: int | None = None) -> bytes:
        """The head of the picture, or of one with another greatest sample."""
        return head(self.planes, self.rows, self.cols, most or self.most)


def head(planes: int, rows: int, cols: int, most: int) -> bytes:
    """The head of a raw picture."""
    return b"P%d\n%d %d\n%d\n" % (5 if planes == 1 else 6, cols, rows, most)


def opened(path: str) -> Picture:
    """The raw PGM or PPM picture of a file."""
    file = open(path, "rb")
    found = header_of(file.read(HEAD))
    if not found or not found.is_raw:
        raise Refused(f"{path}: no raw PGM or PPM picture")
    return Picture(file, path, found.rows, found.cols, found.parts, found.most, found.end)


def read_part(picture: Picture, part: Part) -> bytes:
    """The input of `tilefarm eval` for a part: its program, the separator, its tables, and its area of the picture."""
    return part.program + SEPARATOR + part.tables + picture.part(part.picture)
