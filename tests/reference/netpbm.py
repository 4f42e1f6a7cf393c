"""A reader of pictures, written from docs/FORMATS.md alone: the picture, or the first fault from the left and its offset."""
from dataclasses import dataclass

from .pictures import Picture

WHITE, DIGITS, MOST_SIDE, MOST_MAX = b" \t\r\n", b"0123456789", 4096, 65535


@dataclass
class Fault(Exception):
    number: int
    name: str
    at: int


class Reader:
    def __init__(self, data: bytes):
        self.data, self.at = data, 0

    def is_at_end(self) -> bool:
        return self.at == len(self.data)

    def next_in(self, some: bytes) -> bool:
        return not self.is_at_end() and self.data[self.at] in some

    def expect_more(self, number: int, name: str) -> None:
        if self.is_at_end():
            raise Fault(number, name, self.at)

    def number(self) -> tuple[int, int]:
        """The value of a run of digits, taken whole, and where it begins."""
        begun = self.at
        while self.next_in(DIGITS):
            self.at += 1
        if self.at == begun:
            raise Fault(3, "BadNumber", begun)
        return int(self.data[begun : self.at]), begun

    def gap(self) -> None:
        """White space and comments, one byte at least; something follows."""
        self.expect_more(2, "HeaderCut")
        if not self.next_in(WHITE + b"#"):
            raise Fault(3, "BadNumber", self.at)
        while self.next_in(WHITE + b"#"):
            is_comment, self.at = self.next_in(b"#"), self.at + 1
            while is_comment and not self.is_at_end() and not self.next_in(b"\r\n"):
                self.at += 1
        self.expect_more(2, "HeaderCut")

    def in_range(self, most: int, number: int, name: str) -> int:
        self.gap()
        value, begun = self.number()
        if not 1 <= value <= most:
            raise Fault(number, name, begun)
        return value

    def magic(self) -> int:
        for place, some in enumerate((b"P", b"2356")):
            self.expect_more(2, "HeaderCut")
            if not self.next_in(some):
                raise Fault(1, "OtherFormat", place)
            self.at += 1
        return self.data[1] - ord("0")

    def picture(self) -> Picture:
        kind = self.magic()
        cols, rows = (self.in_range(MOST_SIDE, 4, "BadSize") for _ in range(2))
        greatest = self.in_range(MOST_MAX, 5, "BadMax")
        self.expect_more(2, "HeaderCut")
        if self.next_in(b"#"):
            raise Fault(6, "CommentBehindDigit", self.at)
        if not self.next_in(WHITE):
            raise Fault(3, "BadNumber", self.at)
        self.at += 1
        planes = 3 if kind in (3, 6) else 1
        sample = self.plain_sample if kind in (2, 3) else self.raw_sample
        count = rows * cols * planes
        samples = [sample(greatest, it == count - 1) for it in range(count)]
        while kind in (2, 3) and self.next_in(WHITE):
            self.at += 1
        if not self.is_at_end():
            raise Fault(9, "TrailingBytes", self.at)
        return Picture(rows, cols, planes, greatest, samples)

    def raw_sample(self, greatest: int, is_last: bool) -> int:
        width = 1 if greatest < 256 else 2
        if self.at + width > len(self.data):
            raise Fault(7, "RasterCut", len(self.data))
        value = int.from_bytes(self.data[self.at : self.at + width], "big")
        return self.fitting(value, self.at, self.at + width, greatest)

    def plain_sample(self, greatest: int, is_last: bool) -> int:
        while self.next_in(WHITE):
            self.at += 1
        self.expect_more(7, "RasterCut")
        value, begun = self.number()
        self.fitting(value, begun, self.at, greatest)
        if not is_last and not self.is_at_end() and not self.next_in(WHITE):
            raise Fault(3, "BadNumber", self.at)
        return value

    def fitting(self, value: int, begun: int, after: int, greatest: int) -> int:
        if value > greatest:
            raise Fault(8, "SampleTooBig", begun)
        self.at = after
        return value
