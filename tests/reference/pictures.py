"""A picture with the tables that are supplied before it, and its raw file."""
from dataclasses import dataclass, replace


@dataclass(frozen=True)
class Picture:
    rows: int
    cols: int
    planes: int
    greatest: int
    samples: list[int]
    tables: tuple = ()

    def with_tables(self, tables: tuple) -> "Picture":
        return replace(self, tables=tables)

    def lines(self) -> bytes:
        """The lines of the tables, which stand before the picture."""
        return b"".join(it.line() for it in self.tables)

    def raw(self) -> bytes:
        width = 1 if self.greatest < 256 else 2
        head = f"P{6 if self.planes == 3 else 5}\n{self.cols} {self.rows}\n{self.greatest}\n"
        return head.encode() + b"".join(it.to_bytes(width, "big") for it in self.samples)
