"""Folders with a program, pictures, tables, facts and scripts, whose files a test finds unchanged."""
import os
import tempfile
import unittest

COPY = ("param R; param C;\nimage I(R, C);\nfunc f(x in [0 .. R-1], y in [0 .. C-1]) { else : I(x, y); }\noutput f max 255;\n"
        "accum h [0 .. 16] over (x in [0 .. R-1], y in [0 .. C-1]) sum 1 at I(x, y);\n")
GREY = "P2\n4 4\n255\n" + "".join(f"{4 * row + 1} {4 * row + 2} {4 * row + 3} {4 * row + 4}\n" for row in range(4))
FILES = {
    "p.pipe": COPY.encode(),
    "p.pgm": GREY.encode(),
    "bad.pipe": b"image I(2 2);\n",
    "cut.pgm": b"P5\n9 9\n255\nabc",
    "huge.pgm": b"P5\n" + b"9" * 5000 + b" 4\n255\nabc",
    "huge.pipe": b"image I(" + b"9" * 5000 + b", 4);\n",
    "asks.pipe": b"param M; # " + b"9" * 5000 + b" / " + b"9" * 5000 + b", rounded up\n" + COPY.encode(),
    "odd.tif": b"II*\0" + bytes(range(60)),
    "cut.png": b"\x89PNG\r\n\x1a\n\0\0\0\rIHDR",
    "one.facts": b"5054463100000000\n",
    "odd.facts": b"50544631zz\n",
    "s.script": b"make 0 0:1:0:0\n",
    "t.txt": b"t 0..3: 1 2 3 4\n",
    "h.csv": b"1\n2\n3\n",
    "noise": bytes(range(256)) * 8,
    "nothing": b"",
}


class InRoom(unittest.TestCase):
    """Tests with a folder that has these files."""

    def setUp(self):
        made = tempfile.TemporaryDirectory(prefix="test-hostile-")
        self.addCleanup(made.cleanup)
        self.room = made.name
        for name, data in FILES.items():
            self.write(name, data)

    def write(self, name: str, data: bytes) -> None:
        with open(f"{self.room}/{name}", "wb") as file:
            file.write(data)

    def content(self, name: str) -> bytes:
        with open(f"{self.room}/{name}", "rb") as file:
            return file.read()

    def changed(self) -> list[str]:
        """The files that are not as they were."""
        return [name for name, data in FILES.items() if not os.path.isfile(f"{self.room}/{name}") or self.content(name) != data]

    def added(self) -> list[str]:
        """What is in the folder beside them."""
        return sorted(set(os.listdir(self.room)) - set(FILES))
