"""Tests of what tf takes from a picture for the program: the greatest sample, values made of sides, and how much of the result is cut."""
import os
import random
import subprocess
import unittest

from .shared import COPY, PROGRAM, InRoom

from _tf import cutting
from _tf.netpbm import Header
from _tf.parser import known_program
from _tf.ranges import can_be_above
from _tf.settings import settings, with_greatest
from _tf.tables import Line
from _tf.text import Text

# the second half of this picture of ten by ten is brighter than a byte
DEEP = b"P5 10 10 65535 " + b"\0\x07" * 50 + b"\x01\x00" * 50
ASKING = COPY.replace("image", "param M; # greatest sample\nimage").replace("I(x, y)", "M - I(x, y)").replace("max 255;", "max 255; # greatest sample")
COUNTS = "accum h [0 .. 0] over (x in [0 .. R-1], y in [0 .. C-1]) sum select(I(x, y) == 7, 1, 0) at 0;\n"
# of the third function no sample is cut, and of each of the others, which are one and the same plane, half of them
COLOURS = ("param R; param C;\nimage I, J, K(R, C);\nfunc f(x in [0 .. R-1], y in [0 .. C-1]) { else : 2 * I(x, y); }\n"
           "func g(x in [0 .. R-1], y in [0 .. C-1]) { else : min(2 * K(x, y), 255); }\noutput f, g, f max 255;\n")


def values(lines: str, rows: int, cols: int, most: int = 255) -> dict[str, int]:
    """The values of all parameters over a picture of these sides."""
    return settings(known_program(lines.encode()), {}, Header(True, 1, cols, rows, most, 0))


class GreatestSamples(InRoom):
    def test_the_program_has_the_greatest_sample_of_the_picture(self):
        self.write("ask.pipe", ASKING.encode())
        self.write("deep.pgm", b"P5 2 1 4095 \x0f\xff\x01\x00")
        self.assertEqual(self.tf("eval ask.pipe deep.pgm"), (0, b"P5\n2 1\n4095\n\0\0\x0e\xff", ""))
        self.assertEqual(self.tf("eval ask.pipe p.pgm"), (0, b"P5\n4 4\n255\n" + bytes(255 - it for it in range(1, 17)), ""))
        self.assertEqual(self.tf("eval ask.pipe deep.pgm M=9 --parts 2")[:2], (0, b"P5\n2 1\n9\n\0\0"))
        self.assertEqual(self.tf("eval ask.pipe deep.pgm --parts 1")[:2], (0, b"P5\n2 1\n4095\n\0\0\x0e\xff"))
        self.assertEqual(self.tf("run ask.pipe deep.pgm"), (0, b"P5\n2 1\n4095\n\0\0\x0e\xff", ""))

    def test_the_text_keeps_its_length(self):
        for number in ("255", "1", "65535"):
            text = ASKING.replace("max 255", f"max {number}").encode()
            for most in (7, 255, 65535):
                made = with_greatest(text, known_program(text), {}, Header(True, 1, 1, 1, most, 0))
                self.assertEqual((len(made), known_program(made).output().most.value), (len(text), most))

    def test_comments_that_ask_for_values(self):
        given = "param R; param C;\nparam H; # R / 8, rounded up\nparam L; # R / 8\nparam S; # 1000 / greatest sample\nimage I(R, C);\n"
        self.assertEqual(values(given, 17, 3, 100), {"R": 17, "C": 3, "H": 3, "L": 2, "S": 10})
        for comment in ("the greatest sample", "greatest sample of all", "C / 2", "2", "R / 0", "R", ""):
            self.assertEqual(values(f"param N; # {comment}\nimage I(1, 1);\n", 1, 1), {})

    def test_sides_that_are_multiples(self):
        self.assertEqual(values("param H; param W;\nimage I(2*H, 8*W+1);\n", 400, 17), {"H": 200, "W": 2})
        self.assertEqual(values("param H; param W;\nimage I(2*H, 2*W);\n", 401, 18), {"W": 9})
        self.write("half.pipe", b"param H; param W;\nimage I(2*H, 2*W);\nfunc f(x in [0 .. H-1], y in [0 .. W-1]) { else : I(2*x+1, 2*y); }\noutput f max 255;\n")
        self.assertEqual(self.tf("eval half.pipe p.pgm"), (0, b"P5\n2 2\n255\n\5\7\r\x0f", ""))
        self.write("odd.pgm", b"P5 3 3 255 abcdefghi")
        self.refused("eval half.pipe odd.pgm", 3, "no side of the picture gives it")


class Counts(unittest.TestCase):
    """How often the greatest sample stands in a result: in pieces, and no further than it takes to tell that it is often."""

    def test_all_are_counted_where_none_is_too_many(self):
        chance = random.Random(12)
        for length, share in ((0, 0), (1, 1), (cutting.PIECE, 0), (cutting.PIECE + 1, 0.001), (5 * cutting.PIECE + 3, 0.01), (3 * cutting.PIECE, 1)):
            data = bytes(255 if chance.random() < share else chance.randrange(255) for _ in range(length))
            for start in (0, 1, 17):
                for end in (length, length - 1, cutting.PIECE):
                    self.assertEqual(cutting.count_of(b"\xff", data, start, end, length), data.count(b"\xff", start, end))
                    self.assertEqual(cutting.count_of(b"\xff", bytearray(data), start, end, 3) > 3, data.count(b"\xff", start, end) > 3)

    def test_samples_of_two_bytes_are_never_too_few(self):
        chance = random.Random(13)
        for most in (65535, 65280, 511, 256):
            for share in (0.0, 0.004, 0.012, 0.5):
                samples = [most if chance.random() < share else chance.choice((255, 65280, 65535, chance.randrange(most))) for _ in range(9000)]
                data = b"P5\n90 100\n%d\n" % most + b"".join(min(it, most).to_bytes(2, "big") for it in samples)
                found = cutting.head_if_cut(data)
                self.assertTrue(found is not None or sum(it >= most for it in samples) <= cutting.MOST_SHARE * 9000)


class CutResults(InRoom):
    def setUp(self):
        super().setUp()
        self.write("deep.pgm", DEEP)

    def test_the_share_is_told_with_the_cure(self):
        status, written, told = self.tf("eval p.pipe deep.pgm")
        self.assertEqual((status, written[-1]), (0, 255))
        self.assertEqual(told, "tf: warning: 50 % of its samples are cut at 255 (p.pipe:4:14): deep.pgm has samples up to 65535, "
                               "and `max 255; # greatest sample` lets the result have them too\n")
        self.write("p.pipe", COPY.replace("I(x, y)", "20 * I(x, y)").encode())
        self.assertIn("25 % of its samples are cut at 255 (p.pipe:4:14): scale the values", self.tf("eval p.pipe p.pgm")[2])

    def test_what_is_greatest_and_not_cut_is_not_told(self):
        for value in ("I(x, y) / 257", "min(I(x, y), 255)", "select(I(x, y) >= 256, 255, 0)"):
            self.write("p.pipe", COPY.replace("I(x, y)", value).encode())
            self.assertEqual(self.tf("eval p.pipe deep.pgm")[2], "")

    def test_ranges_show_what_cannot_be_cut(self):
        table, head = [Line("t", b"t 0..1: 1 127", Text("t.table", b""))], Header(True, 1, 4, 4, 255, 0)
        for value, can_be in (("I(x, y)", False), ("I(x, y) + 1", True), ("min(9 * I(x, y), 255)", False), ("I(x, y) - 900", False),
                              ("I(x, y) + t[x]", True), ("I(x, y) / 2 + t[x]", False), ("M", True), ("I(x+1, y)", True)):
            text = COPY.replace("image", "table t[0 .. 1];\nimage").replace("I(x, y)", value).encode()
            self.assertEqual(can_be_above(text, {"R": 4, "C": 4}, head, table), can_be, value)
        deep = head._replace(most=256)
        self.assertTrue(can_be_above(COPY.encode(), {"R": 4, "C": 4}, deep))

    def test_a_hundredth_is_not_told(self):
        self.write("one.pgm", b"P5 10 10 65535 " + b"\0\x07" * 99 + b"\x01\x00")
        self.assertEqual(self.tf("eval p.pipe one.pgm")[2], "")

    def test_strict_refuses(self):
        self.refused("eval p.pipe deep.pgm -o o.pgm --strict", 3, "50 % of its samples are cut")
        self.assertEqual(self.tf("eval p.pipe p.pgm --strict")[0], 0)

    def test_parts_count_them(self):
        self.write("p.pipe", (COPY + COUNTS).encode())
        status, wanted, told = self.tf("eval p.pipe deep.pgm")
        self.assertEqual((status, told[:55]), (0, "tf: warning: 50 % of its samples are cut at 255 (p.pipe"))
        for words in ("--parts 3", "--parts 4 --jobs 2", "--parts 4096", "--parts 3 --resume kept"):
            with self.subTest(words):
                status, written, said = self.tf(f"eval p.pipe deep.pgm {words}")
                self.assertEqual((status, written, said[-len(told) :]), (0, wanted, told))
                self.refused(f"eval p.pipe deep.pgm -o o.pgm {words} --strict", 3, told.removeprefix("tf: warning: "))
        self.write("p.pipe", COPY.replace("I(x, y)", "min(I(x, y), 255)").encode())
        self.assertEqual(self.tf("eval p.pipe deep.pgm --parts 3 --strict")[::2], (0, ""))

    def test_parts_count_each_plane(self):
        self.write("p.pipe", COLOURS.encode())
        self.write("c.ppm", b"P6 4 4 255 " + bytes([200, 100, 7]) * 8 + bytes([1, 100, 200]) * 8)
        wanted = self.tf("eval p.pipe c.ppm")
        self.assertIn("tf: warning: 33 % of its samples are cut at 255", wanted[2])
        for side in (1, 3):
            self.assertEqual(self.tf(f"eval p.pipe c.ppm --parts {side}"), wanted)

    def test_lists_count_them(self):
        for text, has_lines in ((COPY + COUNTS, True), (COPY, False)):
            self.write("p.pipe", text.encode())
            status, wanted, told = self.tf("eval p.pipe deep.pgm")
            self.assertEqual(wanted.endswith(b"h 0..0: 50\n"), has_lines)
            self.assertEqual(self.tf(f"eval p.pipe deep.pgm --engine list --parts 4 -o list{has_lines}")[0], 0)
            subprocess.run(["sh", f"list{has_lines}/commands"], cwd=self.room, check=True, env={**os.environ, "TILEFARM": PROGRAM})
            self.assertEqual(self.tf(f"join list{has_lines}"), (status, wanted, told))
            self.refused(f"join list{has_lines} -o o.pgm --strict", 3, told.removeprefix("tf: warning: "))

    def test_batches_count_them(self):
        status, _, told = self.tf("eval p.pipe deep.pgm p.pgm -o {name}.out.pgm")
        self.assertEqual((status, told.splitlines()[-1]), (0, "tf: 1 of 2 results are cut"))
        status, _, told = self.tf("eval p.pipe deep.pgm p.pgm -o {name}.out.pgm --strict")
        self.assertEqual((status, told.splitlines()[-1]), (3, "tf: 1 of 2 failed"))
