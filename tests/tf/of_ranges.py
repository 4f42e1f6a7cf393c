"""Tests of the ranges of stages: by hand, and against the values of the reference evaluator."""
from random import Random
from unittest.mock import patch

from fuzzing.pictures import random_picture
from fuzzing.programs import Writer, spelled
from reference.pictures import Picture
from reference.texts import settings, tokens_of
from reference.values import Meaning, Stage

from .shared import InRoom

from _tf.parts.whole import Fault, Whole
from _tf.ranges import Ranges, Table

LEAST, MOST = -(2**31), 2**31 - 1
HEAD = "param R; param C; param P;\nimage I(R, C);\ntable t[0 .. 3];\nfunc f(x in [0 .. R-1], y in [0 .. C-1]) "
TAIL = "\noutput f max 255;\n"
# what a function is, with the least and the greatest value that it can have over samples up to 255, counted by hand
WORKED = (
    ("{ else : I(x, y) - 100; }", -100, 155), ("{ else : (I(x, y) - 100) * (I(x, y) - 100); }", 0, 155 * 155),
    ("{ else : (I(x, y) - 100) * (10 - x); }", -1000, 1550), ("{ else : -I(x, y) / 2; }", -128, 0), ("{ else : -7 / 2; }", -4, -4),
    ("{ else : I(x, y) % 7; }", 0, 6), ("{ else : (x + 8) % 16; }", 8, 11), ("{ else : -3 >> 1; }", -2, -2), ("{ else : abs(x - 2); }", 0, 2),
    ("{ else : clamp(I(x, y), 16, 235); }", 16, 235), ("{ else : clamp(I(x, y), 300, 20); }", 20, 20),
    ("{ else : min(I(x, y), x); }", 0, 3), ("{ else : max(I(x, y), 100 + y); }", 100, 255), ("{ else : select(I(x, y) >= 7, -5, x); }", -5, 3),
    ("{ else : select(x <= 3, 8, -5); }", 8, 8), ("{ else : select(x == 4, 8, -5); }", -5, -5), ("{ else : select(P >= 7, P, 1); }", 7, 7),
    ("{ case x >= 1 : I(x, y) + 10; }", 0, 265), ("{ case x >= 0 : I(x, y) + 10; else : -1; }", 10, 265),
    ("{ case x % 2 == 0 : x + 10; else : 30; }", 10, 30), ("{ case x == 3 and y >= 2 : x * y; }", 0, 9), ("{ case x >= 4 : 99; else : 5; }", 5, 5),
    ("{ case y >= 1 and y <= 2 : stencil(I, 3, [[-1, 2, -1]]); else : 1; }", -170, 170),
    ("{ else : t[x]; }", -9, 40), ("{ else : t[x + 2]; }", 30, 40), ("{ else : t[I(x, y) + 9]; }", 40, 40), ("{ else : t[-1 - x]; }", 7, 7),
    ("{ else : I(x, y) << 8; }", 0, 255 << 8),
    # a part wraps, and the whole does not
    ("{ else : 2147483647 + I(x, y) + -2147483647; }", 0, 255),
)
# what can wrap, and without wrapping its least and greatest number
WRAPPING = (
    ("{ else : I(x, y) << 24; }", 0, 255 << 24), ("{ else : (2147483647 + x) / 2; }", 2147483647, 2147483650),
    ("{ else : abs(-2147483647 - 1); }", 2**31, 2**31), ("{ else : I(x, y) * I(x, y) * I(x, y) * I(x, y); }", 0, 255**4),
    ("{ else : min(2000000000 * P, 1); }", 14000000000, 14000000000), ("{ case x >= 1 : -2147483647 - x; else : 0; }", -2147483650, -2147483648),
    ("{ case y == 1 : stencil(I, 3, [[0, 0, 10000000]]); else : 0; }", 0, 2550000000),
)


def reference(tokens: list[str], picture: Picture, given: dict[str, int]) -> dict[str, list[int]]:
    """The values of all stages by the reference evaluator."""
    stages = Meaning(tokens, settings(tokens, given, picture), picture).names
    return {name: values(it) for name, it in stages.items()}


def values(stage: Stage) -> list[int]:
    return list(map(stage.value, stage.domain.points())) if stage.kind == "plane" else list(stage.numbers(stage.domain))


def without_wrapping(*job) -> dict[str, list[int]]:
    """The same by a reference evaluator whose numbers never wrap."""
    keep = lambda value, bits=32: value
    with patch("reference.values.wrapped", keep), patch("reference.words.wrapped", keep):
        return reference(*job)


class RangesOfStages(InRoom):
    def setUp(self):
        super().setUp()
        self.write("t.table", b"t 0..3: 7 -9 30 40\n")

    def ranges(self, function: str) -> tuple[list[str], str]:
        self.write("p.pipe", f"{HEAD}{function}{TAIL}".encode())
        status, written, told = self.tf("check p.pipe p.pgm --ranges --table t.table P=7")
        self.assertEqual(status, 0, told)
        return written.decode().splitlines(), told

    def test_by_hand(self):
        for function, least, most in WORKED:
            with self.subTest(function):
                self.assertEqual(self.ranges(function), (["range I 0..255", f"range f {least}..{most}"], ""))

    def test_what_can_wrap_is_named(self):
        for function, least, most in WRAPPING:
            with self.subTest(function):
                lines, told = self.ranges(function)
                self.assertRegex(lines[1], r"^range f \S+ can wrap$")
                self.assertIn(f"tf: warning: f can wrap: without wrapping this is {least} to {most}\np.pipe:4:", told)

    def test_the_place_is_shown(self):
        self.assertEqual(self.ranges("{ else : 3 + (I(x, y) << 24) / 2; }")[1].splitlines()[1:], [
            "p.pipe:4:56", "    func f(x in [0 .. R-1], y in [0 .. C-1]) { else : 3 + (I(x, y) << 24) / 2; }", 59 * " " + 13 * "^"])

    def test_totals(self):
        self.write("p.pipe", b"image I(4, 4);\naccum s [0 .. 3] over (x in [0 .. 3], y in [1 .. 3]) sum I(x, y) - 5 at x;\n"
                   b"accum l [0 .. 3] over (x in [0 .. 3], y in [1 .. 3]) min I(x, y) at I(x, y) << 24;\n")
        status, written, told = self.tf("check p.pipe p.pgm --ranges")
        self.assertEqual((status, written), (0, b"range I 0..255\nrange s -60..3000\nrange l 0..9223372036854775807 can wrap\n"))
        self.assertIn("l can wrap", told)

    def test_a_sum_of_a_thousand_numbers(self):
        self.assertEqual(self.ranges(f"{{ else : I(x, y){' + 1' * 2000}; }}")[0][1], "range f 2000..2255")

    def test_what_is_refused(self):
        self.refused("eval p.pipe p.pgm --ranges", 1, "--ranges is an option of check")
        self.write("p.pipe", b"image I(4, 4);\nfunc f(x in [0 .. 3], y in [0 .. 3]) { else : I(x+1, y); }\noutput f max 255;\n")
        self.refused("check p.pipe p.pgm --ranges", 3, "bounds: 4 OutOfBounds f")

    def test_random_programs(self):
        """Each value of the reference evaluator is inside. Where nothing can wrap, it computes the same values without wrapping."""
        tried, calm = 0, 0
        for seed in range(400):
            random = Random(seed)
            picture = random_picture(random)
            program = Writer(random, picture).program()
            picture = picture.with_tables(program.tables)
            given = {name: int(value) for name, value in (it.split("=") for it in program.values)}
            text = spelled(program.tokens)
            try:
                whole = Whole(text, given, (picture.rows, picture.cols), picture.planes)
            except Fault:
                continue
            tried += 1
            found = Ranges(whole, picture.greatest, {it.name: Table(it.lo, it.values) for it in picture.tables})
            job = tokens_of(text), picture, given
            every = reference(*job)
            with self.subTest(seed):
                for name, numbers in every.items():
                    self.assertTrue(found.found[name].least <= min(numbers) and max(numbers) <= found.found[name].most, name)
                if not found.wraps:
                    calm += 1
                    self.assertEqual(without_wrapping(*job), every)
        self.assertGreater(min(tried - calm, calm), 50)
