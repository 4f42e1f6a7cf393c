"""Tests of stages as pictures, and of plans without a picture."""
import os

from .shared import TOP, InRoom, content

from _tf import netpbm, png

STAGES = """param R; param C;
image I(R, C);
func low(x in [0 .. R-1], y in [-1 .. C-2]) { else : (I(x, y+1) - 8) * 100; }
func wide(x in [0 .. R-1], y in [0 .. C-1]) { else : I(x, y) << 27; }
func flat(x in [3 .. 3], y in [1 .. 2]) { else : 7; }
accum h [0 .. 16] over (x in [0 .. R-1], y in [0 .. C-1]) sum 1 at I(x, y);
output low max 255;
"""
POINTS = range(1, 17)


def wrapped(value: int) -> int:
    return (value + 2**31) % 2**32 - 2**31


class StagePictures(InRoom):
    def setUp(self):
        super().setUp()
        self.write("p.pipe", STAGES.encode())

    def stage(self, words: str) -> tuple[list[int], str]:
        status, written, told = self.tf(f"eval p.pipe p.pgm --stage {words}")
        self.assertEqual(status, 0, told)
        return list(netpbm.picture_of(written)[0].samples()), told

    def near(self, found: list[int], values: list[int]) -> None:
        """Scaled from the least to the greatest, but for one grey."""
        least, most = min(values), max(values)
        exact = [(it - least) * 255 / (most - least) for it in values]
        self.assertLessEqual(max(abs(it - wanted) for it, wanted in zip(found, exact, strict=True)), 1)

    def test_a_stage_is_cut(self):
        self.assertEqual(self.stage("low"), ([min(max((it - 8) * 100, 0), 255) for it in POINTS], "tf: low has values from -700 to 800\n"))
        self.assertEqual(self.stage("I")[0], list(POINTS))
        self.assertEqual(self.stage("flat")[0], [7, 7])

    def test_the_values_of_a_stage_are_printed(self):
        for name, values in (("low", [(it - 8) * 100 for it in POINTS]), ("wide", [wrapped(it << 27) for it in POINTS]), ("I", POINTS)):
            status, written, told = self.tf(f"eval p.pipe p.pgm --stage {name} --print")
            self.assertEqual((status, told), (0, ""))
            rows = [[*map(int, line.split())] for line in written.decode().splitlines()]
            self.assertEqual(rows, [[*values[at : at + 4]] for at in range(0, 16, 4)])
        self.assertEqual(self.tf("eval p.pipe p.pgm --stage flat --print"), (0, b"7 7\n", ""))
        self.assertEqual(self.tf("eval p.pipe p.pgm --stage low --print")[1].splitlines()[0], b"-700 -600 -500 -400")
        self.assertEqual(self.tf("eval p.pipe p.pgm --stage flat --scale --print")[1], b"0 0\n")

    def test_a_stage_is_scaled(self):
        self.near(self.stage("low --scale")[0], [(it - 8) * 100 for it in POINTS])
        self.near(self.stage("wide --scale")[0], [wrapped(it << 27) for it in POINTS])
        self.assertEqual(self.stage("flat --scale")[0], [0, 0])

    def test_all_stages_have_a_page(self):
        self.assertEqual(self.tf("eval p.pipe p.pgm --stages made"), (0, b"", ""))
        self.assertEqual(sorted(os.listdir(f"{self.room}/made")), ["I.png", "flat.png", "index.html", "low.png", "wide.png"])
        picture, _ = png.read(self.content("made/low.png"), "")
        self.near(list(picture.raster), [(it - 8) * 100 for it in POINTS])
        page = self.content("made/index.html").decode()
        for words in ("<b>low</b>, function, 4 by 4<br>-700 to 800", "<b>I</b>, plane, 4 by 4<br>1 to 16", 'href="flat.png"'):
            self.assertIn(words, page)
        self.assertEqual(page.count("data:image/png;base64,"), 4)

    def test_what_is_no_stage(self):
        self.refused("eval p.pipe p.pgm --stage h", 1, "h is an accumulator")
        self.refused("eval p.pipe p.pgm --stage none", 1, "there is no stage none: there are I, low, wide, flat")
        self.refused("check p.pipe p.pgm --stage low", 1, "options of eval")
        self.refused("eval p.pipe p.pgm --stage low --stages made", 1, "one at a time")

    def test_faults_are_those_of_the_program(self):
        self.write("p.pipe", STAGES.replace("y+1", "y+2").encode())
        self.refused("eval p.pipe p.pgm --stage low", 3, "bounds: 4 OutOfBounds low")


class PlansWithoutAPicture(InRoom):
    def test_sides_are_given(self):
        harris = f"{TOP}/examples/harris"
        shapes = f"{TOP}/tests/examples/harris/shapes.pgm"
        with_one = self.tf(f"plan {harris}/harris.pipe {shapes}")
        head = netpbm.header_of(content(shapes))
        self.assertEqual(self.tf(f"plan {harris}/harris.pipe R={head.rows} C={head.cols}"), with_one)
        brown = f"{TOP}/examples/brown/brown.pipe"
        self.assertEqual(self.tf(f"plan {brown} R=4096 C=4096")[0::2], (0, ""))
        self.write("fixed.pipe", b"image I(4, 4);\nfunc f(x in [0 .. 3], y in [0 .. 3]) { else : I(x, y); }\noutput f max 255;\n")
        self.assertEqual(self.tf("plan fixed.pipe"), (0, b"stored f cost 16\n", ""))

    def test_sides_that_are_none(self):
        self.refused("plan p.pipe", 1, "wants the values of its sides: tf plan p.pipe R=100 C=100")
        self.refused("plan p.pipe R=5", 1, "tf plan p.pipe R=100 C=100")
        self.refused("plan p.pipe R=5 C=4097", 1, "5 by 4097 points is none")
        self.refused("plan p.pipe R=5 C=5 D=5", 1, "parameter: 1 NoSuchParam D")
        self.refused("plan p.pgm R=5 C=5", 2, "This is a picture")


class TablesWithTf(InRoom):
    """What tf computes around programs that look values up in tables."""

    def setUp(self):
        super().setUp()
        self.write("t.pipe", b"param R; param C; image I(R, C);\ntable t [0 .. 16];\n"
                   b"func f(x in [0 .. R-1], y in [0 .. C-1]) { else : t[I(x, y)]; }\n"
                   b"func g(x in [0 .. R-2], y in [0 .. C-1]) { else : f(x+1, y) + t[f(x, y) / 10]; }\noutput g max 255;\n")
        self.write("t.table", f"t 0..16: {' '.join(str(10 * it) for it in range(17))}\n".encode())

    def test_stages_are_shown(self):
        status, written, _ = self.tf("eval t.pipe p.pgm --table t.table --stage f")
        self.assertEqual((status, list(netpbm.picture_of(written)[0].samples())), (0, [10 * it for it in POINTS]))

    def test_many_pictures_take_the_same_tables(self):
        self.write("q.pgm", b"P5 1 2 255 \1\2")
        self.assertEqual(self.tf("eval t.pipe p.pgm q.pgm --table t.table -o {name}.out.pgm")[:2], (0, b""))
        self.assertEqual(self.content("q.out.pgm"), b"P5\n1 1\n255\n%c" % (20 + 10))

    def test_plans_and_costs(self):
        status, plan, _ = self.tf("plan t.pipe R=9 C=8 --table t.table --rows 4 --cols 4")
        self.assertEqual(status, 0)
        inlined = b",".join(line.split()[1] for line in plan.splitlines() if line.startswith(b"inlined")).decode()
        self.assertEqual(self.tf(f"plan t.pipe R=9 C=8 --table t.table --rows 4 --cols 4 --inline={inlined}"), (0, plan, ""))
        self.assertIn("box f func rows 0..4 columns 0..3", self.tf("plan t.pipe R=9 C=8 --table t.table --rows 4 --cols 4 --tile g:0:0")[1].decode())

    def test_answers(self):
        wanted = self.tf("eval t.pipe p.pgm --table t.table")
        self.assertEqual(self.tf("facts t.pipe p.pgm --table t.table --rows 2 --cols 2 -o t.facts")[0], 0)
        self.assertEqual(self.tf("answer t.pipe p.pgm t.facts --table t.table --rows 2 --cols 2")[:2], wanted[:2])
