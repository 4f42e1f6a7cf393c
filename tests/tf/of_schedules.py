"""Tests of what schedules come to: `plan`'s own answers, and the worked example of docs/SCHEDULES.md."""
import glob
import re

from .shared import TOP, InRoom, content, tf

WORKED = b"""image I(6, 6);
func a(x in [1 .. 4], y in [1 .. 4]) { else : stencil(I, 1, [[1,1,1],[1,1,1],[1,1,1]]); }
func b(x in [2 .. 3], y in [2 .. 3]) { else : stencil(a, 1, [[1,1,1],[1,1,1],[1,1,1]]); }
output b max 65535;
"""
CHAIN = b"""image I(4, 4);
func a(x in [0 .. 3], y in [0 .. 0]) { else : I(x, y); }
func b(x in [0 .. 3], y in [0 .. 0]) { else : a(x, y); }
func c(x in [0 .. 3], y in [0 .. 0]) { else : b(x, y); }
func d(x in [0 .. 3], y in [0 .. 0]) { else : c(x, y); }
output d max 255;
"""
WAYS = b"""image I(40, 60);
func a(x in [-3 .. 70], y in [1 .. 20]) { else : I((x+3)/2, 2*y+1) * I((x+6)/3, y); }
func b(x in [0 .. 60], y in [1 .. 20]) { case x >= 7 and x <= 20 and y == 3 : a(x-2, y) / 2; case x % 3 == 1 : a(x+9, (y+4)/5); else : 7; }
accum h [0 .. 3] over (x in [0 .. 30], y in [2 .. 9]) sum b(2*x, y) at a(x, y+10) / 64;
output b max 255;
"""


class SchedulesOfTf(InRoom):
    def plan(self, words: str) -> list[str]:
        status, written, told = self.tf(f"plan {words}")
        self.assertEqual((status, told), (0, ""))
        return written.decode().splitlines()

    def agree(self, files: list[str], words: list[str]) -> None:
        """What tf says that a schedule costs is what `plan` says, of its own and of the one that stores all."""
        status, written, told = tf(["plan", *files, *words], self.room)
        self.assertEqual((status, told), (0, ""))
        inlined = ",".join(line.split()[1] for line in written.decode().splitlines() if line.startswith("inlined"))
        self.assertEqual(tf(["plan", *files, *words, "--inline", inlined], self.room), (0, written, ""))
        stored = tf(["plan", *files, *words, "--stored"], self.room)
        self.assertEqual(tf(["plan", *files, *words, "--inline", ""], self.room), stored)

    def test_costs_are_those_that_plan_tells(self):
        pipes = [*glob.glob(f"{TOP}/examples/*/*.pipe"), f"{TOP}/bench/pipelines/bilateral.pipe", f"{TOP}/bench/pipelines/camera.pipe"]
        sided = [it for it in sorted(pipes) if b"(R, C);" in content(it)]
        self.assertGreater(len(sided), 10)
        for path in sided:
            with self.subTest(path):
                self.agree([path], ["R=64", "C=48", "--rows", "16", "--cols", "24", *self.tables(content(path))])

    def tables(self, text: bytes) -> list[str]:
        """The words that hand in a program's tables, each with all entries 0."""
        found = re.findall(rb"^table (\w+)\[0 \.\. 255\];", text, re.M)
        for name in found:
            self.write(f"{name.decode()}.table", name + b" 0..255:" + 256 * b" 0" + b"\n")
        return [word for name in found for word in ("--table", f"{name.decode()}.table")]

    def test_indices_cases_and_accumulators(self):
        self.write("w.pipe", WAYS)
        for words in ("", "--rows 7 --cols 3", "--rows 5 --cols 64 --percent 300"):
            with self.subTest(words):
                self.agree(["w.pipe"], words.split())

    def test_the_worked_example(self):
        self.write("w.pipe", WORKED)
        self.assertEqual(self.plan("w.pipe --rows 2 --cols 2 --inline a"), ["inlined a", "stored b cost 20"])
        self.assertEqual(self.plan("w.pipe --rows 1 --cols 1 --inline a"), ["inlined a", "stored b cost 40"])
        self.assertEqual(self.plan("w.pipe --rows 2 --cols 2 --tile b:0:0"), [
            "tile b 0 0 rows 2..3 columns 2..3", "box I plane rows 0..5 columns 0..5", "box a func rows 1..4 columns 1..4",
            "step a rows 1..4 columns 1..4 points 16 scratch 0", "step b rows 2..3 columns 2..3 points 4",
            "points 20 needs 0 scratch 16 of 67108864"])
        self.assertEqual(self.plan("w.pipe --rows 2 --cols 2 --tile b:0:0 --inline=")[-5:], [
            "need a 0 0", "need a 0 1", "need a 1 0", "need a 1 1", "points 4 needs 4 scratch 0 of 67108864"])

    def test_scratch_memory_is_used_again(self):
        # three inlined functions of four points in a chain lie at 0, at 4 and at 0
        self.write("c.pipe", CHAIN)
        steps = [line.split()[-1] for line in self.plan("c.pipe --tile d:0:0 --inline a,b,c") if line.startswith("step")]
        self.assertEqual(steps[:3], ["0", "4", "0"])
        self.assertIn("points 16 needs 0 scratch 8 of 67108864", self.plan("c.pipe --tile d:0:0 --inline a,b,c"))

    def test_a_drawing(self):
        self.write("w.pipe", WORKED)
        self.assertEqual(self.plan("w.pipe --rows 2 --cols 2 --tile b:0:0 -o t.svg"), [])
        drawing = self.content("t.svg")
        for words in (b">tile b 0 0, rows 2..3 columns 2..3<", b">a: rows 1..4 columns 1..4<", b">I: rows 0..5 columns 0..5<"):
            self.assertIn(words, drawing)

    def test_what_cannot_be_planned(self):
        self.write("w.pipe", WORKED)
        for words, said in (("--inline I", "I is none: there are a, b"), ("--inline b", "b is of the output"), ("--inline q", "q is none"),
                            ("--tile b:0:1", "b has no tile 0 1: it has 1 rows of 1 tiles"), ("--tile I:0:0", "I has no tiles: a, b have"),
                            ("--tile b", "--tile takes STAGE:ROW:COL"), ("--tile b:0:-1", "--tile takes STAGE:ROW:COL")):
            with self.subTest(words):
                self.refused(f"plan w.pipe {words}", 1, said)
        self.refused("check p.pipe p.pgm --tile f:0:0", 1, "options of plan")
