"""Programs over arrays of numpy: results, totals, tables, faults, and how processes run."""
import os
import tempfile
import time
import unittest
from unittest.mock import patch

import numpy as np
from numpy.testing import assert_array_equal

from .shared import COPY, TOP, picture
import tilefarm
from tilefarm import Fault, NoProgram, Program, Refused

COLOURS = """param R; param C;
image r, g, b(R, C);
func swapped(x in [0 .. R-1], y in [0 .. C-1]) { else : b(x, y); }
func same(x in [0 .. R-1], y in [0 .. C-1]) { else : g(x, y); }
func added(x in [0 .. R-1], y in [0 .. C-1]) { else : r(x, y) + 1; }
output swapped, same, added max 255;
"""
WIDE = COPY.replace("255", "65535")
COUNTED = """param R; param C; param T;
image I(R, C);
accum counts [2 .. 5] over (x in [0 .. R-1], y in [0 .. C-1]) sum 1 at I(x, y) / 32;
accum least [0 .. 0] over (x in [0 .. R-1], y in [0 .. C-1]) min I(x, y) - T at 0;
accum none [7 .. 7] over (x in [0 .. R-1], y in [0 .. C-1]) max I(x, y) at 0;
"""
TONED = COPY.replace("image", "table tone[1 .. 4];\nimage").replace("I(x, y);", "tone[I(x, y)];")
# a program in the place of tilefarm: its picture has one sample, the number of processors that it may run on
PROCESSORS = """#!/usr/bin/env python3
import os, sys
sys.stdin.buffer.read()
sys.stdout.buffer.write(b"P5\\n1 1\\n255\\n" + bytes([len(os.sched_getaffinity(0))]))
"""


class Arrays(unittest.TestCase):
    def test_a_grey_picture(self):
        given = picture(37, 53)
        result = tilefarm.run(COPY, given)
        assert_array_equal(result.image, given)
        self.assertEqual((result.image.dtype, result.totals), (np.uint8, {}))
        self.assertGreater(result.seconds, 0)

    def test_the_result_can_be_written(self):
        result = tilefarm.run(COPY, picture(4, 4)).image
        result[0, 0] = 7
        self.assertEqual(result[0, 0], 7)

    def test_colours(self):
        given = picture(11, 7, 3)
        wanted = np.stack([given[..., 2], given[..., 1], np.minimum(given[..., 0].astype(int) + 1, 255)], axis=2)
        assert_array_equal(tilefarm.run(COLOURS, given).image, wanted)

    def test_two_bytes_a_sample(self):
        given = picture(9, 5, dtype=np.uint16)
        result = tilefarm.run(WIDE, given).image
        assert_array_equal(result, given)
        self.assertEqual(result.dtype, np.uint16)

    def test_each_type_of_whole_numbers(self):
        for dtype in (np.bool_, np.int8, np.uint8, np.int16, np.uint16, np.int32, np.uint32, np.int64, np.uint64):
            with self.subTest(dtype=dtype):
                assert_array_equal(tilefarm.run(WIDE, np.array([[0, 1], [1, 0]], dtype)).image, [[0, 1], [1, 0]])
        assert_array_equal(tilefarm.run(WIDE, np.array([[0, 65535]])).image, [[0, 65535]])

    def test_views_of_arrays(self):
        given = picture(20, 30)
        for view in (given[::-1], given[:, ::2], given.T, given[3:7, 2:5], np.broadcast_to(given[:1], (4, 30))):
            assert_array_equal(tilefarm.run(COPY, view).image, view)
        wide = picture(20, 30, dtype=np.uint16)
        assert_array_equal(tilefarm.run(WIDE, wide.T.astype(">u2")).image, wide.T)

    def test_what_is_no_picture(self):
        wrong = [(picture(3, 3) * 1.0, "float64"), (picture(3), r"\(3,\)"), (picture(2, 2, 4), r"\[\.\.\., :3\]"), (picture(2, 2, 1), r"\[\.\.\., 0\]"),
                 (np.zeros((0, 3), np.uint8), "no sample"), (np.array([[-1]]), "from -1"), (np.array([[65536]]), "to 65536"), ([["a"]], "<U1")]
        for given, why in wrong:
            with self.subTest(why), self.assertRaisesRegex(Refused, why):
                tilefarm.run(COPY, given)

    def test_totals(self):
        given = picture(40, 30)
        totals = tilefarm.run(COUNTED, given, params={"T": 300}).totals
        assert_array_equal(totals["counts"].values, [(given // 32 == it).sum() for it in range(2, 6)])
        self.assertEqual(totals["counts"].first, 2)
        self.assertEqual(totals["counts"][5], (given // 32 == 5).sum())
        self.assertEqual(totals["least"][0], int(given.min()) - 300)
        self.assertEqual((totals["none"].first, totals["none"].values.dtype, totals["none"][7]), (7, np.int64, -2**63))
        with self.assertRaises(IndexError):
            totals["counts"][1]

    def test_a_program_without_an_output_has_no_picture(self):
        result = tilefarm.run(COUNTED, picture(4, 4), params={"T": 0})
        self.assertFalse(result.has_image)
        with self.assertRaisesRegex(tilefarm.TilefarmError, "no output"):
            result.image

    def test_tables(self):
        result = tilefarm.run(TONED, np.arange(6, dtype=np.uint8)[None], tables={"tone": np.array([10, 20, 30, 40])})
        assert_array_equal(result.image, [[10, 10, 20, 30, 40, 40]])
        kept = Program(TONED, tables={"tone": [1, 2, 3, 4]})
        assert_array_equal(kept.run(np.uint8([[4]])).image, [[4]])
        assert_array_equal(kept.run(np.uint8([[4]]), tables={"tone": [9, 9, 9, 9]}).image, [[9]])

    def test_tables_that_do_not_fit(self):
        given = picture(2, 2)
        for tables, why in (({}, "tone"), ({"tone": [1, 2, 3, 4], "other": [1]}, "other"), ({"tone": [1.5]}, "whole"), ({"tone": [[1]]}, "row")):
            with self.subTest(why), self.assertRaisesRegex(Refused, why):
                tilefarm.run(TONED, given, tables=tables)
        with self.assertRaisesRegex(Fault, "TableMismatch") as caught:
            tilefarm.run(TONED, given, tables={"tone": [1, 2]})
        self.assertEqual(caught.exception.places[0].line, 2)

    def test_programs_of_files(self):
        path = f"{TOP}/examples/sobel/sobel.pipe"
        program = Program.from_file(path)
        assert_array_equal(program.run(np.full((8, 9), 7, np.uint8)).image, np.zeros((8, 9)))
        self.assertEqual(program.name, path)
        with self.assertRaises(OSError):
            Program.from_file(f"{path}.none")

    def test_parameters_are_whole_numbers(self):
        text = COPY.replace("param C;", "param C; param T;").replace("I(x, y)", "I(x, y) + T")
        for value in (3, np.uint8(3), np.int64(-2)):
            assert_array_equal(tilefarm.run(text, np.uint8([[9]]), params={"T": value}).image, [[9 + int(value)]])
        for value, why in ((1.5, "T is 1.5"), ("3", "T is '3'"), (None, "T is None"), (2**31, "to 2147483647"), (-2**31 - 1, "from -2147483648")):
            with self.subTest(value=value), self.assertRaisesRegex(Refused, why):
                Program(text, params={"T": value}).run(np.uint8([[9]]))

    def test_what_comments_ask_for(self):
        text = COPY.replace("param C;", "param C;\nparam M; # greatest sample\nparam H; # R / 2, rounded up").replace("I(x, y)", "M - I(x, y) + H")
        text = text.replace("max 255;", "max 255; # greatest sample")
        for dtype, most in ((np.uint8, 255), (np.uint16, 65535)):
            given = picture(5, 4, dtype=dtype)
            assert_array_equal(tilefarm.run(text, given).image, np.minimum(most - given.astype(int) + 3, most))
        assert_array_equal(tilefarm.run(text, picture(5, 4), params={"M": 9, "H": 1}).image, np.clip(10 - picture(5, 4).astype(int), 0, 9))

    def test_check_and_plan(self):
        program = Program.from_file(f"{TOP}/examples/sobel/sobel.pipe")
        check = program.check((20, 30))
        self.assertEqual(check, program.check(picture(20, 30) * 0))
        self.assertEqual(check.stages["across"], tilefarm.Domain("func", (1, 18), (1, 28), 1, (-4 * 255, 4 * 255), False))
        self.assertEqual((check.stages["I"].values, check.stages["edges"].values), ((0, 255), (0, 8 * 255 // 4)))
        self.assertEqual(program.check(picture(20, 30, dtype=np.uint16)).stages["I"].values, (0, 65535))
        wraps = Program(COPY.replace("I(x, y)", "I(x, y) * 8421505")).check((3, 3)).stages["f"]
        self.assertEqual((wraps.values, wraps.can_wrap), ((-2**31, 2**31 - 1), True))
        self.assertEqual(check.stages["I"].kind, "plane")
        for wrong in ((3,), (0, 3), (1, 2, 3, 4)):
            with self.assertRaisesRegex(Refused, "no shape"):
                program.check(wrong)
        for told in (program.check, program.plan):
            with self.assertRaisesRegex(Refused, "its sides are up to 4096"):
                told((9, 4097))
        self.assertEqual(len(check.program + check.input), 128)
        plan = program.plan((20, 30))
        self.assertEqual((plan["across"], plan["edges"]), (tilefarm.Cost(True, None), tilefarm.Cost(False, 20 * 30 + 2 * 18 * 28)))

    def test_notebooks(self):
        shown = Program(COPY)._repr_html_()
        self.assertIn("<svg", shown)
        self.assertIn("image I(R, C)", shown)
        self.assertIn("data:image/png;base64,", tilefarm.run(COPY, picture(4, 4))._repr_html_())
        self.assertIn("counts 2..5:", tilefarm.run(COUNTED, picture(4, 4), params={"T": 0})._repr_html_())
        self.assertNotIn("<svg", Program("no program")._repr_html_())


class Faults(unittest.TestCase):
    def fault(self, text: str, **more) -> Fault:
        with self.assertRaises(Fault) as caught:
            Program(text, name="p.pipe").run(picture(4, 4), **more)
        return caught.exception

    def test_a_read_outside(self):
        fault = self.fault(COPY.replace("I(x, y)", "I(x+1, y)"))
        self.assertEqual((fault.kind, fault.name, fault.status), ("bounds", "OutOfBounds", 3))
        self.assertEqual(fault.places, [tilefarm.Place("p.pipe", 3, 53, 3, "func f(x in [0 .. R-1], y in [0 .. C-1]) { else : I(x+1, y); }")])
        self.assertIn("rows 1 to 4 of I, which has rows 0 to 3", fault.cure)
        lines = str(fault).splitlines()
        self.assertEqual(lines[:2] + lines[3:4], ["bounds: 4 OutOfBounds f case 0 read 0 rows least 1 greatest 4", "p.pipe:3:53", " " * 56 + "^^^"])
        self.assertIn("<pre>bounds", fault._repr_html_())

    def test_a_text_that_is_no_program(self):
        fault = self.fault(COPY.replace("param R;", "param R"))
        self.assertEqual((fault.kind, fault.name, fault.places[0].line), ("program", "Unexpected", 1))
        self.assertEqual(self.fault(COPY + "# ü").name, "NotAscii")
        self.assertEqual(self.fault("").kind, "program")

    def test_values(self):
        self.assertEqual(self.fault(COUNTED).name, "ParamUnset")
        self.assertEqual(self.fault(COPY, params={"Q": 1}).name, "NoSuchParam")
        self.assertEqual(self.fault(COPY, params={"R": 9}).name, "ExtentMismatch")

    def test_planes(self):
        self.assertEqual(self.fault(COLOURS).name, "Planes")

    def test_a_text_without_its_last_line_end(self):
        given = picture(4, 4)
        assert_array_equal(tilefarm.run(COPY.rstrip("\n"), given).image, given)

    def test_a_line_that_would_end_the_program(self):
        with self.assertRaisesRegex(Refused, "%%"):
            tilefarm.run(COPY + "%%\n", picture(2, 2))

    def test_a_program_that_is_killed(self):
        with tempfile.TemporaryDirectory(prefix="test-python-") as room, stub(room, "#!/bin/sh\nkill -9 $$\n"):
            self.assertEqual(self.fault(COPY).status, 128 + 9)

    def test_no_program(self):
        with patch.dict(os.environ, TILEFARM="/none"), self.assertRaisesRegex(NoProgram, "TILEFARM names /none"):
            tilefarm.run(COPY, picture(2, 2))


def stub(room: str, text: str):
    """Another program in the place of tilefarm."""
    with open(f"{room}/stub", "w", encoding="ascii") as file:
        file.write(text)
    os.chmod(f"{room}/stub", 0o700)
    return patch.dict(os.environ, TILEFARM=f"{room}/stub")


class Processes(unittest.TestCase):
    def test_threads_are_processors(self):
        every = len(os.sched_getaffinity(0))
        with tempfile.TemporaryDirectory(prefix="test-python-") as room, stub(room, PROCESSORS):
            for threads, wanted in ((None, every), (1, 1), (2, min(2, every)), (10**6, every)):
                self.assertEqual(tilefarm.run(COPY, picture(1, 1), threads=threads).image[0, 0], wanted)
        self.assertEqual(len(os.sched_getaffinity(0)), every)
        with self.assertRaisesRegex(Refused, "threads"):
            tilefarm.run(COPY, picture(1, 1), threads=0)

    def test_frames_come_in_their_order(self):
        given = [picture(rows, 9, seed=rows) for rows in range(1, 12)]
        for processes in (1, 3, None):
            found = [it.image for it in Program(COPY).frames(iter(given), processes=processes)]
            self.assertEqual(len(found), len(given))
            for wanted, image in zip(given, found):
                assert_array_equal(image, wanted)

    def test_few_frames_are_taken_ahead(self):
        taken = []
        frames = Program(COPY).frames((taken.append(it) or picture(2, 2) for it in range(9)), processes=2)
        next(frames)
        self.assertLessEqual(len(taken), 2)

    def test_a_fault_in_a_stream(self):
        frames = Program(COPY).frames([picture(2, 2), picture(2, 2, 3), picture(2, 2)], processes=2)
        next(frames)
        with self.assertRaisesRegex(Fault, "Planes"):
            next(frames)

    def test_no_file_is_written(self):
        with tempfile.TemporaryDirectory(prefix="test-python-") as room, patch.dict(os.environ, TMPDIR=room), \
                patch("tempfile.TemporaryFile", side_effect=AssertionError):
            tilefarm.run(COPY, picture(8, 8))
            self.assertEqual(os.listdir(room), [])

    def test_a_call_takes_little_beside_the_program(self):
        """Processor time of the caller alone, the least of several calls: it does not depend on what else the machine does. The
        bound is ten times what was measured, for slow machines."""
        program, given, times = Program(COPY), picture(1024, 1024), []
        for _ in range(20):
            began = time.process_time()
            program.run(given)
            times.append(time.process_time() - began)
        print(f"a call over 1024 by 1024 samples takes {min(times) * 1000:.2f} ms of processor beside the program's")
        self.assertLess(min(times), 0.02)
