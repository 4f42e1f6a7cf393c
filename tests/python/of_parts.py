"""Pictures larger than one run takes, here and by Dask: the same samples as one run writes."""
import glob
import importlib.util
import re
import unittest

import numpy as np
from numpy.testing import assert_array_equal

from .shared import COPY, TOP, picture
import tilefarm as tf
from tilefarm import Fault, Program, Refused, map_parts
from tilefarm.parts import run_in_parts
from tilefarm.pictures import samples_of
from tilefarm.program import planes_of

MOVED = """param R; param C;
image I(R, C);
func f(x in [0 .. R-1], y in [0 .. C-1]) {
  case x % 3 == 1 and y >= 1 : I(x/2, y-1) + x;
  else : I(x, y) + y;
}
accum h [0 .. 9] over (x in [0 .. R-1], y in [0 .. C-1]) sum 1 at f(x, y) / 40;
accum least [0 .. 0] over (x in [0 .. R-1], y in [0 .. C-1]) min f(x, y) at 0;
accum most [0 .. 0] over (x in [0 .. R-1], y in [0 .. C-1]) max f(x, y) at 0;
output f max 65535;
"""
PICTURE_ALONE = "\n".join(it for it in MOVED.splitlines() if not it.startswith("accum"))
GREATEST = COPY.replace("param C;", "param C;\nparam M; # greatest sample").replace("I(x, y)", "M - I(x, y)")
GREATEST = GREATEST.replace("max 255;", "max 255; # greatest sample")
TALL = COPY.replace("image", "table tone[0 .. 255];\nimage").replace("I(x, y)", "tone[I(x, y)] + x % 2")


class Parts(unittest.TestCase):
    def test_parts_are_what_one_run_gives(self):
        given = samples_of(picture(50, 71))
        job = Program(MOVED).job(given.shape, 1)
        whole = tf.run(MOVED, given.array)
        for side in (7, 16, 33):
            found = run_in_parts(job, given, side=side)
            assert_array_equal(found.image, whole.image)
            for name, it in whole.totals.items():
                assert_array_equal(found.totals[name].values, it.values)
                self.assertEqual(found.totals[name].first, it.first)

    def test_a_picture_that_no_run_takes(self):
        given, tone = picture(3, 4097), np.arange(255, -1, -1)
        wanted = tone[given] + (np.arange(3) % 2)[:, None]
        assert_array_equal(tf.run(TALL, given, tables={"tone": tone}).image, np.minimum(wanted, 255))

    def test_a_result_that_no_run_gives(self):
        doubled = COPY.replace("C-1]) { else : I(x, y)", "2*C-1]) { else : I(x, y/2)")
        given = picture(2, 2100)
        assert_array_equal(tf.run(doubled, given).image, given.repeat(2, axis=1))

    def test_a_built_program_over_such_a_picture(self):
        given, (x, y) = picture(4100, 9), tf.vars()
        p = tf.mirror(tf.image("I"))
        program = tf.output(tf.func("f", (p[x - 3, y] + p[x, y + 2]) / 2))
        padded = np.pad(given.astype(int), ((3, 0), (0, 2)), "reflect")
        assert_array_equal(program.run(given).image, (padded[:-3, :-2] + padded[3:, 2:]) // 2)
        with self.assertRaisesRegex(tf.BuildError, "of_parts.py:\\d+: the border reads 4100 points away"):
            tf.output(tf.func("f", tf.wrap(tf.image("I"))[x - 1, y])).run(given)

    def test_refusals_have_their_words(self):
        with self.assertRaisesRegex(Fault, "OutOfBounds f case 0 read 0 columns least 1 greatest 4097"):
            tf.run(COPY.replace("I(x, y)", "I(x, y+1)"), picture(2, 4097))
        with self.assertRaisesRegex(Refused, "cannot be cut"):
            tf.run(COPY.replace("C-1]) { else : I(x, y)", "0]) { else : I(x, y) + I(x, y+4096)"), picture(2, 4097))


@unittest.skipUnless(importlib.util.find_spec("dask"), "this Python has no Dask (Debian's python3-dask)")
class ByDask(unittest.TestCase):
    def of_dask(self, given: np.ndarray, chunks: object):
        import dask.array as da

        return da.from_array(given, chunks=chunks)

    def test_the_picture_is_what_one_run_gives(self):
        given = picture(90, 131)
        for chunks, side in ((17, 32), ((90, 13), 50), (200, 200)):
            found = map_parts(Program(PICTURE_ALONE), self.of_dask(given, chunks), side=side)
            self.assertEqual((found.shape, found.dtype), (given.shape, np.uint16))
            assert_array_equal(found.compute(), tf.run(PICTURE_ALONE, given).image)

    def test_nothing_is_computed_before_it_is_asked_for(self):
        import dask.array as da

        def fail(block):
            raise AssertionError

        map_parts(Program(COPY), da.zeros((64, 64), chunks=16, dtype=np.uint8).map_blocks(fail, dtype=np.uint8), side=16)

    def test_a_part_reads_its_box_alone(self):
        read = []

        def note(block, block_info=None):
            read.append(block_info[0]["chunk-location"])
            return block

        given = self.of_dask(picture(64, 64), 16).map_blocks(note, dtype=np.uint8)
        map_parts(Program(COPY), given, side=16)[:16, 16:32].compute(scheduler="synchronous")
        self.assertEqual(read, [(0, 1)])

    def test_a_program_that_asks_for_the_greatest_sample(self):
        """The array's type says it, where that does; an array of numbers that may be either is refused."""
        for dtype in (np.uint8, np.uint16, np.bool_, np.int8):
            given = picture(40, 30, dtype=dtype) if np.dtype(dtype).kind == "u" else (picture(40, 30) % 2).astype(dtype)
            found, wanted = map_parts(Program(GREATEST), self.of_dask(given, 11), side=16), tf.run(GREATEST, given).image
            with self.subTest(dtype=dtype):
                self.assertEqual(found.dtype, wanted.dtype)
                assert_array_equal(found.compute(), wanted)
        with self.assertRaisesRegex(Refused, "an array of int64 does not tell"):
            map_parts(Program(GREATEST), self.of_dask(picture(40, 30).astype(np.int64), 11))
        given = picture(40, 30, dtype=np.uint16).astype(np.int64)
        assert_array_equal(map_parts(PICTURE_ALONE, self.of_dask(given, 11), side=16).compute(), tf.run(PICTURE_ALONE, given).image)

    def test_what_is_no_picture_is_refused_before_it_is_computed(self):
        grey = self.of_dask(picture(20, 20), 8)
        for given, why in ((grey * 1.0, "float64"), (grey[0], r"\(20,\)"), (grey[..., None], r"\[\.\.\., 0\]"), (grey[:0], "no sample"),
                           (grey[grey[:, 0] > 9], "compute_chunk_sizes")):
            with self.subTest(why), self.assertRaisesRegex(Refused, why):
                map_parts(COPY, given)

    def test_colours_and_tables(self):
        given = picture(40, 30, 3)
        text = COPY.replace("image I", "table tone[0 .. 255];\nimage I, J, K").replace("I(x, y)", "tone[I(x, y)] + J(x, y) - K(x, y)")
        text = text.replace("output f", "output f, f, f")
        tables = {"tone": np.arange(0, 512, 2)}
        found = map_parts(Program(text), self.of_dask(given, (11, 30, 3)), side=16, tables=tables)
        assert_array_equal(found.compute(), tf.run(text, given, tables=tables).image)

    def test_each_example(self):
        for path in sorted(glob.glob(f"{TOP}/examples/*/*.pipe")):
            program = Program.from_file(path)
            given = picture(62, 48, *([3] if planes_of(program.text, 2) == 3 else []))
            if re.search(r"^(accum|table|param N)", program.text, re.M):
                continue
            with self.subTest(path):
                found = map_parts(program, self.of_dask(given, (20, 20, 3)[:given.ndim]), side=25)
                assert_array_equal(found.compute(), program.run(given).image)

    def test_a_built_program_whose_sides_are_odd(self):
        given = picture(77, 53)
        program = tf.output(tf.doubled("twice", tf.halved("half", tf.image("I"))))
        assert_array_equal(map_parts(program, self.of_dask(given, 20), side=30).compute(), program.run(given).image)

    @unittest.skipUnless(importlib.util.find_spec("distributed"), "this Python has no distributed (Debian's python3-distributed)")
    def test_a_client_runs_the_parts(self):
        from distributed import Client

        given = picture(70, 64)
        with Client(processes=False, n_workers=2, threads_per_worker=1, dashboard_address=None):
            found = map_parts(Program(PICTURE_ALONE), self.of_dask(given, 30), side=32).compute()
        assert_array_equal(found, tf.run(PICTURE_ALONE, given).image)

    def test_what_has_no_picture_is_refused(self):
        with self.assertRaisesRegex(Refused, "accumulators"):
            map_parts(Program(MOVED), self.of_dask(picture(8, 8), 4))
