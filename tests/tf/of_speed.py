"""Tests of what makes tf fast: arithmetic on many bytes at once, PNG of large pictures, and a start that loads little.

No time is judged here, which a busy machine could make longer: lines of Python that are run, processes and files are counted. bench/round_trips
measures times.
"""
import contextlib
import itertools
import os
import random
import shutil
import struct
import subprocess
import sys
import tempfile
import unittest
import zlib
from typing import Callable

from .shared import COPY, PROGRAM, TOOLS, TOP, InRoom, wants_jpeg_tools, wants_vips, write

from _tf import lanes, png, unfiltering
from _tf.netpbm import Picture

LATER = ("urllib", "xml", "email", "difflib", "concurrent.futures", "pathlib", "socket", "_tf.converters", "_tf.png", "_tf.graph",
          "_tf.hist", "_tf.tune", "_tf.making", "_tf.faults", "_tf.parts", "_tf.schedules", "_tf.answering",
          "_tf.stage_pictures")
# runs tf, and tells how many lines of Python that takes
COUNTS = """import sys
sys.path.insert(0, sys.argv.pop(1))
from _tf.main import main
count = 0
def trace(_frame, event, _more):
    global count
    count += event == "line"
    return trace
sys.settrace(trace)
status = main()
sys.settrace(None)
sys.stderr.write(str(count))
sys.exit(status)"""
NOT_FOR_HELP = ("subprocess", "tempfile", "_tf.words", "_tf.call")
# what frames and a JPEG that goes straight are done without, too: to load all of these takes as long as all else of a start
NOT_FOR_MANY = ("dataclasses", "inspect", "subprocess", "selectors", "shutil", "tempfile", "random", "concurrent.futures", "_tf.parts.planning", "_tf.blame")


def grey(red: int, green: int, blue: int) -> int:
    return (299 * red + 587 * green + 114 * blue + 500) // 1000


class Lanes(unittest.TestCase):
    def test_grey_is_exact(self):
        points = [(red, green, blue) for red in range(0, 256, 5) for green in range(256) for blue in (0, 1, 50, 128, 254, 255)]
        raster = bytes(it for point in points for it in point)
        self.assertEqual(lanes.grey(raster, 1), bytes(grey(*it) for it in points))

    def test_grey_of_two_bytes_is_exact(self):
        ends = (0, 1, 255, 256, 32767, 32768, 65534, 65535)
        chance = random.Random(2)
        points = [*itertools.product(ends, repeat=3), *(tuple(chance.randrange(65536) for _ in range(3)) for _ in range(20000))]
        # (sums that end in 499 or 500, which fall to either side)
        points += [(red, 0, blue) for red in range(0, 65536, 97) for blue in range(0, 1000, 250)]
        raster = b"".join(it.to_bytes(2, "big") for point in points for it in point)
        self.assertEqual(lanes.grey(raster, 2), b"".join(grey(*it).to_bytes(2, "big") for it in points))

    def test_bytes_are_added_each_for_itself(self):
        every = [(first, second) for first in range(256) for second in range(256)]
        rows = [bytes(it) for it in zip(*every)]
        numbers = [int.from_bytes(it, "little") for it in rows]
        for made, wanted in ((lanes.added, lambda a, b: a + b), (lanes.less, lambda a, b: a - b)):
            self.assertEqual(made(*numbers, len(every)).to_bytes(len(every), "little"), bytes(wanted(*it) & 255 for it in every))

    def test_rows_are_summed(self):
        row = random.Random(3).randbytes(1000)
        for step in (1, 2, 3, 4, 6, 8, 1000, 1500):
            found = lanes.summed(row, step)
            for first in range(min(step, len(row))):
                self.assertEqual(found[first::step], bytes(it & 255 for it in itertools.accumulate(row[first::step])))


    def test_the_nearest_is_paeths_choice(self):
        chance = random.Random(6)
        found = [(a, b, c) for a in (0, 1, 2, 127, 128, 254, 255) for b in range(256) for c in range(0, 256, 3)]
        found += [tuple(chance.randbytes(3)) for _ in range(20000)]
        lefts, aboves, corners = (int.from_bytes(b"".join(bytes([it, 0]) for it in every), "little") for every in zip(*found))
        made = lanes.nearest(lefts, aboves, corners, len(found)).to_bytes(2 * len(found), "little")
        self.assertEqual((made[::2], made[1::2]), (bytes(nearest(*it) for it in found), bytes(len(found))))


def nearest(left: int, above: int, corner: int) -> int:
    """Which of the three is nearest to left + above - corner, the first of them."""
    return min((left, above, corner), key=lambda it: abs(left + above - corner - it))


def undone(data: bytes, stride: int, step: int, prior: bytes) -> bytes:
    """The filters of rows undone byte by byte."""
    found = bytearray()
    for at in range(0, len(data), stride + 1):
        kind, row = data[at], bytearray(step)
        for it, above, corner in zip(data[at + 1 : at + 1 + stride], prior, bytes(step) + prior):
            left = row[-step]
            if kind == unfiltering.PAETH:
                told = nearest(left, above, corner)
            else:
                told = (0, left, above, (left + above) // 2)[kind]
            row.append((it + told) & 255)
        prior = bytes(row[step:])
        found += prior
    return bytes(found)


def lines_of(do: Callable[[], object]) -> int:
    """How many lines of Python this runs."""
    count, before = 0, sys.gettrace()

    def trace(_frame, event: str, _more):
        nonlocal count
        count += event == "line"
        return trace

    sys.settrace(trace)
    try:
        do()
    finally:
        sys.settrace(before)
    return count


class Filters(unittest.TestCase):
    def test_any_rows_are_undone_as_byte_by_byte(self):
        chance = random.Random(7)
        for step, cols, rows in itertools.product((1, 2, 3, 4, 6, 8), (1, 2, 5, 40), (1, 2, 7, 60)):
            for kinds in ((3,), (4,), (0, 1, 2), (0, 1, 2, 3, 4)):
                stride = step * cols
                data = b"".join(bytes([chance.choice(kinds)]) + chance.randbytes(stride) for _ in range(rows))
                prior = chance.randbytes(stride)
                self.assertEqual(unfiltering.undone(data, stride, step, prior), undone(data, stride, step, prior), (step, cols, rows, kinds))

    def test_rows_are_undone_in_blocks(self):
        chance = random.Random(8)
        rows = 2 * unfiltering.BLOCK + 3
        data = b"".join(bytes([number * 7 % 5]) + chance.randbytes(6) for number in range(rows))
        head = struct.pack(">IIBBBBB", 2, rows, 8, png.COLOURS, 0, 0, 0)
        whole = png.SIGNATURE + png.chunk(b"IHDR", head) + png.chunk(b"IDAT", zlib.compress(data)) + png.chunk(b"IEND", b"")
        self.assertEqual(png.read(whole, "in.png")[0].raster, undone(data, 6, 3, bytes(6)))

    def test_rows_of_each_filter_are_undone_many_bytes_at_a_time(self):
        """Far less than a line of Python a byte: 1 in 9 of Paeth's filter and of averages, of which the steps go along the rows."""
        chance, stride = random.Random(9), 1800
        for kind, bytes_a_line in ((unfiltering.LEFT, 15), (unfiltering.ABOVE, 100), (unfiltering.MEAN, 5), (unfiltering.PAETH, 4)):
            with self.subTest(kind):
                data = b"".join(bytes([kind]) + chance.randbytes(stride) for _ in range(200))
                self.assertLess(lines_of(lambda: unfiltering.undone(data, stride, 3, bytes(stride))) * bytes_a_line, len(data))


class LargePictures(unittest.TestCase):
    def test_large_pictures_are_written_soon_and_read_again(self):
        chance = random.Random(4)
        noise = chance.randbytes(700)
        for raster in (noise * 2000, b"".join(bytes([row % 256]) * 700 for row in range(2000))):
            picture = Picture(700, 2000, 1, 255, raster)
            data, said = png.write(picture)
            self.assertEqual((png.read(data, "out.png"), said), ((picture, []), []))
            self.assertLess(len(data), 100_000)

    def test_grey_is_made_of_many_points_at_a_time(self):
        raster = random.Random(10).randbytes(600_000)
        self.assertLess(lines_of(lambda: lanes.grey(raster, 1)), 10_000)


class RoundTheProgram(InRoom):
    """What tf does around the program, from picture to picture: how many processes, files and lines of Python that takes."""

    COPY = ("param R; param C;\nimage I, J, K(R, C);\n"
            + "".join(f"func {name}(x in [0 .. R-1], y in [0 .. C-1]) {{ else : {plane}(x, y); }}\n" for name, plane in zip("rgb", "IJK"))
            + "output r, g, b max 255;\n")

    def setUp(self):
        super().setUp()
        self.write("p.pipe", self.COPY.encode())

    def picture(self, cols: int, rows: int) -> Picture:
        """A picture of slopes with a little noise, which is no small file, and of which no sample is the greatest."""
        chance = random.Random(11)
        return Picture(cols, rows, 3, 255, bytes(40 + at // 60 % 128 + chance.randrange(12) for at in range(3 * cols * rows)))

    def started(self, line: str, has_tools: bool = False) -> list[str]:
        """The programs that a call of tf starts, in their order: each is noted, and then run. There are no others."""
        os.makedirs(f"{self.room}/bin", exist_ok=True)
        for name, path in (("program", PROGRAM), *((it, shutil.which(it)) for it in ("vips", "vipsheader", *TOOLS[: 2 * has_tools]))):
            self.write(f"bin/{name}", f'#!/bin/sh\necho {name} "$@" >> {self.room}/started\nexec {path} "$@"\n'.encode())
            os.chmod(f"{self.room}/bin/{name}", 0o755)
        self.write("started", b"")
        with contextlib.suppress(FileExistsError):
            os.symlink(sys.executable, f"{self.room}/bin/python3")
        told = self.tf(line, TILEFARM=f"{self.room}/bin/program", PATH=f"{self.room}/bin")
        self.assertEqual(told, (0, b"", ""))
        return self.content("started").decode().splitlines()

    @wants_vips
    def test_a_large_png_takes_two_processes_of_vips_to_read_and_none_to_write(self):
        self.write("in.png", png.write(self.picture(700, 900))[0])
        started = self.started("eval p.pipe in.png -o out.png")
        self.assertEqual([it.split()[0] for it in started], ["vipsheader", "vips", "program"], started)
        self.assertEqual(png.read(self.content("out.png"), "out.png")[0], self.picture(700, 900))

    @wants_vips
    def test_a_jpeg_to_a_jpeg_takes_two_processes_of_vips(self):
        self.write("in.ppm", self.picture(70, 90).raw())
        subprocess.run(["vips", "copy", "in.ppm", "in.jpg"], cwd=self.room, check=True)
        started = [it.split()[:2] for it in self.started("eval p.pipe in.jpg -o out.jpg")]
        self.assertEqual(sorted(started), [["program", "eval"], ["vips", "copy"], ["vips", "copy"]])

    @wants_vips
    @wants_jpeg_tools
    def test_a_jpeg_to_a_jpeg_takes_no_vips_where_djpeg_and_cjpeg_are_there(self):
        self.write("in.ppm", self.picture(70, 90).raw())
        subprocess.run(["cjpeg", "-quality", "90", "-outfile", "in.jpg", "in.ppm"], cwd=self.room, check=True)
        started = [it.split()[:2] for it in self.started("eval p.pipe in.jpg -o out.jpg", has_tools=True) if it.split()[0] != "program"]
        self.assertEqual(sorted(started), [["cjpeg", "-quality"], ["cjpeg", "-version"], ["djpeg", "-maxscans"]])

    @wants_vips
    def test_what_cannot_be_cut_is_not_counted(self):
        """A white picture, of which the ranges of the program's values show that no sample was more. To count takes one more run."""
        self.write("in.ppm", Picture(70, 90, 3, 255, b"\xff" * (3 * 70 * 90)).raw())
        subprocess.run(["vips", "copy", "in.ppm", "in.jpg"], cwd=self.room, check=True)
        for form, wanted in (("ppm", ["program"]), ("jpg", ["program", "vips", "vips"])):
            self.assertEqual(sorted(it.split()[0] for it in self.started(f"eval p.pipe in.{form} -o out.{form}")), wanted)

    def test_no_line_is_run_for_each_point(self):
        """As many lines for a picture of sixteen times the points, but for some for each block of rows."""
        counts = []
        for cols, rows in ((60, 80), (240, 320)):
            self.write(f"in{cols}.ppm", self.picture(cols, rows).raw())
            counts.append(self.lines("eval", "p.pipe", f"in{cols}.ppm", "-o", f"out{cols}.ppm"))
            self.assertEqual(self.content(f"out{cols}.ppm"), self.picture(cols, rows).raw())
        self.assertLess(counts[1] - counts[0], 500, counts)

    def lines(self, *words: str) -> int:
        """How many lines of Python a call of tf runs in its main thread."""
        ran = subprocess.run([sys.executable, "-S", "-c", COUNTS, f"{TOP}/python/tilefarm", *words], cwd=self.room, env={**os.environ, "TILEFARM": PROGRAM},
                             capture_output=True, text=True, check=True)
        return int(ran.stderr)


class Start(unittest.TestCase):
    def loaded(self, *words: str) -> set[str]:
        """What is loaded for a call."""
        code = "import sys; sys.path.insert(0, sys.argv.pop(1)); from _tf.main import main; main(); print(*sys.modules)"
        env = {**os.environ, "TILEFARM": PROGRAM}
        ran = subprocess.run([sys.executable, "-S", "-c", code, f"{TOP}/python/tilefarm", *words], env=env, capture_output=True, text=True, check=True)
        return {*ran.stdout.splitlines()[-1].split()}

    def test_little_is_loaded(self):
        self.assertEqual({it for it in self.loaded("eval", "no.pipe", "no.pgm") if it in LATER}, set())

    @wants_jpeg_tools
    def test_a_jpeg_to_a_jpeg_loads_less(self):
        with tempfile.TemporaryDirectory(prefix="test-tf-") as room:
            for name, data in (("p.pipe", RoundTheProgram.COPY.encode()), ("in.ppm", Picture(20, 10, 3, 255, bytes(600)).raw())):
                write(f"{room}/{name}", data)
            subprocess.run(["cjpeg", "-outfile", f"{room}/in.jpg", f"{room}/in.ppm"], check=True)
            loaded = self.loaded("eval", f"{room}/p.pipe", f"{room}/in.jpg", "-o", f"{room}/out.jpg")
            self.assertTrue(os.path.isfile(f"{room}/out.jpg"))
        self.assertEqual({it for it in loaded if it in NOT_FOR_MANY}, set())

    def test_frames_load_less(self):
        with tempfile.TemporaryDirectory(prefix="test-tf-") as room:
            os.mkdir(f"{room}/in")
            for name, data in (("p.pipe", COPY.encode()), *((f"in/{at}.pgm", Picture(20, 10, 1, 255, bytes(200)).raw()) for at in range(3))):
                write(f"{room}/{name}", data)
            loaded = self.loaded("frames", f"{room}/p.pipe", f"{room}/in", "-o", f"{room}/out")
            self.assertEqual(len(os.listdir(f"{room}/out")), 3)
        self.assertEqual({it for it in loaded if it in NOT_FOR_MANY}, set())

    def test_help_and_version_load_less(self):
        self.assertEqual({it for it in self.loaded("--help") if it in (*LATER, *NOT_FOR_HELP)}, set())
        self.assertEqual({it for it in self.loaded("--version") if it in LATER}, set())
