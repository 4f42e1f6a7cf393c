"""Tests of `tf eval` by parts: what goes by parts, what is written, and what is refused."""
import glob
import io
import os
import random
import shutil
import signal
import struct
import subprocess
import time

from .of_formats import wants_vips
from .shared import COPY, GREY, PROGRAM, TOP, InRoom, write

from _tf import converters, png
from _tf.netpbm import Picture

COUNTS = COPY + "accum h [0 .. 3] over (x in [0 .. R-1], y in [0 .. C-1]) sum 1 at I(x, y) / 5;\n"
RAW = b"P5\n4 4\n255\n" + bytes(range(1, 17))
LINE = b"h 0..3: 4 5 5 2\n"
LONG = "image I(4, 4);\nfunc f(x in [0 .. 5000], y in [0 .. 3]) { else : x % 200 + y; }\noutput f max 255;\n"
# writes down each part that it runs, and lacks memory behind so many of them
SOME = f"""#!/bin/sh
test "$1" = eval || exec {PROGRAM} "$@"
echo eval >> runs
if test "$(wc -l < runs)" -gt "$(cat limit 2> /dev/null || echo 6)"; then echo memory; exit 5; fi
exec {PROGRAM} "$@"
"""
# says that it runs a part, and then does nothing
WAITS = f"""#!/bin/sh
test "$1" = eval || exec {PROGRAM} "$@"
touch began
exec sleep 100
"""


def pgm(rows: int, cols: int) -> bytes:
    """A picture with its samples."""
    return b"P5\n%d %d\n255\n" % (cols, rows) + bytes((7 * row + col) % 251 for row in range(rows) for col in range(cols))


class InParts(InRoom):
    def test_samples_and_totals_are_those_of_one_run(self):
        self.write("p.pipe", COUNTS.encode())
        for words in ("--parts 1", "--parts 2 --jobs 3", "--parts 3 --quiet --stored", "--parts 4096"):
            with self.subTest(words):
                self.assertEqual(self.tf(f"eval p.pipe p.pgm {words}"), (0, RAW + LINE, ""))
                self.assertEqual(self.tf(f"eval p.pipe p.pgm -o out.pgm {words}"), (0, LINE, ""))
                self.assertEqual(self.content("out.pgm"), RAW)
        self.assertEqual(self.tf("eval p.pipe - --parts 3", GREY.encode()), (0, RAW + LINE, ""))

    def test_a_run_that_was_ended_goes_on(self):
        self.write("p.pipe", COUNTS.encode())
        self.write("some", SOME.encode())
        os.chmod(f"{self.room}/some", 0o755)
        line, program = "eval p.pipe p.pgm --parts 1 --stored --resume kept", f"{self.room}/some"
        status, written, _ = self.tf(line, TILEFARM=program)
        self.assertEqual((status, written, len(os.listdir(f"{self.room}/kept"))), (5, b"", 6))
        first, second, *_ = sorted(os.listdir(f"{self.room}/kept"))
        self.write(f"kept/{first}", self.content(f"kept/{first}")[:-1])
        self.write(f"kept/{second}", self.content(f"kept/{second}")[:-1] + b"\0")
        self.write("limit", b"99")
        self.write("runs", b"")
        self.assertEqual(self.tf(line, TILEFARM=program), (0, RAW + LINE, "tf: 4 of 16 parts are those of kept\n"))
        self.assertEqual(self.content("runs"), b"eval\n" * 12)
        self.assertEqual(self.tf(f"{line} --jobs 3", TILEFARM=program), (0, RAW + LINE, "tf: 16 of 16 parts are those of kept\n"))
        self.write("p.pgm", b"P2 4 4 255 " + b" ".join(b"%d" % it for it in [99, *range(2, 17)]))
        status, written, told = self.tf(line, TILEFARM=program)
        self.assertEqual((status, written[:12], told), (0, RAW[:11] + b"\x63", "tf: 15 of 16 parts are those of kept\n"))

    def test_the_folder_of_a_run_that_was_killed_is_named_at_the_next_call(self):
        self.write("waits", WAITS.encode())
        os.chmod(f"{self.room}/waits", 0o755)
        words = [f"{TOP}/tools/tf", "eval", "p.pipe", "p.pgm", "--parts", "2", "-o", "out.pgm"]
        env = {**os.environ, "TILEFARM": f"{self.room}/waits"}
        running = subprocess.Popen(words, cwd=self.room, env=env, stderr=subprocess.DEVNULL, start_new_session=True)
        try:
            until = time.monotonic() + 60
            while not os.path.exists(f"{self.room}/began") and time.monotonic() < until:
                time.sleep(0.02)
            self.assertEqual(self.tf("eval p.pipe p.pgm --parts 2 -o other.pgm"), (0, b"", ""))
        finally:
            os.killpg(running.pid, signal.SIGKILL)
            running.wait()
        left, = glob.glob(f"{self.room}/.tf-*")
        write(f"{left}/more", bytes(2_500_000))
        for line in ("eval p.pipe p.pgm --parts 2 -o other.pgm", "eval p.pipe p.pgm --parts 2 --engine list -o parts"):
            status, _, told = self.tf(line)
            said = f"tf: {left} is left by a tf that was killed, and holds 2.5 MB: rm -r {left} removes it\n"
            self.assertEqual((status, told[: len(said)]), (0, said))
        shutil.rmtree(left)
        self.assertEqual(self.tf("eval p.pipe p.pgm --parts 2 -o other.pgm"), (0, b"", ""))

    def test_folders_for_parts_have_nothing_else(self):
        self.refused("eval p.pipe p.pgm --resume .", 1, "there is no part that --resume has kept")
        self.refused("eval p.pipe p.pgm --resume p.pgm", 4, "--resume p.pgm: File exists")
        self.refused("check p.pipe p.pgm --resume kept", 1, "--resume is an option of eval")

    def test_large_pictures_and_results_go_by_parts_unasked(self):
        self.write("tall.pgm", pgm(4097, 3))
        self.assertEqual(self.tf("eval p.pipe tall.pgm -o out.pgm"), (0, b"", ""))
        self.assertEqual(self.content("out.pgm"), pgm(4097, 3))
        self.write("p.pipe", LONG.encode())
        status, written, told = self.tf("eval p.pipe p.pgm")
        rows = (bytes(x % 200 + y for y in range(4)) for x in range(5001))
        self.assertEqual((status, written, told), (0, b"P5\n4 5001\n255\n" + b"".join(rows), ""))

    def test_large_pictures_become_png(self):
        self.write("wide.pgm", pgm(3, 5000))
        self.assertEqual(self.tf("eval p.pipe wide.pgm -o out.png"), (0, b"", ""))
        self.assertEqual(struct.unpack(">II", self.content("out.png")[16:24]), (5000, 3))
        if not converters.is_there():
            self.refused("eval p.pipe out.png -o again.pgm", 2, "by which tf eval reads it for parts")

    @wants_vips
    def test_large_pictures_of_other_formats(self):
        self.write("wide.pgm", pgm(3, 5000))
        for name in ("out.png", "out.tif"):
            self.assertEqual(self.tf(f"eval p.pipe wide.pgm -o {name}"), (0, b"", ""))
            self.assertEqual(self.tf(f"eval p.pipe {name}"), (0, pgm(3, 5000), ""))

    def test_png_in_bands_is_read_again(self):
        picture, made = Picture(30, 20, 3, 65535, random.Random(5).randbytes(30 * 20 * 6)), io.BytesIO()
        png.write_bands(picture, (picture.raster[at : at + 7 * 180] for at in range(0, 20 * 180, 7 * 180)), made)
        self.assertEqual(png.read(made.getvalue(), "out.png"), (picture, []))

    def test_pictures_of_other_kinds(self):
        self.write("colours.ppm", b"P6\n2 3\n255\n" + bytes(18 * [100]))
        self.assertEqual(self.tf("eval p.pipe colours.ppm --grey --parts 2"), (0, b"P5\n2 3\n255\n" + bytes(6 * [100]), ""))
        self.assertEqual(self.tf("eval p.pipe p.pgm -o p.png"), (0, b"", ""))
        self.assertEqual(self.tf("eval p.pipe p.png --parts 3"), (0, RAW, ""))
        self.write("deep.pgm", b"P2 2 1 1000 0999 3")
        self.write("p.pipe", COPY.replace("255", "1000").encode())
        self.assertEqual(self.tf("eval p.pipe deep.pgm --parts 1"), (0, b"P5\n2 1\n1000\n\x03\xe7\0\3", ""))

    def test_lines_alone(self):
        self.write("p.pipe", COUNTS.replace("output f max 255;\n", "").encode())
        self.assertEqual(self.tf("eval p.pipe p.pgm --parts 3"), (0, LINE, ""))
        self.assertEqual(self.tf("eval p.pipe p.pgm --parts 3 -o lines.txt"), (0, b"", ""))
        self.assertEqual(self.content("lines.txt"), LINE)
        self.refused("eval p.pipe p.pgm --parts 3 -o lines.png", 1, "eval writes no picture here, but lines")

    def test_tables_are_handed_on(self):
        self.write("p.pipe", (COPY.replace("I(x, y)", "t[I(x, y)]") + "table t[0 .. 1];\n").encode())
        self.write("t.table", b"t 0..1: 5 9\n")
        self.assertEqual(self.tf("eval p.pipe p.pgm --table t.table --parts 3"), (0, RAW[:11] + bytes(16 * [9]), ""))
        self.write("t.table", b"t 0..2: 5 9 7\n")
        self.refused("eval p.pipe p.pgm --table t.table --parts 3", 3, "bind: 7 TableMismatch t")

    def test_faults_of_the_whole_are_shown_in_its_text(self):
        for text, words, said in ((COPY.replace("y);", "y+1);"), "", "bounds: 4 OutOfBounds f case 0 read 0 columns least 1 greatest 4\np.pipe:3:56\n"),
                                  (COPY.replace("I(x", "J(x"), "", "check: 1 Unknown item 3\np.pipe:3:51\n"),
                                  (COPY.replace("image I(R", "image I(3*R"), "", "bounds: 1 ParamUnset R\np.pipe:1:7\n"),
                                  (COPY, "R=3", "bind: 3 ExtentMismatch\np.pipe:2:9\n"),
                                  (COPY + "%", "", "program: 3 Unexpected at ")):
            with self.subTest(said):
                self.write("p.pipe", text.encode())
                self.refused(f"eval p.pipe p.pgm --parts 2 {words}", 3, said)

    def test_faults_of_the_picture_are_those_of_the_whole(self):
        for data, said in ((RAW[:-1], "picture: 7 RasterCut at 26"), (RAW + b"a", "picture: 9 TrailingBytes at 27"),
                           (RAW.replace(b"255", b"9"), "picture: 8 SampleTooBig at 18"), (b"P5 4 0 255 ", "picture: 4 BadSize at 5"),
                           (b"P5 4 4 70000 ", "picture: 5 BadMax at 7"), (b"hello", "picture: 1 OtherFormat at 0"),
                           (b"P2 2 2 9 1 2 3", "picture: 7 RasterCut at 14"), (b"P2 2 2 9 1 2 3 x", "x is none")):
            with self.subTest(said):
                self.write("p.pgm", data)
                self.refused("eval p.pipe p.pgm --parts 2", 2, said)

    def test_words_that_do_not_go_with_parts(self):
        for words, said in (("--parts 0", "--parts takes the side of a part"), ("--parts 4097", "1 to 4096"), ("--parts x", "1 to 4096"),
                            ("--parts 2 --print", "--print goes with one run"), ("--parts 2 --stage f", "--stage goes with one run"),
                            ("--parts 2 --jobs 0", "--jobs takes a number"), ("--parts 2 --rows 0", "usage: ")):
            with self.subTest(words):
                self.refused(f"eval p.pipe p.pgm {words}", 1, said)
        self.refused("check p.pipe p.pgm --parts 2", 1, "--parts is an option of eval")
        self.refused("eval p.pipe --parts 2", 1, "takes PROGRAM and PICTURE")
        self.refused("eval p.pipe none.pgm --parts 2", 2, "none.pgm: No such file")

    def test_what_cannot_be_cut_is_refused_by_name(self):
        deep = "abs(" * 64 + "x" + ")" * 64
        self.write("p.pipe", COPY.replace("I(x, y)", deep).encode())
        self.assertEqual(self.tf("eval p.pipe p.pgm --parts 4")[0], 0)
        self.refused("eval p.pipe p.pgm --parts 2", 3, "part 2 of 4 has a program of its own")
        self.write("tall.pgm", pgm(8200, 1))
        self.write("p.pipe", COPY.replace("[0 .. R-1]", "[0 .. R-4097]").replace("I(x, y)", "I(x, y) + I(x+4096, y)").encode())
        self.refused("eval p.pipe tall.pgm", 3, "row 0 of f alone needs rows 0 to 4096 of the picture, and a run takes at most 4096")
