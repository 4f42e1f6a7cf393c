"""Tests of pictures that go straight from a JPEG to a file that vips or cjpeg writes: they are what the usual way makes, and what does not go is left
to it."""
import os
import random
import shutil
import subprocess
from unittest import mock

from .of_metadata import COLOURS, COPY_COLOURS, XMP
from .shared import COPY, PROGRAM, TOOLS, TOP, InRoom, content, wants_jpeg_tools, wants_vips

from _tf import converters, metadata, running, straight, words
from _tf.metadata import Metadata
from _tf.netpbm import Picture

OWN = f"{TOP}/tests/tf/pictures"
LARGE = Picture(700, 900, 3, 255, bytes(at * at // 7 % 256 for at in range(3 * 700 * 900)))
DOUBLED = COPY_COLOURS.replace(": r(x, y)", ": 2 * r(x, y)")
# how cjpeg is asked for JPEG of all kinds that go straight
KINDS = ("-sample 1x1", "-sample 2x2", "-sample 2x1", "-sample 1x2", "-progressive", "-restart 1", "-optimize -quality 20")
ASKING = "param R; param C; param M; # greatest sample\nimage I(2*R, C);\n" \
    "func f(x in [0 .. 2*R-1], y in [0 .. C-1]) { else : M - I(x, y); }\noutput f max 65535; # greatest sample\n"


@wants_vips
class Straight(InRoom):
    """By vips: djpeg and cjpeg do nothing here."""

    def setUp(self):
        super().setUp()
        named = mock.patch.dict(os.environ, TILEFARM=PROGRAM)
        named.start()
        self.addCleanup(named.stop)
        self.hide_tools()
        running.program.cache_clear()
        self.write("c.pipe", COPY_COLOURS.encode())
        self.write("in.ppm", COLOURS.raw())
        subprocess.run(["vips", "copy", "in.ppm", "in.jpg[Q=95]"], cwd=self.room, check=True)

    def hide_tools(self) -> None:
        for name in TOOLS:
            self.stub(name, "exit 1")

    def stub(self, name: str, script: str) -> None:
        """Another program of this name, which is found first from here on."""
        if not os.path.isdir(f"{self.room}/bin"):
            os.mkdir(f"{self.room}/bin")
            os.environ["PATH"] = f"{self.room}/bin:{os.environ['PATH']}"
        self.write(f"bin/{name}", f"#!/bin/sh\n{script}\n".encode())
        os.chmod(f"{self.room}/bin/{name}", 0o755)

    def is_straight(self, *line: str) -> bool:
        """Whether a call goes straight; its files are in the test's folder, and nothing is left there where it does not."""
        before, here = sorted(os.listdir(self.room)), os.getcwd()
        os.chdir(self.room)
        try:
            went = straight.is_done(words.asked([*line]), [*line])
        finally:
            os.chdir(here)
        if not went:
            self.assertEqual(sorted(os.listdir(self.room)), before)
        return went

    def both(self, line: str, ending: str) -> None:
        """It goes straight, and writes what the usual way does."""
        self.assertTrue(self.is_straight(*line.split(), "-o", f"straight{ending}"), line)
        self.assertEqual(self.tf(f"{line} -o usual{ending} --time")[0], 0)
        self.assertEqual(self.content(f"straight{ending}"), self.content(f"usual{ending}"), (line, ending))

    def test_it_is_what_the_usual_way_makes(self):
        self.write("large.ppm", LARGE.raw())
        subprocess.run(["vips", "copy", "large.ppm", "large.jpg[Q=90,subsample_mode=off]"], cwd=self.room, check=True)
        for picture in ("in.jpg", "large.jpg"):
            for ending in (".jpg", ".tif", ".webp"):
                self.both(f"eval c.pipe {picture}", ending)
        self.both("eval c.pipe in.jpg --quality 40", ".jpeg")
        self.both(f"eval p.pipe {OWN}/grey.jpg", ".jpg")

    def test_vips_reads_from_the_program_where_nothing_can_be_cut(self):
        self.write("doubled.pipe", DOUBLED.encode())
        with mock.patch.object(straight, "passed_on", return_value=None):
            self.both("eval c.pipe in.jpg", ".jpg")
            self.assertFalse(self.is_straight("eval", "doubled.pipe", "in.jpg", "-o", "out.jpg"))

    def test_values_are_supplied_and_handed_on(self):
        self.write("asking.pipe", ASKING.encode())
        self.write("grey.jpg", content(f"{OWN}/grey.jpg"))
        head = converters.head_of_jpeg(f"{self.room}/grey.jpg")
        self.assertEqual(head.rows % 2, 0)
        self.both("eval asking.pipe grey.jpg --percent 300", ".jpg")
        self.both(f"eval asking.pipe grey.jpg C={head.cols}", ".jpg")

    def test_what_its_file_says_is_kept(self):
        data = metadata.put_into(self.content("in.jpg"), Metadata(exif=metadata.read(content(f"{OWN}/colours.jpg")).exif, xmp=XMP.partition(b"\0")[2]))
        self.write("said.jpg", data)
        for more, ending in (("", ".jpg"), ("", ".webp"), ("--strip", ".jpg")):
            self.both(f"eval c.pipe said.jpg {more}", ending)

    def test_what_does_not_go_is_left_to_the_usual_way(self):
        self.write("bad.pipe", b"param R")
        self.write("counts.pipe", COPY_COLOURS.encode() + b"accum h [0 .. 9] over (x in [0 .. R-1], y in [0 .. C-1]) sum 1 at r(x, y);\n")
        self.write("outside.pipe", COPY_COLOURS.replace("r(x, y)", "r(x+1, y)").encode())
        self.write("long.pipe", COPY_COLOURS.encode() + b"#" * (1 << 21))
        others = [("c.pipe", f"{OWN}/{name}.jpg") for name in ("turned", "inks", "cut", "grey")]
        for files in (*others, *((pipe, "in.jpg") for pipe in ("bad.pipe", "counts.pipe", "outside.pipe", "long.pipe", "p.pipe")), ("c.pipe", "in.ppm")):
            self.assertFalse(self.is_straight("eval", *files, "-o", "out.jpg"), files)
        for more in (["--grey"], ["--page", "1"], ["--time"], ["--stage", "r=r.png"]):
            self.assertFalse(self.is_straight("eval", "c.pipe", "in.jpg", "-o", "out.jpg", *more), more)
        for target in ("out.png", "out.gif", "out.ppm"):
            self.assertFalse(self.is_straight("eval", "c.pipe", "in.jpg", "-o", target), target)

    def test_what_is_cut_is_told_and_refused(self):
        self.write("doubled.pipe", DOUBLED.encode())
        for more, status in (("", 0), ("--strict", 3)):
            told = [self.tf(f"eval doubled.pipe in.jpg -o {name}.jpg {more} {other}") for name, other in (("straight", ""), ("usual", "--memory"))]
            self.assertEqual([it[0] for it in told], [status, status])
            self.assertIn("of its samples are cut at 255", told[0][2])
            self.assertIn(told[0][2].strip(), told[1][2])
            self.assertEqual(os.path.exists(f"{self.room}/straight.jpg"), not status)
            if not status:
                self.assertEqual(self.content("straight.jpg"), self.content("usual.jpg"))
                os.remove(f"{self.room}/straight.jpg")

    def test_what_vips_says_is_told_by_the_usual_way(self):
        self.stub("vips", f'echo "VIPS-WARNING **: strange" >&2; exec {shutil.which("vips")} "$@"')
        self.hide_tools()
        status, _, told = self.tf("eval c.pipe in.jpg -o out.jpg")
        self.assertEqual(status, 0, told)
        self.assertIn("in.jpg: vips warns: strange", told)
        self.stub("vips", "exit 3")
        status, _, told = self.tf("eval c.pipe in.jpg -o out.jpg")
        self.assertEqual((status, told), (2, "tf: in.jpg: vips cannot do this: status 3\n"))

    def test_a_jpeg_that_is_cut_off_is_refused_whatever_vips_says(self):
        """(Whether vips sees it is a matter of time.) What stands behind the end is no matter."""
        whole = self.content("in.jpg")
        self.stub("vips", "printf 'P6 24 16 255 ' > \"$3\"; head -c 1152 /dev/zero >> \"$3\"")
        self.hide_tools()
        for data in (whole[:-1], whole[:-2], whole[: -len(whole) // 3], whole[:200] + whole[-90:-2]):
            self.write("cut.jpg", data)
            for target in ("out.jpg", "out.pgm"):
                status, _, told = self.tf(f"eval c.pipe cut.jpg -o {target}")
                self.assertEqual((status, os.path.exists(f"{self.room}/{target}")), (2, False), told)
                self.assertIn("cut.jpg: ", told)
        self.write("more.jpg", whole + b"more" * 99)
        self.assertEqual(self.tf("eval c.pipe more.jpg -o out.ppm"), (0, b"", ""))

    def test_a_program_that_does_not_start_is_told_by_the_usual_way(self):
        self.write("none", b"no program")
        os.chmod(f"{self.room}/none", 0o755)
        told = [self.tf(f"eval c.pipe in.jpg -o out.jpg {more}", TILEFARM=f"{self.room}/none") for more in ("", "--time")]
        self.assertEqual(told[0], told[1])
        self.assertEqual(told[0][0], 4)

    def test_what_takes_too_long_is_ended(self):
        for name in ("vips", *TOOLS):
            self.stub(name, "sleep 60")
        with mock.patch.object(converters, "SECONDS", 0.5):
            self.assertFalse(self.is_straight("eval", "c.pipe", "in.jpg", "-o", "out.jpg"))


@wants_jpeg_tools
class StraightByJpegTools(Straight):
    """By djpeg and cjpeg: all of the same, and the very bytes that vips writes."""

    def hide_tools(self) -> None:
        """(Here they are asked.)"""

    def test_what_vips_says_is_told_by_the_usual_way(self):
        """Where djpeg says something, too."""
        self.stub("djpeg", "echo strange >&2; exit 2")
        super().test_what_vips_says_is_told_by_the_usual_way()

    def test_vips_is_not_asked(self):
        wanted = self.tf("eval c.pipe in.jpg -o usual.jpg --time")[0]
        self.stub("vips", "exit 3")
        self.assertEqual((wanted, self.tf("eval c.pipe in.jpg -o out.jpg")), (0, (0, b"", "")))
        self.assertEqual(self.content("out.jpg"), self.content("usual.jpg"))
        self.assertEqual(self.tf("eval c.pipe in.jpg -o out.webp")[0], 2)

    def test_all_kinds_of_jpeg_are_read_and_written_as_by_vips(self):
        chance, sides = random.Random(5), ((1, 1), (17, 13), (40, 33))
        self.write("grey.pipe", COPY.encode())
        for cols, rows in sides:
            for planes, pipe in ((1, "grey.pipe"), (3, "c.pipe")):
                samples = bytes(chance.randrange(90) + at // 7 * 40 % 160 for at in range(planes * cols * rows))
                self.write("some.ppm", Picture(cols, rows, planes, 255, samples).raw())
                for more in (*KINDS, *["-rgb"] * (planes == 3)):
                    with self.subTest(more, cols=cols, planes=planes):
                        subprocess.run(["cjpeg", *more.split(), "-outfile", "some.jpg", "some.ppm"], cwd=self.room, check=True, capture_output=True)
                        self.same_by_both(f"eval {pipe} some.jpg", chance.choice(("", "--quality 5", "--quality 89 --strip", "--strip", "--quality 100")))

    def same_by_both(self, line: str, more: str) -> None:
        """Both ways go, and write the same."""
        found = []
        for way in (straight.by_jpeg_tools, straight.by_vips):
            with mock.patch.object(straight, "ways", lambda _, way=way: (way,)):
                self.assertTrue(self.is_straight(*line.split(), *more.split(), "-o", f"{way.__name__}.jpg"), way)
            found.append(self.content(f"{way.__name__}.jpg"))
        self.assertEqual(found[0], found[1])

    def test_what_one_of_them_says_or_does_not_do_is_left_to_vips(self):
        """It ends before its end, says something, is another make, or is none: the result is whole, and nothing of it is told."""
        self.tf("eval c.pipe in.jpg -o usual.jpg --time")
        real = {name: shutil.which(name) for name in TOOLS}
        half = "head -c 200; exit"
        names = f'case "$*" in -version) exec {real["cjpeg"]} "$@";; *)'
        for name, script in (("djpeg", f'{real["djpeg"]} "$@" | {half} 0'), ("djpeg", f'{real["djpeg"]} "$@" | {half} 2'), ("djpeg", "exit 1"),
                             ("djpeg", "kill -9 $$"), ("djpeg", f'echo odd >&2; exec {real["djpeg"]} "$@"'), ("cjpeg", "exit 1"), ("cjpeg", "kill -9 $$"),
                             ("cjpeg", "exec <&-; exit 0"), ("cjpeg", f'{names} {real["cjpeg"]} "$@" | {half} 1;; esac'),
                             ("cjpeg", f'{names} echo odd >&2; exec {real["cjpeg"]} "$@";; esac'),
                             ("cjpeg", f'case "$*" in -version) echo mozjpeg version 4 >&2;; *) exec {real["cjpeg"]} "$@";; esac')):
            with self.subTest(name, script=script):
                self.stub(name, script)
                self.write("out.jpg", b"older")
                before = sorted(os.listdir(self.room))
                self.assertEqual(self.tf("eval c.pipe in.jpg -o out.jpg"), (0, b"", ""))
                self.assertEqual(self.content("out.jpg"), self.content("usual.jpg"))
                self.assertEqual(sorted(os.listdir(self.room)), before)
                os.remove(f"{self.room}/bin/{name}")

    def test_an_older_result_stays_where_nothing_goes(self):
        self.write("out.jpg", b"older")
        self.stub("vips", "exit 3")
        for name, script in (("djpeg", "exit 1"), ("cjpeg", "head -c 99; exit 1")):
            self.stub(name, script)
            before = sorted(os.listdir(self.room))
            self.assertEqual(self.tf("eval c.pipe in.jpg -o out.jpg")[0], 2)
            self.assertEqual((self.content("out.jpg"), sorted(os.listdir(self.room))), (b"older", before))
            os.remove(f"{self.room}/bin/{name}")
