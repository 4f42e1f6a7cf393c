"""Tests of pictures of other formats: real files, made by Debian's tools, against the points that they were made from."""
import os
import re
import shutil
import struct
import subprocess
import unittest

from .pictures import planes
from .shared import TOP, InRoom, content, wants_vips

from _tf import converters, joining, netpbm, png
from _tf.netpbm import Picture
from _tf.text import Refused

PICTURES = f"{TOP}/tests/tf/pictures"
COLS, ROWS = planes.COLS, planes.ROWS
EXACT = {
    "grey8.tif": (1, 255, planes.GREY), "colours8.tif": (3, 255, planes.COLOURS), "grey16.tif": (1, 65535, planes.DEEP),
    "colours16.tif": (3, 65535, planes.DEEP_COLOURS), "mask.tif": (1, 255, planes.MASK), "one.gif": (3, 255, planes.FEW),
    "colours.webp": (3, 255, planes.COLOURS), "palette.png": (3, 255, planes.FEW), "alpha.png": (3, 255, planes.COLOURS),
    "colours16.png": (3, 65535, planes.DEEP_COLOURS), "interlaced.png": (3, 255, planes.COLOURS), "mask.png": (1, 255, planes.MASK),
    "mask.pbm": (1, 255, planes.MASK), "plain.pbm": (1, 255, planes.MASK),
}
# (a JPEG has each sample but nearly)
NEAR = {"grey.jpg": (1, planes.GREY), "colours.jpg": (3, planes.COLOURS), "equal.jpg": (3, planes.EQUAL)}
COLOURED = "image a, b, c(16, 24);\nfunc f(x in [0 .. 15], y in [0 .. 23]) { else : b(x, y); }\noutput f max 255;\n"


def read(name: str, page: int | None = None) -> tuple[Picture, list[str]]:
    path = f"{PICTURES}/{name}"
    return joining.converted(path, content(path), page)


class Formats(InRoom):
    @wants_vips
    def test_what_loses_nothing_is_read_exactly(self):
        for name, (parts, most, raster) in EXACT.items():
            with self.subTest(name):
                self.assertEqual(read(name)[0], Picture(COLS, ROWS, parts, most, raster))

    @wants_vips
    def test_vips_reads_png_as_the_code_of_tf_does(self):
        for name in [it for it in EXACT if it.endswith(".png")]:
            with self.subTest(name):
                path, room = f"{PICTURES}/{name}", os.path.join(self.room, name)
                os.mkdir(room)
                self.assertEqual(converters.read(content(path), path, room), png.read(content(path), path))

    @wants_vips
    def test_heads_of_jpeg_are_what_vips_tells(self):
        names = sorted(it for it in os.listdir(PICTURES) if it.endswith(".jpg"))
        for name in names:
            with self.subTest(name):
                found = converters.head_of_jpeg(f"{PICTURES}/{name}")
                if name == "inks.jpg":
                    self.assertIsNone(found)
                    continue
                room = os.path.join(self.room, name)
                os.mkdir(room)
                converters.place(b"", f"{PICTURES}/{name}", room)
                wanted = converters.Vips(name, room).head()
                self.assertEqual(found._replace(orientation=""), wanted._replace(orientation=""))
                self.assertEqual(found.orientation in converters.NO_ORIENTATION, wanted.orientation in converters.NO_ORIENTATION)
        self.assertGreater(len(names), 4)

    @wants_vips
    def test_jpeg_is_read_as_near_as_it_is(self):
        for name, (parts, raster) in NEAR.items():
            with self.subTest(name):
                picture, said = read(name)
                self.assertEqual((picture.cols, picture.rows, picture.parts, picture.most, said), (COLS, ROWS, parts, 255, []))
                self.assertLessEqual(max(abs(it - wanted) for it, wanted in zip(picture.raster, raster)), 4)

    @wants_vips
    def test_pictures_are_turned_as_they_say(self):
        exact, _ = read("turned.tif")
        self.assertEqual(exact, Picture(ROWS, COLS, 3, 255, planes.turned(planes.COLOURS, 3)))
        near, _ = read("turned.jpg")
        self.assertEqual((near.cols, near.rows), (ROWS, COLS))
        self.assertLessEqual(max(abs(it - wanted) for it, wanted in zip(near.raster, exact.raster)), 4)

    @wants_vips
    def test_losses_are_told(self):
        for name, said in (("alpha.png", "alpha"), ("inks.jpg", "CMYK")):
            with self.subTest(name):
                picture, told = read(name)
                self.assertEqual((picture.parts, len(picture.raster)), (3, 3 * COLS * ROWS))
                self.assertIn(said, told[0])

    @wants_vips
    def test_pages_and_frames_are_chosen(self):
        negative = bytes(255 - it for it in planes.GREY)
        flopped = b"".join(planes.GREY[at : at + COLS][::-1] for at in range(0, len(planes.GREY), COLS))
        for page, raster in ((1, planes.GREY), (2, negative), (3, flopped)):
            self.assertEqual(read("pages.tif", page)[0].raster, raster)
        self.assertEqual(read("frames.gif", 2)[0].raster, bytes(255 - it for it in planes.FEW))
        self.assertEqual(read("grey8.tif", 1)[0].raster, planes.GREY)
        for name, page, said in (("pages.tif", None, "3 pages or frames"), ("frames.gif", None, "--page 1 to --page 2"),
                                 ("pages.tif", 4, "no page 4, but 3"), ("grey8.tif", 2, "no page 2, but 1"),
                                 ("mask.png", 2, "no page 2, but 1")):
            with self.subTest(name), self.assertRaisesRegex(Refused, said):
                read(name, page)

    @wants_vips
    def test_what_is_no_picture_of_whole_numbers_is_refused(self):
        for name, said in (("float.tif", "floating point"), ("float.pfm", "floating point"), ("cut.jpg", "cannot do this")):
            with self.subTest(name), self.assertRaisesRegex(Refused, f"{name}: .*{said}"):
                read(name)

    def test_vips_is_named_where_it_is_not_there(self):
        status, _, told = self.tf(f"eval p.pipe {PICTURES}/colours.jpg", PATH=os.path.dirname(os.path.realpath(shutil.which("python3"))))
        self.assertEqual(status, 2)
        self.assertIn("libvips-tools", told)

    def test_bitmaps_that_are_none(self):
        for data in (b"P4 8 1 ", b"P4 8 1 ab", b"P1 2 1 0", b"P1 2 1 0 2", b"P4 0 1 ", b"P1 4097 1 0", b"P4 x"):
            with self.subTest(data), self.assertRaisesRegex(Refused, "^b.pbm: "):
                netpbm.bits(data, "b.pbm")
        self.assertEqual(netpbm.bits(b"P1 # two\n2 2 01\n10", "b.pbm").raster, bytes([255, 0, 0, 255]))
        self.assertEqual(netpbm.bits(b"P4 9 1 \x80\x80", "b.pbm").raster, bytes([0, *[255] * 7, 0]))

    @wants_vips
    def test_the_program_says_how_many_planes_are_wanted(self):
        self.write("colours.pipe", COLOURED.encode())
        copy = self.tf(f"eval p.pipe {PICTURES}/equal.jpg")
        self.assertEqual((copy[0], copy[1][:13], copy[2]), (0, b"P5\n24 16\n255\n", ""))
        self.assertEqual(self.tf(f"eval colours.pipe {PICTURES}/grey8.tif"), (0, b"P5\n24 16\n255\n" + planes.GREY, ""))
        self.assertEqual(self.tf(f"eval colours.pipe {PICTURES}/mask.pbm"), (0, b"P5\n24 16\n255\n" + planes.MASK, ""))
        status, _, told = self.tf(f"eval p.pipe {PICTURES}/colours8.tif")
        self.assertEqual(status, 3)
        self.assertIn("--grey makes one", told)
        self.assertEqual(self.tf(f"eval p.pipe {PICTURES}/colours8.tif --grey")[0::2], (0, ""))

    def test_planes_that_are_asked_for(self):
        self.write("colours.pipe", COLOURED.encode())
        self.write("g.pgm", b"P5 24 16 255 " + planes.GREY)
        self.assertEqual(self.tf("eval colours.pipe g.pgm --colours"), (0, b"P5\n24 16\n255\n" + planes.GREY, ""))
        self.assertEqual(self.tf("eval p.pipe g.pgm --grey"), (0, b"P5\n24 16\n255\n" + planes.GREY, ""))
        self.refused("eval p.pipe g.pgm --grey --colours", 1, "name one")
        self.refused("eval p.pipe g.pgm --page 2", 1, "no page 2")
        self.refused("eval p.pipe g.pgm --page x", 1, "a number from 1")
        self.refused("eval p.pipe --grey", 1, "as two files")
        deep = Picture(2, 1, 1, 300, b"\0\1\1\0").colours()
        self.assertEqual((deep, deep.is_grey_valued()), (Picture(2, 1, 3, 300, b"\0\1" * 3 + b"\1\0" * 3), True))
        self.assertFalse(Picture(1, 1, 3, 300, b"\0\1\0\1\1\1").is_grey_valued())

    @wants_vips
    @wants_vips
    def test_what_only_begins_like_a_format_reaches_no_other_loader(self):
        told = subprocess.run(["vips", "--version"], capture_output=True, text=True).stdout
        if tuple(map(int, re.findall(r"\d+", told)[:2])) < (8, 13):
            self.skipTest(f"this libvips blocks no loaders: {told.strip()}")
        drawing = b"push graphic-context\nviewbox 0 0 4 4\nimage over 0,0 4,4 'text:p.pipe'\npop graphic-context\n"
        signs = (b"II*\0", b"MM\0*", b"\xff\xd8\xff", b"GIF89a", b"RIFF", b"\0\0\0 ftypheic")
        for sign, rest in zip(signs, 2 * (drawing, bytes(99), b"<svg width='4' height='4'/>")):
            self.write("odd", sign + rest)
            status, written, told = self.tf("eval p.pipe odd -o made.pgm")
            self.assertEqual((status, written), (2, b""))
            self.assertNotIn("magick2vips", told)
            self.assertNotIn("libMagick", told)

    @wants_vips
    def test_formats_that_have_a_loader_of_their_own(self):
        rows = b"".join(bytes([3 * at, 2 * at, at, 3 * at + 3, 2 * at + 2, at + 1, 0, 0]) for at in (20, 10))
        self.write("p.bmp", b"BM" + struct.pack("<IHHIIiiHHIIiiII", 70, 0, 0, 54, 40, 2, 2, 1, 24, 0, 16, 0, 0, 0, 0) + rows)
        self.write("c.pipe", b"image r, g, b(2, 2);\nfunc f(x in [0 .. 1], y in [0 .. 1]) { else : r(x, y); }\nfunc h(x in [0 .. 1], y in [0 .. 1]) "
                             b"{ else : b(x, y); }\noutput f, h, h max 255;\n")
        self.assertEqual(self.tf("eval c.pipe p.bmp --print")[:2], (0, b"10 30 30 11 33 33\n20 60 60 21 63 63\n"))
        for ending in ("jp2", "jxl"):
            made = subprocess.run(["vips", "copy", "p.pgm", f"p.{ending}[lossless]"], cwd=self.room, capture_output=True)
            if made.returncode:
                continue  # this libvips writes no such format
            wanted = self.tf("eval p.pipe p.pgm --print")
            self.assertEqual(self.tf(f"eval p.pipe p.{ending} --print")[:2], wanted[:2])
            self.assertNotEqual(self.tf(f"eval p.pipe p.{ending} --page 2")[0], 0)

    def test_standard_input_of_a_format_that_tf_reads(self):
        self.taken_from_standard_input("mask.pbm")

    @wants_vips
    def test_standard_input_of_any_format(self):
        for name in ("grey8.tif", "equal.jpg"):
            with self.subTest(name):
                self.taken_from_standard_input(name)

    def taken_from_standard_input(self, name: str) -> None:
        status, written, told = self.tf("eval p.pipe -", content(f"{PICTURES}/{name}"))
        self.assertEqual((status, written[:13], told), (0, b"P5\n24 16\n255\n", ""))

    @wants_vips
    def test_names_with_marks_of_vips(self):
        for name in ("a[page=1].tif", "a b.tif", "-x.tif", "a:b.tif"):
            self.write(name, content(f"{PICTURES}/grey8.tif"))
            made = joining.converted(f"{self.room}/{name}", content(f"{self.room}/{name}"), None)
            self.assertEqual(made[0].raster, planes.GREY)

    @wants_vips
    def test_what_is_written_is_read_again(self):
        self.write("g.pgm", b"P5 24 16 255 " + planes.GREY)
        for name in ("o.tif", "o.webp", "o[1].tiff"):
            with self.subTest(name):
                self.assertEqual(self.tf(f"eval p.pipe g.pgm -o {name}"), (0, b"", ""))
                made, _ = joining.converted(f"{self.room}/{name}", self.content(name), None)
                self.assertEqual((made.grey() if name.endswith("webp") else made).raster, planes.GREY)
        self.assertEqual(self.tf("eval p.pipe g.pgm -o o.jpg")[0], 0)
        self.assertEqual(self.content("o.jpg")[:3], b"\xff\xd8\xff")
        self.assertIn("at most 256 colours", self.tf("eval p.pipe g.pgm -o o.gif")[2])

    @wants_vips
    def test_samples_are_scaled_with_a_word(self):
        self.write("deep.pipe", b"image I(16, 24);\nfunc f(x in [0 .. 15], y in [0 .. 23]) { else : I(x, y); }\noutput f max 65535;\n")
        self.write("deep.pgm", b"P5 24 16 65535 " + planes.DEEP)
        status, _, told = self.tf("eval deep.pipe deep.pgm -o o.jpg")
        self.assertEqual(status, 0)
        self.assertIn("samples from 0 to 65535 are scaled to 0 to 255, which .jpg has", told)
        self.assertEqual(self.tf("eval deep.pipe deep.pgm -o o.tif"), (0, b"", ""))
        self.assertEqual(joining.converted("o", self.content("o.tif"), None)[0].raster, planes.DEEP)
