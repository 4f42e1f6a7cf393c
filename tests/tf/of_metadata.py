"""Tests of what a picture's file says beside its samples: EXIF, colour profile and resolution, from each format to each, as vips tells them."""
import base64
import re
import struct
import subprocess

from .shared import InRoom, wants_vips

from _tf import metadata, png
from _tf.metadata import Metadata
from _tf.netpbm import Picture

COPY_COLOURS = ("param R; param C;\nimage r, g, b(R, C);\n"
                + "".join(f"func {it}1(x in [0 .. R-1], y in [0 .. C-1]) {{ else : {it}(x, y); }}\n" for it in "rgb") + "output r1, g1, b1 max 255;\n")
COLS, ROWS = 24, 16
COLOURS = Picture(COLS, ROWS, 3, 255, bytes(at * 7 % 256 for at in range(3 * COLS * ROWS)))
GREY = Picture(COLS, ROWS, 1, 255, bytes(at * 7 % 256 for at in range(COLS * ROWS)))
FORMATS = ("jpg", "png", "tif", "webp")
# a title, of an odd count of bytes, as IPTC has it; in a JPEG it is a block among others
IPTC = b"\x1c\x02\x05\0\x05Title\x1c\x02\x19\0\0"
BLOCKS = (b"Photoshop 3.0\0" + b"8BIM\x03\xed\x03abc" + struct.pack(">I", 3) + b"xyz\0"
          + b"8BIM\x04\x04\0\0" + struct.pack(">I", len(IPTC)) + IPTC + bytes(len(IPTC) % 2))
XMP = (b'http://ns.adobe.com/xap/1.0/\0<x:xmpmeta xmlns:x="adobe:ns:meta/"><rdf:RDF xmlns:rdf="http://www.w3.org/1999/02/22-rdf-syntax-ns#">'
       b'<rdf:Description tiff:Orientation="6" photoshop:City="Wien"/></rdf:RDF></x:xmpmeta>')


def exif(order: str, orientation: int) -> bytes:
    """EXIF of a maker, an orientation, a resolution of 300 by 150 points an inch, sides of 1000 by 700, and a directory of a thumbnail."""
    def entry(tag: int, kind: int, count: int, value: int) -> bytes:
        return struct.pack(f"{order}HHI", tag, kind, count) + (struct.pack(f"{order}HH", value, 0) if kind == 3 and count == 1 else struct.pack(f"{order}I", value))

    first, inner = 8, 8 + 2 + 6 * 12 + 4
    texts = inner + 2 + 2 * 12 + 4
    entries = [entry(0x10F, 2, 6, texts), entry(0x112, 3, 1, orientation), entry(0x11A, 5, 1, texts + 6), entry(0x11B, 5, 1, texts + 14),
               entry(0x128, 3, 1, 2), entry(0x8769, 4, 1, inner)]
    inside = [entry(0xA002, 4, 1, 1000), entry(0xA003, 3, 1, 700)]
    thumbnail = texts + 22
    return b"".join(((b"MM\0*" if order == ">" else b"II*\0") + struct.pack(f"{order}I", first), struct.pack(f"{order}H", 6), *entries,
                     struct.pack(f"{order}I", thumbnail), struct.pack(f"{order}H", 2), *inside, bytes(4), b"Maker\0",
                     struct.pack(f"{order}IIII", 300, 1, 150, 1), struct.pack(f"{order}H", 0), bytes(4)))


class MetadataOfPictures(InRoom):
    def setUp(self):
        super().setUp()
        self.write("c.pipe", COPY_COLOURS.encode())

    def vips(self, *words: str) -> str:
        return subprocess.run(words, cwd=self.room, check=True, capture_output=True, text=True).stdout

    def fields(self, name: str) -> dict[str, str]:
        """What vips tells of a file."""
        return dict(re.findall(r"^([\w-]+): (.*)$", self.vips("vipsheader", "-a", name), re.M))

    def profile(self, name: str) -> bytes:
        return base64.b64decode(self.vips("vipsheader", "-f", "icc-profile-data", name))

    def text(self, name: str, field: str) -> bytes:
        return base64.b64decode(self.vips("vipsheader", "-f", field, name))

    def given(self, form: str, orientation: int = 1) -> str:
        """A picture with a profile that vips knows, EXIF and a resolution."""
        self.write("c.ppm", COLOURS.raw())
        words = "[Q=95,profile=srgb,subsample_mode=on]" if form == "jpg" else "[profile=srgb]" if form != "webp" else "[lossless,profile=srgb]"
        self.vips("vips", "copy", "c.ppm", f"plain.{form}{words}", "--xres", f"{300 / 25.4}", "--yres", f"{150 / 25.4}")
        with open(f"{self.room}/plain.{form}", "rb") as file:
            data = file.read()
        found = metadata.read(data)._replace(exif=exif(">" if form == "jpg" else "<", orientation), resolution=(150, 300))
        self.write(f"given.{form}", metadata.put_into(data, found))
        return f"given.{form}"

    @wants_vips
    def test_profiles_and_resolutions_go_from_each_format_to_each(self):
        for source in FORMATS:
            given = self.given(source)
            wanted = self.profile(given)
            self.assertGreater(len(wanted), 400)
            for form in FORMATS:
                with self.subTest(source, to=form):
                    self.assertEqual(self.tf(f"eval c.pipe {given} -o made.{form}"), (0, b"", ""))
                    self.assertEqual(self.profile(f"made.{form}"), wanted)
                    if form != "webp":
                        found = self.fields(f"made.{form}")
                        self.assertEqual([round(25.4 * float(found[it])) for it in ("xres", "yres")], [300, 150])

    @wants_vips
    def test_exif_is_kept_and_fits_the_result(self):
        self.write("half.pipe", COPY_COLOURS.replace("[0 .. R-1]", "[0 .. H-1]").replace("image", "param H; # R / 2\nimage").encode())
        for source, orientation in (("jpg", 1), ("png", 1), ("webp", 1), ("jpg", 6)):
            given = self.given(source, orientation)
            for form in ("jpg", "png", "webp"):
                with self.subTest(source, to=form, orientation=orientation):
                    self.assertEqual(self.tf(f"eval half.pipe {given} -o made.{form}"), (0, b"", ""))
                    found = self.fields(f"made.{form}")
                    self.assertTrue(found["exif-ifd0-Make"].startswith("Maker "))
                    self.assertEqual(found["exif-ifd0-Orientation"][0], "1")
                    rows, cols = (ROWS // 2, COLS) if orientation == 1 else (COLS // 2, ROWS)
                    self.assertEqual((found["height"], found["width"]), (str(rows), str(cols)))
                    sides = tuple(found[f"exif-ifd2-Pixel{it}Dimension"].split()[0] for it in "YX")
                    self.assertEqual(sides, (str(rows), str(cols)))

    @wants_vips
    def test_what_is_stripped_and_what_does_not_fit(self):
        given = self.given("jpg")
        for form in FORMATS:
            self.assertEqual(self.tf(f"eval c.pipe {given} -o made.{form} --strip"), (0, b"", ""))
            found = self.fields(f"made.{form}")
            self.assertNotIn("icc-profile-data", found)
            self.assertNotIn("exif-ifd0-Make", found)
        status, _, told = self.tf(f"eval p.pipe {given} --grey -o made.png")
        self.assertEqual((status, told), (0, "tf: made.png: its colour profile (RGB) does not fit grey, and is left out\n"))
        self.assertNotIn("icc-profile-data", self.fields("made.png"))

    @wants_vips
    def test_xmp_and_iptc_go_where_they_have_a_place(self):
        data = self.content(self.given("jpg", 6))
        texts = b"".join(struct.pack(">BBH", 0xFF, marker, len(body) + 2) + body for marker, body in ((0xE1, XMP), (0xED, BLOCKS)))
        self.write("given.jpg", data[:2] + texts + data[2:])
        self.assertEqual((self.text("given.jpg", "xmp-data"), self.text("given.jpg", "iptc-data")), (XMP.partition(b"\0")[2], BLOCKS))
        upright = XMP.partition(b"\0")[2].replace(b'Orientation="6"', b'Orientation="1"')
        for first in FORMATS:
            self.assertEqual(self.tf(f"eval c.pipe given.jpg -o first.{first}"), (0, b"", ""))
            for form in FORMATS:
                with self.subTest(first, to=form):
                    self.assertEqual(self.tf(f"eval c.pipe first.{first} -o made.{form}"), (0, b"", ""))
                    self.assertEqual(self.text(f"made.{form}", "xmp-data"), upright)
                    if {first, form} <= {"jpg", "tif"}:
                        self.assertIn(IPTC, self.text(f"made.{form}", "iptc-data"))
        self.assertEqual(self.tf("eval c.pipe given.jpg -o made.jpg --strip"), (0, b"", ""))
        self.assertEqual({"xmp-data", "iptc-data"} & {*self.fields("made.jpg")}, set())

    @wants_vips
    def test_no_resolution_is_made_up(self):
        self.write("g.pgm", GREY.raw())
        for form in FORMATS:
            self.assertEqual(self.tf(f"eval p.pipe g.pgm -o made.{form}"), (0, b"", ""))
            self.assertEqual(metadata.read(self.content(f"made.{form}"))[:3], (b"", b"", None))

    @wants_vips
    def test_quality_and_chroma(self):
        given = self.given("jpg")
        self.vips("vips", "copy", "c.ppm", "whole.jpg[Q=95,subsample_mode=off]")
        for source, chroma in ((given, "4:2:0"), ("whole.jpg", "4:4:4")):
            for words in ("", " --quality 50", " --quality 99"):
                self.assertEqual(self.tf(f"eval c.pipe {source} -o made.jpg{words}"), (0, b"", ""))
                self.assertEqual(self.fields("made.jpg")["jpeg-chroma-subsample"], chroma)
        sizes = []
        for quality in (10, 50, 90):
            self.tf(f"eval c.pipe whole.jpg -o made.jpg --quality {quality}")
            self.tf(f"eval c.pipe whole.jpg -o made.webp --quality {quality}")
            sizes.append((len(self.content("made.jpg")), len(self.content("made.webp"))))
        self.assertEqual(sizes, sorted(sizes))
        self.refused("eval c.pipe c.ppm -o o.jpg --quality 101", 1, "from 1 to 100")
        self.refused("eval c.pipe c.ppm -o o.png --quality 50", 1, "goes with JPEG and WebP")

    @wants_vips
    def test_results_by_parts_and_of_batches(self):
        given = self.given("jpg")
        wanted = self.profile(given)
        self.assertEqual(self.tf(f"eval c.pipe {given} --parts 9 -o parts.jpg"), (0, b"", ""))
        self.assertEqual(self.tf(f"eval c.pipe {given} given.jpg -o batch/{{name}}.jpg")[0], 1)
        self.assertEqual(self.tf(f"eval c.pipe {given} -o batch/{{name}}.jpg"), (0, b"", ""))
        for made in ("parts.jpg", "batch/given.jpg"):
            self.assertEqual((self.profile(made), self.fields(made)["exif-ifd0-Make"][:6]), (wanted, "Maker "))

    def test_png_to_png_without_vips(self):
        found = Metadata(exif("<", 1), bytes(16) + b"RGB " + bytes(300), (150.0, 300.0))
        self.write("given.png", metadata.with_png(png.write(COLOURS)[0], found))
        self.assertEqual(self.tf("eval c.pipe given.png -o made.png"), (0, b"", ""))
        made = metadata.read(self.content("made.png"))
        self.assertEqual((made.profile, [round(it) for it in made.resolution]), (found.profile, [150, 300]))
        self.assertEqual(png.read(self.content("made.png"), "")[0], COLOURS)
        self.assertEqual(made.exif, metadata.for_result(found.exif, ROWS, COLS))
        self.assertEqual(metadata.first_directory(made.exif).value(0x112), 1)

    def test_frames_keep_what_they_say(self):
        found = Metadata(exif("<", 1), bytes(16) + b"RGB " + bytes(300), (150.0, 300.0))
        for number, profile in ((1, found.profile), (2, b"")):
            self.write(f"f{number}.png", metadata.with_png(png.write(COLOURS)[0], found._replace(profile=profile)))
        self.assertEqual(self.tf("frames c.pipe f%d.png -o g%d.png --jobs 2"), (0, b"", ""))
        for number, profile in ((1, found.profile), (2, b"")):
            made = metadata.read(self.content(f"g{number}.png"))
            self.assertEqual((made.profile, made.exif), (profile, metadata.for_result(found.exif, ROWS, COLS)))
            self.assertEqual(png.read(self.content(f"g{number}.png"), "")[0], COLOURS)
        self.assertEqual(self.tf("frames c.pipe f%d.png -o s%d.png --strip"), (0, b"", ""))
        self.assertEqual(metadata.read(self.content("s1.png")), Metadata())
        self.refused("frames c.pipe f%d.png -o s%d.png --quality 9", 1, "goes with JPEG and WebP")

    @wants_vips
    def test_frames_of_other_formats(self):
        given = self.given("jpg")
        self.write("f1.jpg", self.content(given))
        sizes = []
        for words in ("", " --quality 20"):
            for form in ("jpg", "webp"):
                self.assertEqual(self.tf(f"frames c.pipe f%d.jpg -o g%d.{form}{words}"), (0, b"", ""))
                self.assertEqual((self.profile(f"g1.{form}"), self.fields(f"g1.{form}")["exif-ifd0-Make"][:6]), (self.profile(given), "Maker "))
                sizes.append(len(self.content(f"g1.{form}")))
        self.assertLess(sizes[2:], sizes[:2])

    def test_what_is_damaged_says_nothing(self):
        for data in (b"", b"\xff\xd8\xff", b"\xff\xd8\xff\xe1\0\x09Exif\0", b"II*\0", b"II*\0\xff\xff\xff\0", b"RIFF\0\0\0\0WEBPEXIF\xff\xff\0\0", b"\x89PNG\r\n\x1a\n" + bytes(8),
                     b"\x89PNG\r\n\x1a\n" + struct.pack(">I4s", 4, b"iCCP") + b"a\0\0b" + bytes(4)):
            with self.subTest(data):
                self.assertEqual(metadata.read(data)[:3], (b"", b"", None))
        self.assertEqual(metadata.for_result(b"II*\0\xff\xff\xff\0", 1, 1), b"")
