"""Tests of examples/own, programs for the user's own pictures, by plain sums over random ones."""
import os
import random
from bisect import bisect_right
from typing import Callable

from .shared import TOP, InRoom, content

from _tf import netpbm, png
from _tf.play_examples import EXAMPLES, Example

OWN = f"{TOP}/examples/own"
Rows = list[list[int]]
Planes = Callable[[list[Rows], int], list[Rows]]


def at(rows: Rows, x: int, y: int) -> int:
    """A sample; beyond the border it is repeated."""
    return rows[min(max(x, 0), len(rows) - 1)][min(max(y, 0), len(rows[0]) - 1)]


def each(count_rows: int, count_cols: int, value) -> Rows:
    return [[value(x, y) for y in range(count_cols)] for x in range(count_rows)]


def soft(rows: Rows) -> Rows:
    weights = ((1, 2, 1), (2, 4, 2), (1, 2, 1))

    def value(x: int, y: int) -> int:
        return sum(weights[a][b] * at(rows, x + a - 1, y + b - 1) for a in range(3) for b in range(3)) // 16

    return each(len(rows), len(rows[0]), value)


def sharpen(rows: Rows, most: int) -> Rows:
    softened = soft(rows)
    return each(len(rows), len(rows[0]), lambda x, y: min(max(2 * rows[x][y] - softened[x][y], 0), most))


def squares(rows: Rows) -> Rows:
    """The sum of each square of two by two points; a last row or column without a second counts twice."""
    def value(x: int, y: int) -> int:
        return sum(at(rows, 2 * x + a, 2 * y + b) for a in range(2) for b in range(2))

    return each((len(rows) + 1) // 2, (len(rows[0]) + 1) // 2, value)


def divided(rows: Rows, by: int) -> Rows:
    return [[it // by for it in row] for row in rows]


def thumbnail(rows: Rows) -> Rows:
    return divided(squares(squares(squares(rows))), 64)


def doubled(rows: Rows, count_rows: int, count_cols: int) -> Rows:
    """Twice as many rows and columns, as far as they are wanted: a new point lies a quarter of the way from one old point to the next, first
    down and then across."""
    def between(near: int, far: int) -> int:
        return (3 * near + far) // 4

    down = each(count_rows, len(rows[0]), lambda x, y: between(at(rows, x // 2, y), at(rows, x // 2 + (1 if x % 2 else -1), y)))
    # (a column beyond the border is made of the border as it was before, which is the same)
    return each(count_rows, count_cols, lambda x, y: between(at(down, x, y // 2), at(down, x, y // 2 + (1 if y % 2 else -1))))


def wide_blur(rows: Rows) -> Rows:
    half = divided(squares(rows), 4)
    fourth = divided(squares(half), 4)
    found = soft(divided(squares(fourth), 4))
    for larger in (fourth, half, rows):
        found = doubled(found, len(larger), len(larger[0]))
    return found


def background(rows: Rows) -> Rows:
    blurred = wide_blur(rows)
    return each(len(rows), len(rows[0]), lambda x, y: max(rows[x][y] - blurred[x][y], 0))


def looked_up(curve: list[int], sample: int, most: int) -> float:
    """What a curve of 256 entries gives for a sample, by straight lines between the entries."""
    place = sample * 255 / most
    level = int(place)
    return (curve[level] + (place - level) * (curve[min(level + 1, 255)] - curve[level])) * most / 255


def toned(rows: Rows, most: int) -> Rows:
    return [[round(looked_up(CURVE, it, most)) for it in row] for row in rows]


def grey(planes: list[Rows]) -> Rows:
    if len(planes) == 1:
        return planes[0]
    red, green, blue = planes
    return each(len(red), len(red[0]), lambda x, y: (299 * red[x][y] + 587 * green[x][y] + 114 * blue[x][y] + 500) // 1000)


def equalised(planes: list[Rows], most: int) -> list[Rows]:
    """Each brightness becomes the share of points that are not brighter, in 256 levels; so much is added to each colour of a point."""
    brightness = grey(planes)
    every = sorted(it * 255 // most for row in brightness for it in row)
    curve = [int(255 * bisect_right(every, level) / len(every) + 0.5) for level in range(256)]
    more = [[round(looked_up(curve, it, most)) - it for it in row] for row in brightness]
    return [each(len(plane), len(plane[0]), lambda x, y: min(max(plane[x][y] + more[x][y], 0), most)) for plane in planes]


def of_planes(value: Callable[..., Rows], *takes_most: bool) -> Planes:
    return lambda planes, most: [value(it, most) if takes_most else value(it) for it in planes]


# through these points: darker shadows, brighter lights
CURVE = [int(it + 0.5) for it in [*(x * 40 / 64 for x in range(64)), *(40 + (x - 64) * 180 / 128 for x in range(64, 192)),
                                  *(220 + (x - 192) * 35 / 63 for x in range(192, 256))]]
WANTED = {"sharpen": of_planes(sharpen, True), "thumbnail": of_planes(thumbnail), "wide_blur": of_planes(wide_blur),
          "background": of_planes(background), "tone": of_planes(toned, True), "equal": equalised}
OF_EIGHTHS = ("thumbnail", "wide_blur", "background")
BYTES, DEEP = 255, 65535
# one that counts samples, and one whose thresholds a person sets on a page
NO_PICTURE = ("histogram", "edges")


class OwnPictures(InRoom):
    def planes(self, count: int, rows: int = 24, cols: int = 16, most: int = BYTES) -> list[Rows]:
        chance = random.Random(5)
        return [each(rows, cols, lambda x, y: chance.choice((0, most, chance.randrange(most + 1)))) for _ in range(count)]

    def written(self, line: str) -> bytes:
        status, written, told = self.tf(line)
        self.assertEqual((status, told), (0, ""))
        return written

    def words(self, name: str, ending: str) -> str:
        """The words behind the program and the picture: the table, which is made of the picture for an equalised one."""
        if name == "tone":
            return f"--table {OWN}/tone.table"
        if name == "equal":
            self.write("counts.txt", self.written(f"eval {OWN}/counts{ending}.pipe in.pnm"))
            self.write("equal.table", self.written("table sums equal counts.txt --to 255"))
            return "--table equal.table"
        return ""

    def shown(self, name: str, planes: list[Rows], most: int = BYTES) -> list[Rows]:
        """The planes of a program's result, which has the picture's greatest sample."""
        rows, ending = planes[0], "" if len(planes) == 1 else "_colours"
        points = [plane[x][y] for x in range(len(rows)) for y in range(len(rows[0])) for plane in planes]
        picture = netpbm.Picture(len(rows[0]), len(rows), len(planes), most, netpbm.bytes_of(points, most))
        self.write("in.pnm", picture.raw())
        written = self.written(f"eval {OWN}/{name}{ending}.pipe in.pnm {self.words(name, ending)} --rows 7 --cols 5")
        picture = netpbm.picture_of(written)[0]
        self.assertEqual(picture.most, most)
        samples, width = list(picture.samples()), picture.cols * picture.parts
        return [[samples[at + part : at + width : picture.parts] for at in range(0, len(samples), width)] for part in range(picture.parts)]

    def test_each_program_has_its_test(self):
        every = {f"{name}{ending}.pipe" for name in (*WANTED, "counts") for ending in ("", "_colours")}
        self.assertEqual({it for it in os.listdir(OWN) if it.endswith(".pipe")}, every)

    def test_grey_and_colours_are_what_plain_sums_give(self):
        for name, wanted in WANTED.items():
            for count in (1, 3):
                with self.subTest(name, planes=count):
                    planes = self.planes(count)
                    self.assertEqual(self.shown(name, planes), wanted(planes, BYTES))

    def test_sides_that_are_no_multiples_of_eight(self):
        for rows, cols in ((37, 29), (1, 9), (300, 400)):
            for name in OF_EIGHTHS:
                for count in (1, 3) if rows < 300 else (1,):
                    with self.subTest(name, rows=rows, cols=cols, planes=count):
                        planes = self.planes(count, rows, cols)
                        self.assertEqual(self.shown(name, planes), WANTED[name](planes, BYTES))

    def test_pictures_of_sixteen_bits_keep_them(self):
        """Curves of 256 entries are read between the entries, by steps of a 128th: so near to straight lines they come."""
        for name, wanted in WANTED.items():
            for count in (1, 3):
                with self.subTest(name, planes=count):
                    planes = self.planes(count, most=DEEP)
                    pairs = zip(self.shown(name, planes, DEEP), wanted(planes, DEEP))
                    off = max(abs(one - other) for found, right in pairs for row, line in zip(found, right) for one, other in zip(row, line))
                    self.assertLessEqual(off, {"tone": 5, "equal": 400}.get(name, 0))

    def test_ready_programs_keep_sixteen_bits(self):
        """Each sample of a picture is 257 times as great. So is the result's, but for what is rounded and compared more finely."""
        for example in (it for it in EXAMPLES if it.name not in NO_PICTURE):
            with self.subTest(example.name):
                picture = png.read(content(f"{TOP}/{example.picture}"), example.picture)[0]
                raster = bytes(it for sample in picture.raster for it in (sample, sample))
                self.write("in.pnm", picture.raw())
                self.write("deep.pnm", netpbm.Picture(picture.cols, picture.rows, picture.parts, DEEP, raster).raw())
                table = f"--table {TOP}/{example.tables}" if example.tables else ""
                shallow, found = (self.result(example, f"eval {TOP}/{example.program} {it}.pnm {table}") for it in ("in", "deep"))
                self.assertEqual((found.most, found.rows, found.cols), (DEEP, shallow.rows, shallow.cols))
                off = sum(abs(one - 257 * other) for one, other in zip(found.samples(), shallow.samples())) / 257 / len(shallow.raster)
                self.assertLess(off, {"local_contrast": 4, "unsharp": 4}.get(example.name, 1.1))

    def result(self, example: Example, line: str) -> netpbm.Picture:
        """What a ready program makes; of unsharp alone more is cut than is told, at sharp edges."""
        status, written, told = self.tf(line)
        self.assertEqual((status, bool(told)), (0, example.name == "unsharp"), told)
        return netpbm.picture_of(written)[0]

    def test_an_even_picture_has_no_frame(self):
        for name, value in (("sharpen", 77), ("wide_blur", 77), ("background", 0), ("thumbnail", 77), ("tone", CURVE[77]), ("equal", 255)):
            for count in (1, 3):
                with self.subTest(name, planes=count):
                    for plane in self.shown(name, [each(27, 18, lambda x, y: 77)] * count):
                        self.assertEqual({it for row in plane for it in row}, {value})

    def test_local_contrast_has_no_frame(self):
        # 77 / 2 + 64, since each point is its own mean
        self.write("even.pgm", b"P5 23 24 255 " + bytes([77]) * (23 * 24))
        picture = netpbm.picture_of(self.written(f"eval {TOP}/docs/gallery/local_contrast.pipe even.pgm"))[0]
        self.assertEqual((picture.rows, picture.cols, set(picture.raster)), (24, 23, {102}))

    def test_a_gradient_has_no_jump_at_the_border(self):
        """Neighbours differ at most by twice what they do in the picture, which rises by one a row or by two a column."""
        slopes = (each(64, 48, lambda x, y: 60 + x), each(64, 48, lambda x, y: 160 - 2 * y), each(64, 48, lambda x, y: 40 + x + 2 * y))
        for name in WANTED:
            for planes in ([slopes[0]], [slopes[1]], [slopes[2]], [*slopes]):
                with self.subTest(name, planes=len(planes)):
                    most = 32 if name == "thumbnail" else 8 if name == "equal" else 4
                    self.assertLessEqual(max(map(steepest, self.shown(name, planes))), most)

    def test_the_stored_curve_is_what_tf_makes(self):
        with open(f"{OWN}/tone.table", "rb") as file:
            self.assertEqual(self.written("table points tone 0,0 64,40 192,220 255,255"), file.read())


def steepest(rows: Rows) -> int:
    """By how much neighbours differ at most."""
    across = (abs(one - other) for row in rows for one, other in zip(row, row[1:]))
    return max(*across, *(abs(one - other) for above, row in zip(rows, rows[1:]) for one, other in zip(above, row)))
