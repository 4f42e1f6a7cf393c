"""The programs of examples/python, each compared with the same by numpy, and with OpenCV where that is installed and computes the same."""
import importlib.util
import os
import unittest

import numpy as np
from numpy.testing import assert_array_equal

from .shared import TOP, picture

FOLDER = f"{TOP}/examples/python"
has_opencv = importlib.util.find_spec("cv2") is not None
if has_opencv:
    import cv2


def example(name: str):
    """The module of an example."""
    spec = importlib.util.spec_from_file_location(f"example_{name}", f"{FOLDER}/{name}.py")
    found = importlib.util.module_from_spec(spec)
    spec.loader.exec_module(found)
    return found


def scene(*shape: int, seed: int = 3) -> np.ndarray:
    """A picture with slopes, a bright square, a disc and noise."""
    rows, cols = np.indices(shape[:2])
    base = rows * 2 + cols + 90 * ((rows // 9 + cols // 7) % 2) + 60 * ((rows - 15) ** 2 + (cols - 20) ** 2 < 90)
    noise = np.random.default_rng(seed).integers(0, 12, shape)
    return np.clip((base if len(shape) == 2 else base[..., None] + np.array([0, 25, -30])) + noise, 0, 255).astype(np.uint8)


def around(a: np.ndarray, reach: int, mode: str, **more) -> dict[tuple[int, int], np.ndarray]:
    """A picture moved by each step up to `reach`, with a border of numpy's."""
    padded, (rows, cols) = np.pad(a.astype(np.int64), reach, mode, **more), a.shape
    steps = range(-reach, reach + 1)
    return {(i, j): padded[reach + i:reach + i + rows, reach + j:reach + j + cols] for i in steps for j in steps}


def weighted(a: np.ndarray, weights: list[int], mode: str) -> np.ndarray:
    """The sum by weights down and across."""
    reach = len(weights) // 2
    return sum(weights[i + reach] * weights[j + reach] * it for (i, j), it in around(a, reach, mode).items())


def gradient(a: np.ndarray, mode: str) -> tuple[np.ndarray, np.ndarray]:
    """Sobel's derivatives, down and across."""
    p = around(a, 1, mode)
    down = p[1, -1] + 2 * p[1, 0] + p[1, 1] - p[-1, -1] - 2 * p[-1, 0] - p[-1, 1]
    return down, p[-1, 1] + 2 * p[0, 1] + p[1, 1] - p[-1, -1] - 2 * p[0, -1] - p[1, -1]


def halved(a: np.ndarray) -> np.ndarray:
    return (weighted(a, [1, 4, 6, 4, 1], "reflect")[::2, ::2] + 128) // 256


def doubled(a: np.ndarray, rows: int, cols: int) -> np.ndarray:
    """Zeros between the points, then weights 1 4 6 4 1 of a mirrored picture, as each point has four of them."""
    wide = np.pad(a.astype(np.int64), 2, "reflect" if min(a.shape) > 2 else "symmetric")
    spread = np.zeros((2 * wide.shape[0], 2 * wide.shape[1]), np.int64)
    spread[::2, ::2] = wide
    return ((weighted(spread, [1, 4, 6, 4, 1], "constant") + 32) // 64)[4:4 + rows, 4:4 + cols]


class Expected:
    """What each example gives, by numpy."""

    soften = staticmethod(lambda a: weighted(a, [1, 4, 6, 4, 1], "reflect") // 256)
    mean = staticmethod(lambda a: weighted(a, [1] * 9, "edge") // 81)
    edges = staticmethod(lambda a: np.maximum(*map(abs, gradient(a, "reflect"))))
    tone = staticmethod(lambda a: np.round(255 * (a / 255) ** (1 / 2.2)).astype(int))
    grey = staticmethod(lambda a: (a.astype(int) @ [299, 587, 114] + 500) // 1000)
    halve = staticmethod(halved)
    double = staticmethod(lambda a: doubled(a, 2 * a.shape[0], 2 * a.shape[1]))
    median = staticmethod(lambda a: np.median([*around(a, 1, "edge").values()], axis=0).astype(int))
    adaptive = staticmethod(lambda a: np.where(121 * (a.astype(int) + 7) > weighted(a, [1] * 11, "edge"), 255, 0))
    background = staticmethod(lambda a: 128 + a.astype(int) - sum(around(a, 14, "wrap").values()) // 841)

    @staticmethod
    def canny(a: np.ndarray) -> np.ndarray:
        down, across = gradient(a, "edge")
        steep = abs(down) + abs(across)
        near = around(steep, 1, "constant")
        tall, wide = abs(down), abs(across)
        step = np.select([32768 * tall <= 13573 * wide, 32768 * wide <= 13573 * tall, down * across >= 0], [0, 1, 2], 3)
        is_ridge = np.choose(step, [(steep > near[-i, -j]) & (steep >= near[i, j]) for i, j in ((0, 1), (1, 0), (1, 1), (1, -1))])
        ridge = np.where(is_ridge, steep, 0)
        strong, weak = ridge > 150, ridge > 60
        for _ in range(4):
            strong = strong | (weak & (np.max([*around(strong, 1, "constant").values()], axis=0) > 0))
        return np.where(strong, 255, 0)

    @staticmethod
    def unsharp(a: np.ndarray) -> np.ndarray:
        detail = a.astype(int) - weighted(a, [1, 4, 6, 4, 1], "reflect") // 256
        return np.where(abs(detail) > 4, a + 3 * detail // 2, a)

    @staticmethod
    def local_contrast(a: np.ndarray) -> np.ndarray:
        near = [*around(a, 7, "edge").values()]
        low, high = np.min(near, axis=0), np.max(near, axis=0)
        return 255 * (a - low) // np.maximum(high - low, 32)

    @staticmethod
    def demosaic(a: np.ndarray) -> np.ndarray:
        p = around(a, 1, "reflect")
        here, beside, above = p[0, 0], (p[0, -1] + p[0, 1]) // 2, (p[-1, 0] + p[1, 0]) // 2
        corners, cross = (p[-1, -1] + p[-1, 1] + p[1, -1] + p[1, 1]) // 4, (p[-1, 0] + p[1, 0] + p[0, -1] + p[0, 1]) // 4
        rows, cols = np.indices(a.shape) % 2
        red = np.choose(2 * rows + cols, [here, beside, above, corners])
        green = np.choose(2 * rows + cols, [cross, here, here, cross])
        return np.stack([red, green, np.choose(2 * rows + cols, [corners, above, beside, here])], axis=2)

    @staticmethod
    def closing(a: np.ndarray) -> np.ndarray:
        wider = np.max([*around(a, 1, "edge").values()], axis=0)
        return np.min([*around(wider, 1, "edge").values()], axis=0)

    @staticmethod
    def tone_map(a: np.ndarray) -> np.ndarray:
        base = weighted(a, [1, 2, 3, 4, 3, 2, 1], "edge") // 256
        return np.round(255 * np.sqrt((base >> 4) / 4095)).astype(int) + (a - base) // 256

    @staticmethod
    def pyramid_blend(a: np.ndarray) -> np.ndarray:
        levels = [[plane] for plane in np.moveaxis(a.astype(int), 2, 0)]
        for it in levels:
            it += [halved(it[0]), halved(halved(it[0]))]
        details = [[fine - doubled(coarse, *fine.shape) for fine, coarse in zip(it, it[1:])] + it[2:] for it in levels[:2]]
        total = np.zeros_like(levels[0][2])
        for level in (2, 1, 0):
            one, other, mask = details[0][level], details[1][level], levels[2][level]
            larger = doubled(total, *mask.shape) if level < 2 else 0
            total = (one * mask + other * (255 - mask)) // 255 + larger
        return total

    @staticmethod
    def bilateral(a: np.ndarray) -> np.ndarray:
        near = np.outer([1, 2, 3, 2, 1], [1, 2, 3, 2, 1])
        every = [(near[i + 2, j + 2] * np.round(16 * np.exp(-(abs(it - a) / 25) ** 2 / 2)), it) for (i, j), it in around(a, 2, "reflect").items()]
        return (sum(weight * it for weight, it in every) // sum(weight for weight, _ in every)).astype(int)

    @staticmethod
    def harris(a: np.ndarray) -> np.ndarray:
        # (what is beyond the border is the derivative of the mirrored picture: of one that is mirrored widely, and cut in the end)
        down, across = (it // 8 for it in gradient(np.pad(a, 4, "reflect"), "edge"))

        def summed(product: np.ndarray) -> np.ndarray:
            return sum(around(product, 1, "edge").values())[4:-4, 4:-4] // 16

        dd, aa, da = summed(down * down), summed(across * across), summed(down * across)
        response = dd * aa - da * da - (dd + aa) ** 2 // 16
        return np.where(response > 1000, np.minimum(response // 1000, 255), 0)

    @staticmethod
    def sepia(a: np.ndarray) -> np.ndarray:
        return a.astype(int) @ np.array([[393, 769, 189], [349, 686, 168], [272, 534, 131]]).T // 1000

    @staticmethod
    def sharpen_colours(a: np.ndarray) -> np.ndarray:
        near = [around(a[..., at], 1, "reflect") for at in range(3)]
        return np.stack([2 * p[0, 0] - (p[-1, 0] + p[1, 0] + p[0, -1] + p[0, 1]) // 4 for p in near], axis=2)

    @staticmethod
    def vignette(a: np.ndarray) -> np.ndarray:
        down, across = (abs(2 * it - count + 1) for it, count in zip(np.indices(a.shape), a.shape))
        return a * np.maximum(256 - np.maximum(down, across) // 4, 64) // 256


COLOURS = ("grey", "sepia", "sharpen_colours", "pyramid_blend")
# a quotient by a table of reciprocals may be one too great
NEARLY = ("local_contrast", "bilateral")


class StoredExamples(unittest.TestCase):
    """One test for each example, made below."""

    def given(self, name: str, shape: tuple[int, int]) -> list[np.ndarray]:
        planes = (3,) if name in COLOURS else ()
        wide = [scene(*shape).astype(np.uint16) * 257] if name == "tone_map" else []
        return wide or [scene(*shape, *planes), picture(*shape, *planes)]

    def test_equalise(self):
        module, a = example("equalise"), scene(50, 60)
        counts = module.counts.run(a).totals["counts"]
        assert_array_equal(counts.values, np.bincount(a.ravel(), minlength=256))
        sums = np.cumsum(counts.values)
        assert_array_equal(module.equal(counts).run(a).image, (255 * sums // sums[-1])[a])

    def test_each_example_has_its_test(self):
        named = {it.removesuffix(".py") for it in os.listdir(FOLDER) if it.endswith(".py")}
        self.assertEqual(named, {it for it in vars(Expected) if it[0] != "_"} | {"equalise", "notebook"})
        self.assertGreaterEqual(len(named), 20)


def compared(name: str):
    def test(self: StoredExamples) -> None:
        program = example(name).program
        for shape in ((40, 53), (33, 30)):
            for a in self.given(name, shape):
                wanted, found = np.clip(getattr(Expected, name)(a), 0, program.most), program.run(a).image
                if name in NEARLY:
                    self.assertLessEqual(set(np.unique(found.astype(int) - wanted)), {0, 1})
                else:
                    assert_array_equal(found, wanted)

    return test


for NAME in [it for it in vars(Expected) if it[0] != "_"]:
    setattr(StoredExamples, f"test_{NAME}", compared(NAME))


@unittest.skipUnless(has_opencv, "this Python has no OpenCV (Debian's python3-opencv)")
class BesideOpenCV(unittest.TestCase):
    """Examples that OpenCV computes exactly so."""

    def same(self, name: str, by_opencv, *planes: int) -> None:
        for shape in ((40, 53), (33, 30)):
            a = scene(*shape, *planes)
            assert_array_equal(example(name).program.run(a).image, by_opencv(a))

    def test_halve(self):
        self.same("halve", cv2.pyrDown)

    def test_median(self):
        self.same("median", lambda a: cv2.medianBlur(a, 3))

    def test_closing(self):
        self.same("closing", lambda a: cv2.morphologyEx(a, cv2.MORPH_CLOSE, np.ones((3, 3), np.uint8)))

    def test_edges(self):
        def edges(a: np.ndarray) -> np.ndarray:
            return np.minimum(np.maximum(abs(cv2.Sobel(a, cv2.CV_64F, 0, 1)), abs(cv2.Sobel(a, cv2.CV_64F, 1, 0))), 255)

        self.same("edges", edges)

    def test_tone(self):
        curve = np.round(255 * (np.arange(256) / 255) ** (1 / 2.2)).astype(np.uint8)
        self.same("tone", lambda a: cv2.LUT(a, curve))

    def test_soften(self):
        kernel = np.array([1, 4, 6, 4, 1], float)
        self.same("soften", lambda a: np.floor(cv2.sepFilter2D(a, cv2.CV_64F, kernel, kernel) / 256))

    def test_mean(self):
        self.same("mean", lambda a: cv2.boxFilter(a, cv2.CV_32S, (9, 9), normalize=False, borderType=cv2.BORDER_REPLICATE) // 81)
