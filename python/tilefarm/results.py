"""What a run gives: a picture as an array, and the totals of accumulators."""
from __future__ import annotations

import base64
import html
from dataclasses import dataclass, field

import numpy as np

from ._tf import png
from ._tf.netpbm import Picture
from .errors import TilefarmError
from .pictures import Array, Samples, picture_in


@dataclass(frozen=True)
class Totals:
    """The bins of an accumulator: `values` in int64, of which the first has the number `first`."""

    first: int
    values: Array

    def __getitem__(self, bin_number: int) -> int:
        """The value of a bin by its number. Raises IndexError outside the bins."""
        at = bin_number - self.first
        if not 0 <= at < len(self.values):
            raise IndexError(f"the bins are {self.first} to {self.first + len(self.values) - 1}, and {bin_number} is none of them")
        return int(self.values[at])


@dataclass(frozen=True)
class Result:
    """What a program gives for an array.

    `image` is (H, W), or (H, W, 3) where the output names three functions, in uint8, or in uint16 where its greatest sample is above 255.
    `totals` has the bins of each accumulator by name. `seconds` is the time of the processes that ran.
    """

    _image: Array | None
    totals: dict[str, Totals] = field(default_factory=dict)
    seconds: float = 0.0

    @property
    def image(self) -> Array:
        """The picture. Raises TilefarmError where the program has no output."""
        if self._image is None:
            raise TilefarmError("the program has no output, and so no picture: its accumulators are in .totals")
        return self._image

    @property
    def has_image(self) -> bool:
        return self._image is not None

    def _repr_html_(self) -> str:
        """The picture for a notebook, and the accumulators."""
        picture = [] if self._image is None else [f'<img src="data:image/png;base64,{base64.b64encode(png_of(self._image)).decode()}">']
        totals = [f"{name} {it.first}..{it.first + len(it.values) - 1}: {it.values}" for name, it in self.totals.items()]
        return "\n".join([*picture, f"<pre>{html.escape(chr(10).join(totals))}</pre>"])


def png_of(image: Array) -> bytes:
    """An array of samples as the bytes of a PNG."""
    samples = Samples(image)
    rows, cols = samples.shape
    data, _ = png.write(Picture(cols, rows, samples.planes, samples.most, samples.raster().tobytes()))
    return data


def result_of(written: bytearray, seconds: float) -> Result:
    """The result that a run of `eval` wrote."""
    found = picture_in(written)
    image, lines = found if found else (None, written)
    return Result(image, totals_in(bytes(lines)), seconds)


def totals_in(lines: bytes) -> dict[str, Totals]:
    """The bins of the lines NAME LO..HI: V V V."""
    found = {}
    for line in lines.decode("ascii").splitlines():
        head, _, numbers = line.partition(":")
        name, _, ends = head.partition(" ")
        found[name] = Totals(int(ends.partition("..")[0]), np.array(numbers.split(), dtype=np.int64))
    return found
