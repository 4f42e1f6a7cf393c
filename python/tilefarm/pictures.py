"""Arrays as pictures, and pictures as arrays."""
from __future__ import annotations

from typing import Any, NamedTuple

import numpy as np
import numpy.typing as npt

from ._tf.netpbm import Picture, header_of
from .errors import Refused

Array = npt.NDArray[Any]
Shape = tuple[int, int]
MOST_SAMPLE = 65535


class Samples(NamedTuple):
    """An array as a picture: `array` is (H, W) or (H, W, 3) in uint8, or in uint16."""

    array: Array

    @classmethod
    def zeros(cls, shape: Shape, planes: int, most: int) -> "Samples":
        """A black picture."""
        return cls(np.zeros(shape if planes == 1 else (*shape, planes), np.uint8 if most < 256 else np.uint16))

    @property
    def shape(self) -> Shape:
        return self.array.shape[0], self.array.shape[1]

    @property
    def planes(self) -> int:
        return 1 if self.array.ndim == 2 else 3

    @property
    def most(self) -> int:
        return 255 if self.array.dtype == np.uint8 else MOST_SAMPLE

    def head(self) -> bytes:
        """The head of the raw picture."""
        return head_of(self.shape, self.planes, self.most)

    def raster(self) -> memoryview:
        """The samples of the raw picture, the most significant byte first."""
        contiguous = np.ascontiguousarray(self.array if self.array.dtype == np.uint8 else self.array.astype(">u2"))
        return contiguous.reshape(-1).view(np.uint8).data


def head_of(shape: Shape, planes: int, most: int = 255) -> bytes:
    """The head of a raw picture."""
    return Picture(shape[1], shape[0], planes, most, b"").raw()


def samples_of(given: npt.ArrayLike) -> Samples:
    """The samples of an array (H, W) or (H, W, 3) of whole numbers from 0 to 65535. Raises Refused for any other."""
    array = np.asarray(given)
    refuse_other_pictures(array.shape, array.dtype)
    return Samples(whole_samples(array))


def refuse_other_pictures(shape: tuple[int, ...], dtype: np.dtype[Any]) -> None:
    """Raises Refused where no array of this shape and type is a picture, whatever its samples are."""
    if len(shape) not in (2, 3) or (len(shape) == 3 and shape[2] != 3):
        raise Refused(f"the array has the shape {shape}, and a picture has (H, W), or (H, W, 3) in colours{shape_cure(shape)}")
    if 0 in shape:
        raise Refused(f"the array has the shape {shape}, which has no sample")
    if dtype.kind not in "iub":
        raise Refused(f"the array has samples of {dtype}, and a picture has whole numbers from 0 to {MOST_SAMPLE}: scale it, round it, "
                      "and take array.astype(np.uint8) or np.uint16")


def shape_cure(shape: tuple[int, ...]) -> str:
    """What to write for arrays that are nearly pictures."""
    of_planes = {1: ": take array[..., 0]", 4: ": take array[..., :3], without transparency"}
    return of_planes.get(shape[2], "") if len(shape) == 3 else ""


def whole_samples(array: Array) -> Array:
    """The array in uint8, or in uint16 where a sample needs that."""
    if array.dtype in (np.dtype(np.uint8), np.dtype(np.uint16)):
        return array
    least, most = int(array.min()), int(array.max())
    if least < 0 or most > MOST_SAMPLE:
        raise Refused(f"the array has samples from {least} to {most}, and a picture has those from 0 to {MOST_SAMPLE}")
    return array.astype(np.uint8 if most < 256 else np.uint16)


def picture_in(written: bytearray) -> tuple[Array, bytearray] | None:
    """The array of the raw picture that the bytes begin with, and the bytes after it."""
    head = header_of(written[:64])
    if head is None:
        return None
    shape = (head.rows, head.cols) if head.parts == 1 else (head.rows, head.cols, 3)
    count, is_narrow = head.rows * head.cols * head.parts, head.most < 256
    found = np.frombuffer(written, np.uint8 if is_narrow else np.dtype(">u2"), count, head.end).reshape(shape)
    return (found if is_narrow else found.astype(np.uint16)), written[head.end + head.length():]
