"""How a picture's file is written: what it says beside its samples, and the quality of formats that have one."""
from typing import NamedTuple

from . import metadata
from .metadata import Metadata
from .netpbm import Picture
from .text import Refused

JPEG, TIFF, WEBP = (".jpg", ".jpeg"), (".tif", ".tiff"), (".webp",)
USUAL_QUALITY = 90
MILLIMETRES = 25.4


class Writing(NamedTuple):
    """What stands beside the samples, and a quality from 1 to 100."""

    metadata: Metadata = Metadata()
    quality: int | None = None

    def fitting(self, picture: Picture) -> tuple["Writing", list[str]]:
        """The same for a picture that is the result, and what is said of what does not fit it."""
        found, said = self.metadata.fitting(picture.parts)
        return self._replace(metadata=found._replace(exif=metadata.for_result(found.exif, picture.rows, picture.cols), xmp=metadata.upright(found.xmp))), said

    def words(self, ending: str, profile: str) -> str:
        """The words in brackets by which vips writes a file of this format; `profile` is the file that holds the profile."""
        found = []
        if ending in JPEG:
            found += [f"Q={self.quality or USUAL_QUALITY}", *self.chroma()]
        if ending in WEBP:
            found.append(f"Q={self.quality}" if self.quality else "lossless")
        if ending in TIFF:
            found += ["compression=lzw", *self.resolution()]
        if ending not in JPEG and self.metadata.profile:
            found.append(f"profile={profile}")
        return f"[{','.join(found)}]" if found else ""

    def chroma(self) -> list[str]:
        """Colours at the sides that they have in the JPEG that was read; else as vips does at this quality."""
        is_halved = self.metadata.is_halved
        return [] if is_halved is None else [f"subsample_mode={'on' if is_halved else 'off'}"]

    def resolution(self) -> list[str]:
        if not self.metadata.resolution:
            return []
        down, across = self.metadata.resolution
        return [f"xres={across / MILLIMETRES:.6f}", f"yres={down / MILLIMETRES:.6f}"]

    def finished(self, data: bytes) -> bytes:
        """The file with what vips did not put into it."""
        return metadata.put_into(data, self.metadata)

    def finished_blocks(self, data: bytes) -> list[bytes | memoryview]:
        """The same in blocks. The samples of a JPEG are not copied."""
        if not data.startswith(metadata.JPEG):
            return [self.finished(data)]
        beginning, start = metadata.beginning_of_jpeg(data, self.metadata)
        return [beginning, memoryview(data)[start:]]


def writing(given: bytes, own: dict[str, str], target: str, ending: str) -> Writing:
    """How a result is written, of a file that was read and of tf's own options."""
    quality = own.get("--quality")
    if quality is not None and not (quality.isdecimal() and 1 <= int(quality) <= 100):
        raise Refused("--quality takes a number from 1 to 100", 1)
    if quality is not None and ending not in (*JPEG, *WEBP):
        raise Refused(f"{target}: --quality goes with JPEG and WebP", 1)
    said = Metadata() if "--strip" in own else metadata.read(given)
    return Writing(said, int(quality) if quality else None)
