"""The programs djpeg and cjpeg of libjpeg-turbo, the library by which vips reads and writes JPEG too: the samples and the bytes are the same. They
start in a millisecond, where vips takes thirty.

They are asked for nothing but samples. What stands beside these is read and written here, and whatever they say leaves the picture to vips.
"""
from .writing import USUAL_QUALITY, Writing

# how cjpeg begins to tell what it is, where it is that of libjpeg-turbo (others write other bytes)
SIGN = b"libjpeg-turbo version "
# vips reads no JPEG of more scans either
MOST_SCANS = 100
# colours at half of the sides, and at the sides of the picture
HALVED, WHOLE = "2x2", "1x1"
# from this quality on vips leaves colours at the sides of the picture, where nothing else is asked
WHOLE_FROM = 90


def reading() -> list[str]:
    """The words by which a JPEG on standard input becomes a raw picture on standard output."""
    return ["djpeg", "-maxscans", str(MOST_SCANS)]


def writing(how: Writing, planes: int) -> list[str]:
    """The words by which a raw picture of so many planes on standard input becomes a JPEG on standard output."""
    quality = how.quality or USUAL_QUALITY
    is_halved = quality < WHOLE_FROM if how.metadata.is_halved is None else how.metadata.is_halved
    return ["cjpeg", "-quality", str(quality), "-baseline", "-sample", HALVED if is_halved and planes == 3 else WHOLE]


def naming() -> list[str]:
    """The words by which cjpeg tells what it is. (Other programs djpeg do not know the words by which it reads.)"""
    return ["cjpeg", "-version"]
