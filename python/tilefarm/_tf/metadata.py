"""What a picture's file says beside its samples: EXIF, a colour profile, the resolution, XMP and IPTC. They are read from the bytes of JPEG, PNG,
TIFF and WebP, and written into those that can hold them: a profile and a resolution of TIFF and WebP by vips."""
import re
import struct
import zlib
from typing import Iterator, NamedTuple

TIFF = (b"II*\0", b"MM\0*")
PNG, JPEG, EXIF, ICC = b"\x89PNG\r\n\x1a\n", b"\xff\xd8", b"Exif\0\0", b"ICC_PROFILE\0"
# what stands before XMP in a JPEG and in a PNG, and before the blocks of which one has IPTC
XMP, XMP_TEXT, BLOCKS = b"http://ns.adobe.com/xap/1.0/\0", b"XML:com.adobe.xmp\0", b"Photoshop 3.0\0"
BLOCK, IPTC_BLOCK = b"8BIM", 0x0404
ORIENTATION_IN_XMP = rb"""(tiff:Orientation(?:\s*=\s*["']|>)\s*)[1-8]"""
# markers of JPEG: the application segments, the start of the scan, and the starts of frames, which have the sides and the sampling
JFIF_SEGMENT, EXIF_SEGMENT, ICC_SEGMENT, BLOCKS_SEGMENT, SCAN = 0xE0, 0xE1, 0xE2, 0xED, 0xDA
FRAMES = (0xC0, 0xC1, 0xC2)
END = b"\xff\xd9"
# the most bytes of a profile in one segment, of EXIF, and of XMP and IPTC
PROFILE_PART, MOST_EXIF, MOST_TEXT = 65519, 65520, 65400
# the bits of a WebP's first chunk that say that it has EXIF, and XMP
EXIF_FLAG, XMP_FLAG = 8, 4
ORIENTATION, X_RESOLUTION, Y_RESOLUTION, UNIT, EXIF_IFD, PROFILE, PIXELS = 0x112, 0x11A, 0x11B, 0x128, 0x8769, 0x8773, (0xA002, 0xA003)
XMP_TAG, IPTC_TAG, BYTES_KIND, LONG_KIND = 700, 33723, 7, 4
INCH, CENTIMETRE, NO_UNIT = 2, 3, 1
OF_PLANES = {1: b"GRAY", 3: b"RGB "}


class Metadata(NamedTuple):
    """EXIF as a file of TIFF, a profile, points an inch down and across, whether a JPEG has colours at half of the sides, XMP, and IPTC."""

    exif: bytes = b""
    profile: bytes = b""
    resolution: tuple[float, float] | None = None
    is_halved: bool | None = None
    xmp: bytes = b""
    iptc: bytes = b""

    def fitting(self, planes: int) -> tuple["Metadata", list[str]]:
        """The same without a profile that is of other planes, which is said."""
        if not self.profile or self.profile[16:20] == OF_PLANES[planes]:
            return self, []
        kind = self.profile[16:20].decode("latin-1").strip()
        return self._replace(profile=b""), [f"its colour profile ({kind}) does not fit {'grey' if planes == 1 else 'colours'}, and is left out"]


class JpegSides(NamedTuple):
    """What a JPEG's frame says: its sides, its planes, the bits of a sample, and the orientation of EXIF, if there is one."""

    rows: int
    cols: int
    planes: int
    depth: int
    orientation: str


def read(data: bytes) -> Metadata:
    """What a file says. What is damaged says nothing."""
    try:
        if data.startswith(JPEG):
            return of_jpeg(data)
        if data.startswith(PNG):
            return of_png(data)
        if data[:4] in TIFF:
            return of_tiff(data)
        if is_webp(data):
            return of_webp(data)
    except (struct.error, zlib.error, IndexError, ZeroDivisionError):
        pass
    return Metadata()


def put_into(data: bytes, it: Metadata) -> bytes:
    """A picture's file that says this, as far as its format can hold it."""
    if data.startswith(JPEG):
        return with_jpeg(data, it)
    if data.startswith(PNG):
        return with_png(data, it) if it.exif or it.profile or it.resolution or it.xmp else data
    if is_webp(data):
        return with_webp(data, it)
    return with_tiff(data, it) if data[:4] in TIFF else data


def is_webp(data: bytes) -> bool:
    return data[:4] == b"RIFF" and data[8:12] == b"WEBP"


# JPEG


def segments(data: bytes) -> Iterator[tuple[int, bytes]]:
    """The marker and the bytes of each segment up to the scan."""
    at = len(JPEG)
    while at + 4 <= len(data) and data[at] == 0xFF:
        marker, length = data[at + 1], struct.unpack_from(">H", data, at + 2)[0]
        if marker == SCAN:
            return
        yield marker, data[at + 4 : at + 2 + length]
        at += 2 + length


def of_jpeg(data: bytes) -> Metadata:
    exif, parts, resolution, is_halved, xmp, iptc = b"", {}, None, None, b"", b""
    for marker, body in segments(data):
        if marker == EXIF_SEGMENT and body.startswith(EXIF) and not exif:
            exif = body[len(EXIF) :]
        elif marker == EXIF_SEGMENT and body.startswith(XMP):
            xmp = body[len(XMP) :]
        elif marker == BLOCKS_SEGMENT and body.startswith(BLOCKS):
            iptc = iptc_of(body[len(BLOCKS) :])
        elif marker == ICC_SEGMENT and body.startswith(ICC):
            parts[body[len(ICC)]] = body[len(ICC) + 2 :]
        elif marker == JFIF_SEGMENT and body.startswith(b"JFIF\0"):
            resolution = of_jfif(*struct.unpack_from(">BHH", body, 7))
        elif marker in FRAMES:
            is_halved = body[5] == 3 and body[7] == 0x22
    return Metadata(exif, b"".join(parts[it] for it in sorted(parts)), resolution or resolution_of(exif), is_halved, xmp, iptc)


def iptc_of(blocks: bytes) -> bytes:
    """The IPTC among the blocks that Photoshop writes; each has a number, a name and a length."""
    at = 0
    while blocks[at : at + 4] == BLOCK:
        number, named = struct.unpack_from(">HB", blocks, at + 4)
        at += 6 + (named + 2) // 2 * 2
        length = struct.unpack_from(">I", blocks, at)[0]
        if number == IPTC_BLOCK:
            return blocks[at + 4 : at + 4 + length]
        at += 4 + (length + 1) // 2 * 2
    return b""


def sides_of_jpeg(data: bytes) -> JpegSides | None:
    """The sides of a JPEG, where they are among these bytes."""
    try:
        for marker, body in segments(data):
            if marker in FRAMES:
                depth, rows, cols, planes = struct.unpack_from(">BHHB", body)
                exif = of_jpeg(data).exif
                orientation = first_directory(exif).value(ORIENTATION) if exif else None
                return JpegSides(rows, cols, planes, depth, str(orientation or ""))
    except (struct.error, IndexError):
        pass
    return None


def is_cut_jpeg(data: bytes) -> bool:
    """Whether a JPEG that has a frame ends before its end, whose mark stands nowhere else behind the start of the scan."""
    if data.endswith(END) or sides_of_jpeg(data) is None:
        return False
    return data.find(END, len(JPEG) + sum(4 + len(body) for _, body in segments(data))) < 0


def of_jfif(unit: int, across: int, down: int) -> tuple[float, float] | None:
    return {1: (down, across), 2: (down * 2.54, across * 2.54)}.get(unit)


def with_jpeg(data: bytes, it: Metadata) -> bytes:
    """A JPEG that says this, and nothing else of the same kind."""
    beginning, start = beginning_of_jpeg(data, it)
    return beginning + data[start:]


def beginning_of_jpeg(data: bytes, it: Metadata) -> tuple[bytes, int]:
    """What stands before the scan of that JPEG, and where the scan begins in the given one."""
    down, across = it.resolution or (1, 1)
    jfif = b"JFIF\0\1\1" + struct.pack(">BHHBB", bool(it.resolution), round(across), round(down), 0, 0)
    exif = [(EXIF_SEGMENT, EXIF + it.exif)] if it.exif and len(it.exif) < MOST_EXIF else []
    parts = [it.profile[at : at + PROFILE_PART] for at in range(0, len(it.profile), PROFILE_PART)]
    profile = [(ICC_SEGMENT, ICC + bytes((number, len(parts))) + part) for number, part in enumerate(parts, 1)]
    texts = [(EXIF_SEGMENT, XMP + it.xmp)] if it.xmp and len(it.xmp) < MOST_TEXT else []
    if it.iptc and len(it.iptc) < MOST_TEXT:
        texts.append((BLOCKS_SEGMENT, BLOCKS + BLOCK + struct.pack(">HHI", IPTC_BLOCK, 0, len(it.iptc)) + it.iptc + bytes(len(it.iptc) % 2)))
    others = [(marker, body) for marker, body in segments(data) if marker not in (JFIF_SEGMENT, EXIF_SEGMENT, ICC_SEGMENT)]
    start = len(JPEG) + sum(4 + len(body) for _, body in segments(data))
    every = [(JFIF_SEGMENT, jfif), *exif, *texts, *profile, *others]
    return JPEG + b"".join(struct.pack(">BBH", 0xFF, marker, len(body) + 2) + body for marker, body in every), start


# PNG


def chunks(data: bytes) -> Iterator[tuple[bytes, bytes]]:
    at = len(PNG)
    while at + 12 <= len(data):
        length, kind = struct.unpack_from(">I4s", data, at)
        yield kind, data[at + 8 : at + 8 + length]
        at += 12 + length


def of_png(data: bytes) -> Metadata:
    found = dict(chunks(data))
    _, _, packed = found.get(b"iCCP", b"\0").partition(b"\0")
    resolution = None
    if b"pHYs" in found:
        across, down, unit = struct.unpack(">IIB", found[b"pHYs"])
        resolution = (down * 0.0254, across * 0.0254) if unit == 1 else None
    texts = [body for kind, body in chunks(data) if kind == b"iTXt" and body.startswith(XMP_TEXT)]
    return Metadata(found.get(b"eXIf", b""), zlib.decompress(packed[1:]) if packed else b"", resolution, xmp=xmp_of_text(texts[0]) if texts else b"")


def xmp_of_text(body: bytes) -> bytes:
    """The text of a chunk, behind its keyword, whether it is packed, its language, and its keyword in that."""
    is_packed, rest = body[len(XMP_TEXT)], body[len(XMP_TEXT) + 2 :]
    text = rest.split(b"\0", 2)[2]
    return zlib.decompress(text) if is_packed else text


def with_png(data: bytes, it: Metadata) -> bytes:
    """A PNG that says this, and nothing else of the same kind."""
    every = [(kind, body) for kind, body in chunks(data) if kind not in (b"iCCP", b"sRGB", b"gAMA", b"cHRM", b"pHYs", b"eXIf")]
    return PNG + b"".join(struct.pack(">I", len(body)) + kind + body + struct.pack(">I", zlib.crc32(kind + body))
                          for kind, body in (every[0], *png_chunks(it), *every[1:]))


def png_chunks(it: Metadata) -> list[tuple[bytes, bytes]]:
    """The chunks of a PNG that say this, which stand before its samples."""
    found = [(b"iCCP", b"profile\0\0" + zlib.compress(it.profile))] if it.profile else []
    if it.resolution:
        down, across = (round(side / 0.0254) for side in it.resolution)
        found.append((b"pHYs", struct.pack(">IIB", across, down, 1)))
    if it.xmp:
        found.append((b"iTXt", XMP_TEXT + bytes(4) + it.xmp))
    return [*found, (b"eXIf", it.exif)] if it.exif else found


# TIFF, which EXIF is too


class Directory:
    """The entries of a directory of TIFF by tags, each with its place."""

    def __init__(self, data: bytes, at: int):
        self.data, self.order = data, ">" if data.startswith(b"MM") else "<"
        count = self.number("H", at)
        self.end = at + 2 + 12 * count
        self.places = {self.number("H", it): it for it in range(at + 2, self.end, 12)}

    def number(self, form: str, at: int) -> int:
        return struct.unpack_from(self.order + form, self.data, at)[0]

    def value(self, tag: int) -> int | None:
        """A whole number of 16 or 32 bits."""
        at = self.places.get(tag)
        return None if at is None else self.number({3: "H", 4: "I"}.get(self.number("H", at + 2), "I"), at + 8)

    def ratio(self, tag: int) -> float | None:
        at = self.places.get(tag)
        if at is None:
            return None
        above, below = struct.unpack_from(self.order + "II", self.data, self.number("I", at + 8))
        return above / below

    def bytes_of(self, tag: int) -> bytes:
        at = self.places.get(tag)
        if at is None:
            return b""
        first, size = self.number("I", at + 8), 4 if self.number("H", at + 2) == LONG_KIND else 1
        return self.data[first : first + size * self.number("I", at + 4)]

    def entries(self) -> dict[int, bytes]:
        return {tag: self.data[at : at + 12] for tag, at in self.places.items()}


def first_directory(data: bytes) -> Directory:
    """The directory of the first picture."""
    return Directory(data, struct.unpack_from(">I" if data.startswith(b"MM") else "<I", data, 4)[0])


def of_tiff(data: bytes) -> Metadata:
    found = first_directory(data)
    return Metadata(b"", found.bytes_of(PROFILE), resolution_of(data), xmp=found.bytes_of(XMP_TAG), iptc=found.bytes_of(IPTC_TAG))


def with_tiff(data: bytes, it: Metadata) -> bytes:
    """A TIFF with XMP and IPTC: their bytes and a new directory stand at its end."""
    if not it.resolution:
        data = without_unit(data)
    texts = [(tag, text) for tag, text in ((XMP_TAG, it.xmp), (IPTC_TAG, it.iptc)) if text]
    if not texts:
        return data
    found, made = first_directory(data), bytearray(data)
    entries = found.entries()
    for tag, text in texts:
        made += bytes(len(made) % 2)
        entries[tag] = struct.pack(f"{found.order}HHII", tag, BYTES_KIND, len(text), len(made))
        made += text
    made += bytes(len(made) % 2)
    struct.pack_into(f"{found.order}I", made, 4, len(made))
    behind = data[found.end : found.end + 4]
    return bytes(made) + struct.pack(f"{found.order}H", len(entries)) + b"".join(entries[tag] for tag in sorted(entries)) + behind


def resolution_of(data: bytes) -> tuple[float, float] | None:
    """The resolution that a TIFF, or EXIF, says."""
    if not data:
        return None
    found = first_directory(data)
    down, across, scale = found.ratio(Y_RESOLUTION), found.ratio(X_RESOLUTION), {INCH: 1.0, CENTIMETRE: 2.54}.get(found.value(UNIT) or INCH)
    return (down * scale, across * scale) if down and across and scale else None


def for_result(exif: bytes, rows: int, cols: int) -> bytes:
    """EXIF for a picture that was made of another one: it stands upright, has these sides, and no small copy of the older picture."""
    if not exif:
        return exif
    try:
        made, found = bytearray(exif), first_directory(exif)
        set_number(made, found, ORIENTATION, 1)
        if found.end + 4 <= len(made):
            made[found.end : found.end + 4] = bytes(4)
        if found.value(EXIF_IFD) is not None:
            inner = Directory(exif, found.value(EXIF_IFD))
            for tag, side in zip(PIXELS, (cols, rows)):
                set_number(made, inner, tag, side)
        return bytes(made)
    except (struct.error, IndexError):
        return b""


def upright(xmp: bytes) -> bytes:
    """XMP for a picture that stands upright."""
    return re.sub(ORIENTATION_IN_XMP, rb"\g<1>1", xmp) if xmp else xmp


def set_number(made: bytearray, found: Directory, tag: int, value: int) -> None:
    at = found.places.get(tag)
    if at is not None:
        form = {3: "H", 4: "I"}.get(found.number("H", at + 2))
        if form:
            struct.pack_into(found.order + form, made, at + 8, value)


def without_unit(data: bytes) -> bytes:
    """A TIFF that says no unit of its resolution, which was made up."""
    made = bytearray(data)
    set_number(made, first_directory(data), UNIT, NO_UNIT)
    return bytes(made)


# WebP


def webp_chunks(data: bytes) -> Iterator[tuple[bytes, bytes]]:
    at = 12
    while at + 8 <= len(data):
        kind, length = struct.unpack_from("<4sI", data, at)
        yield kind, data[at + 8 : at + 8 + length]
        at += 8 + length + length % 2


def with_webp(data: bytes, it: Metadata) -> bytes:
    """A WebP with this EXIF in the place of that which vips made up, where it made up one, and with XMP."""
    every = [(kind, it.exif if kind == b"EXIF" else body) for kind, body in webp_chunks(data) if kind != b"EXIF" or it.exif]
    if every[0][0] == b"VP8X" and not it.exif:
        flags = every[0][1]
        every[0] = (b"VP8X", bytes((flags[0] & ~EXIF_FLAG,)) + flags[1:])
    if every[0][0] == b"VP8X" and it.xmp:
        flags = every[0][1]
        every = [(b"VP8X", bytes((flags[0] | XMP_FLAG,)) + flags[1:]), *every[1:], (b"XMP ", it.xmp)]
    body = b"".join(struct.pack("<4sI", kind, len(part)) + part + bytes(len(part) % 2) for kind, part in every)
    return b"RIFF" + struct.pack("<I", 4 + len(body)) + b"WEBP" + body


def of_webp(data: bytes) -> Metadata:
    found = dict(webp_chunks(data))
    exif = found.get(b"EXIF", b"").removeprefix(EXIF)
    return Metadata(exif, found.get(b"ICCP", b""), resolution_of(exif), xmp=found.get(b"XMP ", b""))
