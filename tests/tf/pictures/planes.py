"""The points that the pictures of this folder have, by plain formulas."""
COLS, ROWS = 24, 16
PLACES = [(x, y) for x in range(ROWS) for y in range(COLS)]
GREY = bytes(5 * x + 6 * y for x, y in PLACES)
COLOURS = bytes(it for x, y in PLACES for it in (10 * y, 15 * x, 4 * (x + y)))
EQUAL = bytes(it for it in GREY for _ in range(3))
MASK = bytes(255 * ((x // 3 + y // 4) % 2) for x, y in PLACES)
# few colours, each of another kind
KINDS = ((255, 0, 0), (0, 255, 0), (0, 0, 255), (255, 255, 0), (10, 20, 30), (255, 255, 255))
FEW = bytes(it for x, y in PLACES for it in KINDS[(x // 4 + y // 4) % len(KINDS)])
DEEP = b"".join((2500 * x + 1000 * y + 7).to_bytes(2, "big") for x, y in PLACES)
DEEP_COLOURS = b"".join(it.to_bytes(2, "big") for x, y in PLACES for it in (2600 * y + 1, 4000 * x + 2, 257 * (x + y) + 3))


def turned(raster: bytes, width: int) -> bytes:
    """The points of a picture that is turned by a right angle, clockwise: what the orientation 6 of EXIF asks for."""
    points = [raster[at : at + width] for at in range(0, len(raster), width)]
    return b"".join(points[(ROWS - 1 - y) * COLS + x] for x in range(COLS) for y in range(ROWS))


def sources() -> dict[str, bytes]:
    """The files that the pictures are made from."""
    sides = b"%d %d" % (COLS, ROWS)
    bitmap = b"P1\n%s\n%s\n" % (sides, b" ".join(b"0" if it else b"1" for it in MASK))
    return {
        "grey.pgm": b"P5\n%s\n255\n%s" % (sides, GREY), "colours.ppm": b"P6\n%s\n255\n%s" % (sides, COLOURS),
        "equal.ppm": b"P6\n%s\n255\n%s" % (sides, EQUAL), "few.ppm": b"P6\n%s\n255\n%s" % (sides, FEW), "mask.pbm": bitmap,
        "deep.pgm": b"P5\n%s\n65535\n%s" % (sides, DEEP), "deep.ppm": b"P6\n%s\n65535\n%s" % (sides, DEEP_COLOURS),
    }
