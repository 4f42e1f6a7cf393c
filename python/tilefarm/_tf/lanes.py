"""Arithmetic on many bytes at once: a row of bytes is one whole number, in whose digits to the base 256 the bytes are added."""
from functools import cache, lru_cache

RED, GREEN, BLUE, WHOLE = 299, 587, 114, 1000
BLOCK = 1 << 14


@lru_cache(maxsize=64)
def repeated(byte: int, count: int) -> int:
    """A number of so many equal bytes."""
    return int.from_bytes(bytes([byte]) * count, "little")


@lru_cache(maxsize=64)
def repeated_pair(number: int, count: int) -> int:
    """A number of so many equal lanes of two bytes."""
    return int.from_bytes(number.to_bytes(2, "little") * count, "little")


def added(first: int, second: int, count: int) -> int:
    """The sums of so many bytes, each modulo 256: the upper bits are added apart, so that none is carried into the next byte."""
    low, high = repeated(0x7F, count), repeated(0x80, count)
    return ((first & low) + (second & low)) ^ ((first ^ second) & high)


def less(first: int, second: int, count: int) -> int:
    """The differences of so many bytes, each modulo 256."""
    low, high = repeated(0x7F, count), repeated(0x80, count)
    return ((first | high) - (second & low)) ^ ((first ^ second ^ high) & high)


def summed(row: bytes, step: int) -> bytes:
    """Each byte with all that stand before it at a distance of so many bytes: over one, then two, then four and so on."""
    count, total, reach = len(row), int.from_bytes(row, "little"), step
    mask = (1 << 8 * count) - 1
    while reach < count:
        total = added(total, total << 8 * reach & mask, count)
        reach *= 2
    return total.to_bytes(count, "little")


def nearest(left: int, above: int, corner: int, count: int) -> int:
    """Paeth's choice in each of so many lanes of two bytes, which hold a byte: which of the three is nearest to left + above - corner.

    With the lower and the upper one of left and above, the upper one is where 3 corner <= upper + 2 lower, the lower one where
    2 upper + lower <= 3 corner, and the corner otherwise; where both hold, all three are equal.
    """
    ninth, eleventh = repeated_pair(0x100, count), repeated_pair(0x400, count)
    is_left = ((left | ninth) - above) & ninth
    upper = above ^ ((left ^ above) & (is_left - (is_left >> 8)))
    lower = left ^ above ^ upper
    total, thrice = left + above, corner + (corner << 1)
    is_upper = ((total + lower | eleventh) - thrice) & eleventh
    is_lower = ((thrice | eleventh) - total - upper) & eleventh
    return corner ^ ((corner ^ upper) & ((is_upper >> 2) - (is_upper >> 10))) ^ ((corner ^ lower) & ((is_lower >> 2) - (is_lower >> 10)))


@cache
def weights(factor: int, place: int, more: int, half: int) -> tuple[bytes, ...]:
    """For a byte in a place of its sample: the bytes of its part of a grey, times 256 to the power `more`, the lowest first."""
    parts = [(factor * (byte << 8 * place) * 256**more * 2 + WHOLE) // (2 * WHOLE) + half for byte in range(256)]
    return tuple(bytes(part >> 8 * at & 255 for part in parts) for at in range(place + 1 + more + 1))


def grey(raster: bytes, width: int) -> bytes:
    """(299 red + 587 green + 114 blue + 500) / 1000, rounded down, of each point; a sample is one byte, or two with the higher first.

    The sums are made with two or three bytes behind the point, each part rounded: that is off by less than half a thousandth, and half a
    thousandth is what is added, so no sum comes to the other side of a whole number.
    """
    return b"".join(grey_block(raster[at : at + 3 * width * BLOCK], width) for at in range(0, len(raster), 3 * width * BLOCK))


def grey_block(raster: bytes, width: int) -> bytes:
    more, points = width + 1, len(raster) // (3 * width)
    size, total = width + more, 0
    half = 256**more * 1001 // (2 * WHOLE)
    for part, factor in enumerate((RED, GREEN, BLUE)):
        for at in range(width):
            plane, lanes = raster[part * width + at :: 3 * width], bytearray(size * points)
            for number, table in enumerate(weights(factor, width - 1 - at, more, half if part == at == 0 else 0)[:size]):
                lanes[number::size] = plane.translate(table)
            total += int.from_bytes(lanes, "little")
    sums, found = total.to_bytes(size * points, "little"), bytearray(width * points)
    for at in range(width):
        found[at::width] = sums[size - 1 - at :: size]
    return bytes(found)
