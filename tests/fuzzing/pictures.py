"""Random pictures in the four spellings of Netpbm, and random tables that are supplied before them."""
from random import Random

from reference.pictures import Picture
from reference.tables import FAR, Table


# sides at which a row begins or ends within a vector, and the longest
ODD_SIDES, LONG_SIDES = [1, 15, 16, 17], [4095, 4096]


def random_picture(random: Random) -> Picture:
    rows, cols = (random.choice(ODD_SIDES) if random.random() < 0.2 else random.randint(1, 14) for _ in range(2))
    return filled(rows, cols, random)


def long_picture(random: Random) -> Picture:
    """A picture of a few rows or columns, as long as they can be."""
    sides = [random.randint(1, 2), random.choice(LONG_SIDES)]
    random.shuffle(sides)
    return filled(*sides, random)


def filled(rows: int, cols: int, random: Random) -> Picture:
    """A picture of any samples, or of those at the ends of 8 and of 16 bits."""
    planes = 3 if random.random() < 0.3 else 1
    greatest = random.choice([1, 9, 255, 255, 256, 1023, 65535, 65535])
    ends = [it for it in (0, 1, 127, 128, 255, 256, 32767, 32768, greatest - 1, greatest) if it <= greatest]
    some = (lambda: random.choice(ends)) if random.random() < 0.3 else lambda: random.randint(0, greatest)
    return Picture(rows, cols, planes, greatest, [some() for _ in range(rows * cols * planes)])


def plain(picture: Picture, random: Random) -> bytes:
    words = [f"P{3 if picture.planes == 3 else 2}", picture.cols, picture.rows, picture.greatest, *picture.samples]
    return "".join(f"{it}{random.choice([' ', chr(10), chr(9), '  '])}" for it in words).encode()


def spelled(picture: Picture, random: Random) -> bytes:
    return picture.raw() if random.random() < 0.7 else plain(picture, random)


def random_table(name: str, random: Random) -> Table:
    lo = random.choice([0, 0, random.randint(-9, 9), FAR - 20])
    few = lambda: random.choice([random.randint(-9, 9), random.randint(0, 255), 2**31 - 1, -(2**31)])
    return Table(name, lo, tuple(few() for _ in range(random.choice([1, 2, random.randint(1, 20)]))))
