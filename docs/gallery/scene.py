"""A scene of 256 by 192 points, made in whole numbers alone: an evening lake with hills, a house and firs."""
COLS, ROWS, SHORE = 256, 192, 128
SUN = (52, 182, 15)
FIRS = ((118, 24, 44), (121, 46, 34), (124, 8, 30), (120, 214, 40), (124, 238, 52), (122, 196, 26))

Colour = tuple[int, int, int]


def mixed(low: Colour, high: Colour, part: int, whole: int) -> Colour:
    """A colour so far on the way from one to another."""
    part = min(max(part, 0), whole)
    return tuple((a * (whole - part) + b * part) // whole for a, b in zip(low, high))


def hashed(x: int, y: int, seed: int) -> int:
    """A number from 0 to 255 that looks random."""
    it = (x * 374761393 + y * 668265263 + seed * 2246822519) & 0xFFFFFFFF
    it = (it ^ it >> 13) * 1274126177 & 0xFFFFFFFF
    return (it ^ it >> 16) & 255


def noise(x: int, y: int, size: int, seed: int) -> int:
    """From 0 to 255, smooth over so many points."""
    row, down, col, right = x // size, x % size, y // size, y % size
    corners = [hashed(row + a, col + b, seed) for a in (0, 1) for b in (0, 1)]
    upper = corners[0] * (size - right) + corners[1] * right
    lower = corners[2] * (size - right) + corners[3] * right
    return (upper * (size - down) + lower * down) // (size * size)


def ridge(y: int, height: int, steps: tuple[int, ...], seed: int) -> int:
    """The row of a ridge at a column: coarse noise and finer noise."""
    return height - sum(noise(0, y, step, seed + step) * step // 400 for step in steps)


def sky(x: int, y: int) -> Colour:
    base = mixed((38, 54, 110), (248, 176, 112), x, SHORE - 10)
    far = (x - SUN[0]) ** 2 + (y - SUN[1]) ** 2
    if far <= SUN[2] ** 2:
        return (255, 244, 208)
    base = mixed((255, 222, 160), base, far, far + 900)
    cloud = noise(3 * x, y, 48, 1) + noise(3 * x, y, 20, 2) // 2 + noise(3 * x, y, 8, 3) // 4
    return mixed(base, (250, 214, 196), cloud - 230, 160)


def land(x: int, y: int) -> Colour:
    """What is seen above the shore."""
    grain = hashed(x, y, 9) // 24
    near, middle, far = (ridge(y, *it) for it in ((132, (64, 12, 4), 7), (112, (48, 16, 5), 5), (96, (80, 24, 9, 4), 4)))
    if x >= near:
        return mixed((58, 84, 40), (30, 52, 28), noise(x, y, 6, 8) + 4 * grain, 300)
    if x >= middle:
        return mixed((74, 86, 96), (46, 66, 62), x - middle + grain, 40)
    if x >= far:
        snow = 6 + noise(x, y, 5, 6) // 20 - (x - far)
        return (226, 216, 222) if snow > 0 else mixed((128, 112, 138), (94, 96, 122), x - far + grain, 36)
    return sky(x, y)


def fir(x: int, y: int) -> Colour | None:
    for foot, middle, height in FIRS:
        down = x - (foot - height)
        width = (down % (height // 3 + 1)) * 2 // 3 + down // 6
        if 0 <= down < height and abs(y - middle) <= width:
            return mixed((20, 46, 30), (44, 76, 42), hashed(x, y, 12) + 6 * (y - middle), 400)
        if 0 <= x - foot < 5 and abs(y - middle) <= 1:
            return (58, 40, 28)
    return None


def house(x: int, y: int) -> Colour | None:
    """A house with its roof, its chimney, a door and two lit windows."""
    x, y = x - 84, y - 92
    if -18 <= x < 0 and abs(y - 24) <= 34 + x * 34 // 20:
        return (122, 52, 40) if x % 4 else (92, 38, 32)
    if -22 <= x < -6 and 36 <= y < 42:
        return (104, 70, 58)
    if not (0 <= x < 36 and 0 <= y < 48):
        return None
    if 14 <= x and 20 <= y < 29:
        return (74, 46, 30) if (x, y) != (25, 27) else (230, 200, 90)
    for left in (5, 34):
        if 8 <= x < 20 and left <= y < left + 10:
            return (66, 50, 40) if x in (8, 13, 19) or y in (left, left + 5, left + 9) else (255, 216, 110)
    return (206, 190, 164) if x % 6 else (176, 160, 138)


def above(x: int, y: int) -> Colour:
    return house(x, y) or fir(x, y) or land(x, y)


def point(x: int, y: int) -> Colour:
    """The colour of a point; below the shore is what stands above it, in ripples."""
    if x < SHORE:
        return above(x, y)
    depth = x - SHORE
    ripple = (noise(4 * x, y, 24, 20) - 128) * (depth + 6) // 640
    seen = above(max(SHORE - 1 - depth - depth // 3, 0), min(max(y + ripple, 0), COLS - 1))
    shine = 1 if hashed(x, y // 6, 21) > 232 - depth // 3 else 0
    return mixed(mixed(seen, (28, 44, 74), 24 + depth // 2, 100), (236, 220, 200), shine * 2, 5)


def samples() -> bytes:
    """The scene's samples, row by row, three a point."""
    return bytes(sample for x in range(ROWS) for y in range(COLS) for sample in point(x, y))
