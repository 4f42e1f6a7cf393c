"""A still life of 1200 by 800 points: balls of marble, gold and glaze, and beads, on old flagstones under an evening sky.

It is followed by rays: to what they meet, from there to the sun, and to what is mirrored. All is made of whole numbers and of sums, products,
quotients and roots of floating-point numbers, which are the same on every machine.
"""
from math import floor, sqrt
from typing import NamedTuple

COLS, ROWS = 1200, 800
Vector = tuple[float, float, float]
SUN: Vector = (-0.55, 0.62, -0.56)
WARM, COOL = (1.25, 1.0, 0.70), (0.24, 0.30, 0.44)
FAR = 1e9


class Ball(NamedTuple):
    """A ball: its middle, its radius, what it is made of, and its colour."""

    x: float
    y: float
    z: float
    radius: float
    kind: str
    colour: Vector


class Surface(NamedTuple):
    """What a ray has met: its own colour, how much it mirrors, and how sharply it shines."""

    colour: Vector
    mirrors: float
    shines: float


def hashed(x: int, y: int, seed: int) -> float:
    """A number from 0 to 1 that looks random."""
    it = (x * 374761393 + y * 668265263 + seed * 2246822519) & 0xFFFFFFFF
    it = (it ^ it >> 13) * 1274126177 & 0xFFFFFFFF
    return ((it ^ it >> 16) & 0xFFFF) / 65535.0


def noise(x: float, y: float, seed: int) -> float:
    """From 0 to 1, smooth between points of whole numbers."""
    left, top = floor(x), floor(y)
    u, v = x - left, y - top
    u, v = u * u * (3.0 - 2.0 * u), v * v * (3.0 - 2.0 * v)
    a, b = hashed(left, top, seed), hashed(left + 1, top, seed)
    c, d = hashed(left, top + 1, seed), hashed(left + 1, top + 1, seed)
    return a + (b - a) * u + (c - a + (a - b - c + d) * u) * v


def rough(x: float, y: float, seed: int, octaves: int = 4) -> float:
    """Noise of several sizes, from 0 to 1."""
    total, size, whole = 0.0, 1.0, 0.0
    for octave in range(octaves):
        total, whole = total + noise(x / size, y / size, seed + octave) * size, whole + size
        size *= 0.5
    return total / whole


def mixed(low: Vector, high: Vector, part: float) -> Vector:
    part = 0.0 if part < 0.0 else 1.0 if part > 1.0 else part
    return (low[0] + (high[0] - low[0]) * part, low[1] + (high[1] - low[1]) * part, low[2] + (high[2] - low[2]) * part)


def dot(a: Vector, b: Vector) -> float:
    return a[0] * b[0] + a[1] * b[1] + a[2] * b[2]


def unit(it: Vector) -> Vector:
    length = sqrt(dot(it, it))
    return (it[0] / length, it[1] / length, it[2] / length)


def moved(start: Vector, way: Vector, far: float) -> Vector:
    return (start[0] + way[0] * far, start[1] + way[1] * far, start[2] + way[2] * far)


def beads() -> list[Ball]:
    """Small balls of glaze that lie about, and none in another."""
    colours = ((0.85, 0.28, 0.16), (0.16, 0.42, 0.62), (0.90, 0.70, 0.22), (0.24, 0.52, 0.34), (0.80, 0.80, 0.78), (0.45, 0.22, 0.46))
    found: list[Ball] = []
    for number in range(400):
        radius = 0.08 + 0.13 * hashed(number, 1, 50)
        x, z = -3.6 + 7.4 * hashed(number, 2, 50), -3.7 + 6.6 * hashed(number, 3, 50)
        made = Ball(x, radius, z, radius, "glaze", colours[number % len(colours)])
        apart = all((it.x - x) ** 2 + (it.z - z) ** 2 > (it.radius + radius + 0.04) ** 2 for it in (*LARGE, *found))
        if apart and len(found) < 34:
            found.append(made)
    return found


LARGE = (
    Ball(-1.35, 1.15, 0.7, 1.15, "marble", (0.92, 0.90, 0.86)),
    Ball(1.15, 0.85, -0.2, 0.85, "gold", (1.0, 0.78, 0.36)),
    Ball(-0.15, 0.48, -1.7, 0.48, "glaze", (0.78, 0.12, 0.10)),
    Ball(2.75, 0.70, 1.5, 0.70, "earth", (0.3, 0.5, 0.6)),
    Ball(-3.0, 0.55, -0.6, 0.55, "earth", (0.3, 0.5, 0.6)),
)
BALLS = (*LARGE, *beads())


def sky(way: Vector) -> Vector:
    """What is seen far off: a glow about the sun, clouds, and hills."""
    up = way[1]
    base = mixed((0.95, 0.62, 0.36), (0.10, 0.22, 0.50), up * 2.4 + 0.04)
    glow = (1.0 + dot(way, (0.34, 0.10, 0.935))) * 0.5
    for _ in range(5):
        glow *= glow
    base = mixed(base, (1.0, 0.80, 0.50), glow * 0.85)
    if up > 0.015:
        cloud = rough(way[0] / (up + 0.16) * 1.1 + 7.0, way[2] / (up + 0.16) * 1.5, 70, 6)
        base = mixed(base, mixed((0.42, 0.38, 0.50), (1.12, 0.88, 0.70), (cloud - 0.46) * 5.0), (cloud - 0.44) * 6.0 * (up * 3.0 + 0.25))
    aside = way[0] / (abs(way[2]) + 0.2)
    for number, (height, size, colour) in enumerate((
            (0.115, 1.6, (0.46, 0.44, 0.58)), (0.075, 2.7, (0.34, 0.36, 0.46)), (0.035, 4.4, (0.20, 0.25, 0.27)))):
        if up < height * rough(aside * size + 3.1, 0.5, 80 + 9 * number, 5) * 1.9 - 0.012:
            base = mixed(colour, (0.62, 0.52, 0.50), rough(aside * 30.0, up * 60.0, 90 + number, 2) * 0.25)
    return base


def stones(x: float, z: float, far: float) -> Surface:
    """Flagstones: each of its own tint, grained, with joints of moss. Far off they get even."""
    row = floor(z / 0.9)
    across = x / 1.25 + 0.5 * (row & 1) + 0.23 * hashed(row, 0, 31)
    col = floor(across)
    wobble = 0.03 * (noise(x * 5.0, z * 5.0, 32) - 0.5)
    edge = min((across - col) * 1.25, (col + 1 - across) * 1.25, z - 0.9 * row, 0.9 * (row + 1) - z) + wobble
    tint = hashed(row, col, 33)
    grain = rough(x * 3.2, z * 3.2, 34, 5)
    fine = noise(x * 46.0, z * 46.0, 40)
    fade = 1.0 / (1.0 + 0.004 * far * far * far)
    colour = mixed((0.40, 0.36, 0.33), (0.62, 0.57, 0.50), 0.35 * tint + 0.9 * (grain - 0.5) + 0.45 + 0.22 * fade * (fine - 0.5))
    if edge < 0.035:
        colour = mixed((0.13, 0.16, 0.10), colour, edge / 0.035 * 0.8 + (1.0 - fade) * 0.5)
    return Surface(colour, 0.05 + 0.10 * tint * (1.0 - grain), 0.12)


def skin(ball: Ball, at: Vector) -> Surface:
    """The surface of a ball at a place."""
    x, y, z = (at[0] - ball.x) / ball.radius, (at[1] - ball.y) / ball.radius, (at[2] - ball.z) / ball.radius
    if ball.kind == "gold":
        scratch = noise(x * 60.0 + z * 9.0, y * 5.0, 20) - 0.5
        return Surface(mixed(ball.colour, (0.62, 0.40, 0.14), 0.25 + 0.3 * scratch), 0.72, 1.0)
    if ball.kind == "marble":
        bent = rough(x * 2.1 + 4.0, y * 2.1 + z * 1.7, 21, 5)
        vein = abs(rough(x * 1.6 + 2.2 * bent, y * 1.9 + z * 1.3 + bent, 26, 4) - 0.5)
        return Surface(mixed((0.22, 0.27, 0.36), ball.colour, vein * 9.0 + 0.08), 0.14, 0.9)
    if ball.kind == "earth":
        land = rough(x * 2.4 + z * 1.1 + 9.0, y * 2.4 + z * 1.9, 60, 6)
        if land < 0.5:
            return Surface(mixed((0.05, 0.16, 0.34), (0.16, 0.42, 0.55), (land - 0.3) * 5.0), 0.16, 0.9)
        return Surface(mixed((0.62, 0.56, 0.36), (0.20, 0.38, 0.16), (land - 0.5) * 14.0), 0.02, 0.15)
    speck = noise(x * 14.0 + z * 5.0, y * 14.0, 22)
    return Surface(mixed(ball.colour, (0.96, 0.93, 0.88), (speck - 0.78) * 2.0), 0.13, 1.0)


def met(start: Vector, way: Vector, balls: tuple[Ball, ...]) -> tuple[float, Ball | None]:
    """How far a ray goes to the nearest ball, and to which."""
    nearest, found = FAR, None
    sx, sy, sz = start
    wx, wy, wz = way
    for ball in balls:
        x, y, z = ball[0] - sx, ball[1] - sy, ball[2] - sz
        along = x * wx + y * wy + z * wz
        off = ball[3] * ball[3] - (x * x + y * y + z * z - along * along)
        if off > 0.0 and along > 0.0:
            far = along - sqrt(off)
            if 0.0005 < far < nearest:
                nearest, found = far, ball
    return nearest, found


def shadow(at: Vector, balls: tuple[Ball, ...]) -> float:
    """How much of the sun is seen: all is 1. A ball that nearly hides it dims it, so that shadows have soft edges."""
    seen = 1.0
    for ball in balls:
        x, y, z = ball[0] - at[0], ball[1] - at[1], ball[2] - at[2]
        along = x * SUN[0] + y * SUN[1] + z * SUN[2]
        if along > 0.001:
            off = sqrt(max(x * x + y * y + z * z - along * along, 0.0)) - ball[3]
            part = 0.5 + off / (0.09 * along + 0.01)
            if part < seen:
                seen = part
    return 0.0 if seen < 0.0 else seen


def ambient(at: Vector, normal: Vector, balls: tuple[Ball, ...]) -> float:
    """How open a place is to the sky: what is near darkens it."""
    seen = 0.55 + 0.45 * normal[1]
    for ball in balls:
        x, y, z = ball[0] - at[0], ball[1] - at[1], ball[2] - at[2]
        far = x * x + y * y + z * z
        size = ball[3] * ball[3]
        if far < 9.0 * size and far > size * 1.0001:
            toward = (x * normal[0] + y * normal[1] + z * normal[2]) / sqrt(far)
            seen *= 1.0 - max(toward + 0.25, 0.0) * 0.8 * size / far
    return max(seen, 0.08)


def lit(surface: Surface, at: Vector, normal: Vector, way: Vector, depth: int) -> Vector:
    """The colour of a place: by the sky, by the sun with its gleam, and by what it mirrors."""
    lifted = moved(at, normal, 0.002)
    cosine = dot(normal, SUN)
    sun = shadow(lifted, BALLS) * cosine if cosine > 0.0 else 0.0
    sky_part = ambient(lifted, normal, BALLS)
    colour = tuple(surface.colour[it] * (1.15 * sun * WARM[it] + 0.95 * sky_part * COOL[it]) for it in range(3))
    mirrored = moved(way, normal, -2.0 * dot(way, normal))
    gleam = max(dot(mirrored, SUN), 0.0)
    for _ in range(5):
        gleam *= gleam
    if depth and surface.mirrors > 0.0:
        grazing = 1.0 + dot(way, normal)
        share = surface.mirrors + (1.0 - surface.mirrors) * grazing * grazing * grazing * grazing * grazing * min(surface.shines, 0.6)
        other = seen(lifted, mirrored, depth - 1)[0]
        tint = surface.colour if surface.mirrors > 0.5 else (1.0, 1.0, 1.0)
        colour = tuple(colour[it] * (1.0 - share) + other[it] * share * tint[it] for it in range(3))
    strength = gleam * surface.shines * (1.0 if sun > 0.0 else 0.0)
    return (colour[0] + strength, colour[1] + 0.93 * strength, colour[2] + 0.8 * strength)


def seen(start: Vector, way: Vector, depth: int) -> tuple[Vector, int]:
    """What a ray sees, and a number of what it has met."""
    far, ball = met(start, way, BALLS)
    floor_far = -start[1] / way[1] if way[1] < -1e-6 else FAR
    if ball is not None and far < floor_far:
        at = moved(start, way, far)
        normal = ((at[0] - ball.x) / ball.radius, (at[1] - ball.y) / ball.radius, (at[2] - ball.z) / ball.radius)
        return lit(skin(ball, at), at, normal, way, depth), BALLS.index(ball) + 2
    if floor_far < 60.0:
        at = moved(start, way, floor_far)
        ground = lit(stones(at[0], at[2], floor_far), at, (0.0, 1.0, 0.0), way, depth)
        haze = floor_far * floor_far / 1500.0
        return mixed(ground, (0.80, 0.66, 0.52), haze), 1
    return sky((way[0], abs(way[1]), way[2])), 0


def ray(row: float, col: float) -> Vector:
    """The way of a ray through a point of the picture."""
    x, y = (col - COLS / 2) / 760.0, (ROWS * 0.47 - row) / 760.0
    return unit((x, y - 0.16, 1.0 + 0.16 * y))


EYE: Vector = (0.15, 1.75, -6.2)


def colour_at(row: float, col: float) -> tuple[Vector, int]:
    return seen(EYE, ray(row, col), 2)


def sample(value: float, grain: float) -> int:
    """A sample of light: bright light is pressed together, and grain is added."""
    root = min(sqrt(value * 0.80 * (1.0 + value / 6.0) / (1.0 + value * 0.55)), 1.0)
    steep = root * root * (3.0 - 2.0 * root)
    return min(max(floor(255.0 * (0.45 * root + 0.55 * steep) + grain), 0), 255)


def row_of(row: int) -> bytes:
    """The samples of a row. A point where another thing begins is the mean of four rays."""
    line = [colour_at(row + 0.5, col + 0.5) for col in range(COLS)]
    found = bytearray()
    for col, (light, kind) in enumerate(line):
        if any(other[1] != kind for other in line[max(col - 1, 0) : col + 2]) or colour_at_edge(row, col, kind):
            four = [colour_at(row + a, col + b)[0] for a in (0.25, 0.75) for b in (0.25, 0.75)]
            light = tuple(sum(it[part] for it in four) / 4.0 for part in range(3))
        grain = 5.0 * (hashed(row, col, 99) - 0.5)
        found += bytes(sample(max(it, 0.0), grain) for it in light)
    return bytes(found)


def colour_at_edge(row: int, col: int, kind: int) -> bool:
    """Whether another thing is met at the upper or the lower end of the point."""
    return kind_at(row + 0.05, col + 0.5) != kind or kind_at(row + 0.95, col + 0.5) != kind


def kind_at(row: float, col: float) -> int:
    """What is met, without its colour."""
    way = ray(row, col)
    far, ball = met(EYE, way, BALLS)
    floor_far = -EYE[1] / way[1] if way[1] < -1e-6 else FAR
    if ball is not None and far < floor_far:
        return BALLS.index(ball) + 2
    return 1 if floor_far < 60.0 else 0
