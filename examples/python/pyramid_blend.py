"""Blends two pictures by a mask, each level of a Laplacian pyramid by itself, so that no seam is seen.

The two pictures are the first planes of one in colours, and the mask (0 to 255) is its third. Sides may be any.
"""
import tilefarm as tf

LEVELS = 3

x, y = tf.vars("x y")


def gauss(name, plane):
    """The picture, and it halved again and again."""
    found = [plane]
    for level in range(1, LEVELS):
        found.append(tf.halved(f"{name}{level}", found[-1]))
    return found


def detail(name, fine, coarse):
    """What a level has beyond the next coarser one."""
    larger = tf.doubled(f"{name}_up", coarse, like=fine)
    return tf.func(name, fine[x, y] - larger[x, y])


def laplace(name, plane):
    """The details of each level, and the coarsest level itself."""
    levels = gauss(name, plane)
    return [*(detail(f"{name}_detail{at}", *levels[at:at + 2]) for at in range(LEVELS - 1)), levels[-1]]


one, other, mask = tf.colours("one other mask")
masks = gauss("mask", mask)
blended = None
for level, (a, b, m) in reversed([*enumerate(zip(laplace("one", one), laplace("other", other), masks))]):
    value = (a[x, y] * m[x, y] + b[x, y] * (255 - m[x, y])) / 255
    if blended:
        value += tf.doubled(f"larger{level}", blended, like=m)[x, y]
    blended = tf.func(f"blended{level}", value)
program = tf.output(blended, max=255)
