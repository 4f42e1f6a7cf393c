"""Canny's edges by two thresholds: thin ridges of the gradient, and weak ones where a strong one is near.

The direction of a gradient is one of four, by comparisons with tan 22.5 degrees, which is 13573 / 32768. A weak point counts if a strong one
is within four steps of weak points.
"""
import tilefarm as tf

LOW, HIGH, STEPS = 60, 150, 4

picture = tf.clamp_to_edge(tf.image("picture"))
x, y = tf.vars("x y")
down = tf.func("down", tf.stencil(picture, [[-1, -2, -1], [0, 0, 0], [1, 2, 1]]))
across = tf.func("across", tf.stencil(picture, [[-1, 0, 1], [-2, 0, 2], [-1, 0, 1]]))
steep = tf.func("steep", abs(down[x, y]) + abs(across[x, y]))
beyond = tf.constant(steep)


def is_ridge(row, col):
    """Whether a point is at least as steep as the next one to one side, and steeper than that to the other."""
    return (steep[x, y] > beyond[x - row, y - col]) & (steep[x, y] >= beyond[x + row, y + col])


tall, wide = abs(down[x, y]), abs(across[x, y])
is_same_sign = down[x, y] * across[x, y] >= 0
ridge = tf.func("ridge", tf.where(
    32768 * tall <= 13573 * wide, tf.where(is_ridge(0, 1), steep[x, y], 0), tf.where(
        32768 * wide <= 13573 * tall, tf.where(is_ridge(1, 0), steep[x, y], 0), tf.where(
            is_same_sign, tf.where(is_ridge(1, 1), steep[x, y], 0), tf.where(is_ridge(1, -1), steep[x, y], 0)))))

# 2 is strong, 1 is weak, 0 is none
strong = tf.func("strong", tf.where(ridge[x, y] > HIGH, 2, tf.where(ridge[x, y] > LOW, 1, 0)))
for step in range(STEPS):
    around = tf.constant(strong)
    near = tf.maximum(around[x + row, y + col] for row in (-1, 0, 1) for col in (-1, 0, 1))
    strong = tf.func(f"strong_{step}", tf.where(strong[x, y] == 1, tf.where(near == 2, 2, 1), strong[x, y]))
canny = tf.func("canny", tf.where(strong[x, y] == 2, 255, 0))
program = tf.output(canny, max=255)
