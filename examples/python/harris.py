"""Corners by Harris: where a picture changes in both directions, by the sums of products of derivatives."""
import tilefarm as tf

picture = tf.mirror(tf.image("picture"))
x, y = tf.vars("x y")
down = tf.func("down", tf.stencil(picture, [[-1, -2, -1], [0, 0, 0], [1, 2, 1]], 8))
across = tf.func("across", tf.stencil(picture, [[-1, 0, 1], [-2, 0, 2], [-1, 0, 1]], 8))


def summed(name, value):
    """The sum over three by three points."""
    product = tf.func(f"{name}_at", value)
    return tf.func(name, tf.stencil(product, [[1, 1, 1]] * 3, 16))[x, y]


dd = summed("dd", down[x, y] * down[x, y])
aa = summed("aa", across[x, y] * across[x, y])
da = summed("da", down[x, y] * across[x, y])
response = tf.func("response", dd * aa - da * da - (dd + aa) * (dd + aa) / 16)
corners = tf.func("corners", tf.where(response[x, y] > 1000, tf.minimum(response[x, y] / 1000, 255), 0))
program = tf.output(corners, max=255)
