"""The median of three by three points, by a network of least and greatest values."""
import tilefarm as tf

picture = tf.clamp_to_edge(tf.image("picture"))
x, y = tf.vars("x y")
low, middle, high = (tf.func(name, value) for name, value in (
    ("low", tf.minimum(picture[x + at, y] for at in (-1, 0, 1))),
    ("middle", tf.maximum(tf.minimum(picture[x - 1, y], picture[x, y]), tf.minimum(tf.maximum(picture[x - 1, y], picture[x, y]), picture[x + 1, y]))),
    ("high", tf.maximum(picture[x + at, y] for at in (-1, 0, 1)))))


def middle_of(a, b, c):
    return tf.maximum(tf.minimum(a, b), tf.minimum(tf.maximum(a, b), c))


low_most = tf.maximum(low[x, y + at] for at in (-1, 0, 1))
high_least = tf.minimum(high[x, y + at] for at in (-1, 0, 1))
median = tf.func("median", middle_of(low_most, middle_of(*(middle[x, y + at] for at in (-1, 0, 1))), high_least))
program = tf.output(median, max=255)
