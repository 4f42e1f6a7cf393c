"""Closes dark gaps: the greatest of three by three points, then the least of these."""
import tilefarm as tf

x, y = tf.vars("x y")


def window(stage):
    p = tf.clamp_to_edge(stage)
    return [p[x + row, y + col] for row in (-1, 0, 1) for col in (-1, 0, 1)]


picture = tf.image("picture")
wider = tf.func("wider", tf.maximum(window(picture)))
closed = tf.func("closed", tf.minimum(window(wider)))
program = tf.output(closed, max=255)
