"""A tone curve: lifts the shadows by a table that numpy computes."""
import numpy as np
import tilefarm as tf

curve = np.round(255 * (np.arange(256) / 255) ** (1 / 2.2)).astype(int)
picture = tf.image("picture")
x, y = tf.vars("x y")
tone = tf.table("tone", curve)
lifted = tf.func("lifted", tone[picture[x, y]])
program = tf.output(lifted, max=255)
