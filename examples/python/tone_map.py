"""Maps 16 bits to 8: a curve of what is local, so that both the dark and the bright parts of a scene keep their detail.

The picture is divided into a soft base, which a table compresses, and detail, which is kept."""
import numpy as np
import tilefarm as tf

curve = np.round(255 * np.sqrt(np.arange(4096) / 4095)).astype(int)
scene = tf.image("scene")
x, y = tf.vars("x y")
base = tf.separable("base", tf.clamp_to_edge(scene), [1, 2, 3, 4, 3, 2, 1], divisor=256)
compress = tf.table("compress", curve)
mapped = tf.func("mapped", compress[base[x, y] >> 4] + (scene[x, y] - base[x, y]) / 256)
program = tf.output(mapped, max=255)
