"""Makes all brightness about as frequent: `counts` counts, and `equal(totals)` is the program that its totals give."""
import numpy as np
import tilefarm as tf

picture = tf.image("picture")
x, y = tf.vars("x y")
counts = tf.totals(tf.histogram("counts", picture[x, y]))


def equal(totals):
    """The program that takes each value to how many points are at most as bright."""
    sums = np.cumsum(totals.values)
    table = tf.table("equal", 255 * sums // sums[-1])
    return tf.output(tf.func("equalised", table[picture[x, y]]), max=255)
