"""Black and white of a page in uneven light: a point is white if it is not much darker than the 11 by 11 points round it."""
import tilefarm as tf

OFFSET = 7

page = tf.image("page")
x, y = tf.vars("x y")
total = tf.separable("total", tf.clamp_to_edge(page), [1] * 11)
ink = tf.func("ink", tf.where(121 * (page[x, y] + OFFSET) > total[x, y], 255, 0))
program = tf.output(ink, max=255)
