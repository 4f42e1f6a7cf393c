"""Takes away slow changes of light: the picture, less a mean of 29 by 29 points, round grey. The border wraps round."""
import tilefarm as tf

picture = tf.image("picture")
x, y = tf.vars("x y")
p = tf.wrap(picture)
rows = tf.func("rows", tf.sum(p[x + at, y] for at in range(-14, 15)))
total = tf.func("total", tf.sum(rows[x, y + at] for at in range(-14, 15)))
flat = tf.func("flat", 128 + picture[x, y] - total[x, y] / 841)
program = tf.output(flat, max=255)
