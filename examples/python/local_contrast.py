"""Stretches each point between the least and the greatest value of the 15 by 15 points round it, by a table of reciprocals."""
import tilefarm as tf

RADIUS, LEAST_SPAN = 7, 32

picture = tf.image("picture")
x, y = tf.vars("x y")
near = range(-RADIUS, RADIUS + 1)
p = tf.clamp_to_edge(picture)
low_rows = tf.func("low_rows", tf.minimum(p[x + at, y] for at in near))
high_rows = tf.func("high_rows", tf.maximum(p[x + at, y] for at in near))
low = tf.func("low", tf.minimum(low_rows[x, y + at] for at in near))
high = tf.func("high", tf.maximum(high_rows[x, y + at] for at in near))
span = tf.func("span", tf.maximum(high[x, y] - low[x, y], LEAST_SPAN))
per = tf.reciprocals("per", most=255, bits=20)
stretched = tf.func("stretched", per.quotient(255 * (picture[x, y] - low[x, y]), span[x, y]))
program = tf.output(stretched, max=255)
