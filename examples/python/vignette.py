"""Darkens towards the corners: a value of the point's place alone, times the picture."""
import tilefarm as tf

picture = tf.image("picture")
x, y = tf.vars("x y")
rows, cols = tf.sides()
down = tf.func("down", abs(2 * x - rows + 1))
across = tf.func("across", abs(2 * y - cols + 1))
far = tf.func("far", tf.maximum(down[x, y], across[x, y]))
dark = tf.func("dark", picture[x, y] * tf.maximum(256 - far[x, y] / 4, 64) / 256)
program = tf.output(dark, max=255)
