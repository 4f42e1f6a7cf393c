"""One grey plane of three in colours, by how bright each colour is to the eye."""
import tilefarm as tf

r, g, b = tf.colours("r g b")
x, y = tf.vars("x y")
grey = tf.func("grey", (299 * r[x, y] + 587 * g[x, y] + 114 * b[x, y] + 500) / 1000)
program = tf.output(grey, max=255)
