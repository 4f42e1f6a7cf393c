"""Colours of a Bayer mosaic (red, green; green, blue) by the means of the nearest samples of each colour."""
import tilefarm as tf

mosaic = tf.mirror(tf.image("mosaic"))
x, y = tf.vars("x y")
here = mosaic[x, y]
beside = (mosaic[x, y - 1] + mosaic[x, y + 1]) / 2
above = (mosaic[x - 1, y] + mosaic[x + 1, y]) / 2
corners = (mosaic[x - 1, y - 1] + mosaic[x - 1, y + 1] + mosaic[x + 1, y - 1] + mosaic[x + 1, y + 1]) / 4
cross = (mosaic[x - 1, y] + mosaic[x + 1, y] + mosaic[x, y - 1] + mosaic[x, y + 1]) / 4
is_red, is_blue = (x % 2 == 0) & (y % 2 == 0), (x % 2 == 1) & (y % 2 == 1)
is_beside_red = (x % 2 == 0) & (y % 2 == 1)
red = tf.func("red", tf.cases((is_red, here), (is_beside_red, beside), (is_blue, corners), otherwise=above))
green = tf.func("green", tf.cases((is_red | is_blue, cross), otherwise=here))
blue = tf.func("blue", tf.cases((is_blue, here), (is_beside_red, above), (is_red, corners), otherwise=beside))
program = tf.output(red, green, blue, max=255)
