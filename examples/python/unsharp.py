"""Sharpens: adds how far a point is from the softened picture, where that is more than noise."""
import tilefarm as tf

AMOUNT, NOISE = 3, 4

picture = tf.image("picture")
x, y = tf.vars("x y")
soft = tf.separable("soft", tf.mirror(picture), [1, 4, 6, 4, 1], divisor=256)
detail = picture[x, y] - soft[x, y]
sharp = tf.func("sharp", tf.where(abs(detail) > NOISE, picture[x, y] + AMOUNT * detail / 2, picture[x, y]))
program = tf.output(sharp, max=255)
