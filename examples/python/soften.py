"""Softens a picture by weights 1 4 6 4 1 down and across, mirrored at its border."""
import tilefarm as tf

picture = tf.image("picture")
weights = [1, 4, 6, 4, 1]
soft = tf.separable("soft", tf.mirror(picture), weights, divisor=256)
program = tf.output(soft, max=255)
