"""The mean of nine by nine points, with the border repeated: sums down and across."""
import tilefarm as tf

picture = tf.image("picture")
mean = tf.separable("mean", tf.clamp_to_edge(picture), [1] * 9, divisor=81)
program = tf.output(mean, max=255)
