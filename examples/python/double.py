"""Twice each side: the values between the points are weighted means."""
import tilefarm as tf

program = tf.output(tf.doubled("twice", tf.image("picture")), max=255)
