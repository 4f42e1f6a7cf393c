"""The brown of old prints: each new colour is a weighted sum of the three old ones."""
import tilefarm as tf

MATRIX = {"red": (393, 769, 189), "green": (349, 686, 168), "blue": (272, 534, 131)}

planes = tf.colours("r g b")
x, y = tf.vars("x y")
mixed = [tf.func(name, tf.sum(weight * plane[x, y] for weight, plane in zip(weights, planes)) / 1000) for name, weights in MATRIX.items()]
program = tf.output(*mixed, max=255)
