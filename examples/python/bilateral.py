"""Softens surfaces and keeps edges: the mean of five by five points, weighted by how near they are in place and in value."""
import numpy as np
import tilefarm as tf

near = np.outer([1, 2, 3, 2, 1], [1, 2, 3, 2, 1])
similar = np.round(16 * np.exp(-(np.arange(256) / 25) ** 2 / 2)).astype(int)

picture = tf.image("picture")
p = tf.mirror(picture)
x, y = tf.vars("x y")
weight_of = tf.table("weight_of", similar)
values = [(int(near[row + 2, col + 2]), p[x + row, y + col]) for row in range(-2, 3) for col in range(-2, 3)]
weights = [factor * weight_of[abs(value - picture[x, y])] for factor, value in values]
total = tf.func("total", tf.sum(weights))
weighted = tf.func("weighted", tf.sum(weight * value for weight, (_, value) in zip(weights, values)))
per = tf.reciprocals("per", most=int(near.sum()) * 16, bits=20)
smooth = tf.func("smooth", per.quotient(weighted[x, y], total[x, y]))
program = tf.output(smooth, max=255)
