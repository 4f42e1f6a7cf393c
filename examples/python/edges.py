"""How steep a picture is: the greater of Sobel's two derivatives, by their absolute values."""
import tilefarm as tf

picture = tf.mirror(tf.image("picture"))
x, y = tf.vars("x y")
down = tf.func("down", tf.stencil(picture, [[-1, -2, -1], [0, 0, 0], [1, 2, 1]]))
across = tf.func("across", tf.stencil(picture, [[-1, 0, 1], [-2, 0, 2], [-1, 0, 1]]))
edges = tf.func("edges", tf.maximum(abs(down[x, y]), abs(across[x, y])))
program = tf.output(edges, max=255)
