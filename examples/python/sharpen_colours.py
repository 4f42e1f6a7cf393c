"""Sharpens each plane of a picture in colours by one function."""
import tilefarm as tf

x, y = tf.vars("x y")


def sharp(plane):
    p = tf.mirror(plane)
    around = p[x - 1, y] + p[x + 1, y] + p[x, y - 1] + p[x, y + 1]
    return tf.func(f"{plane.name}_sharp", 2 * plane[x, y] - around / 4)


program = tf.output(*map(sharp, tf.colours("r g b")), max=255)
