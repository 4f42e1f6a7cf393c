"""Half of each side, rounded up, as OpenCV's pyrDown."""
import tilefarm as tf

program = tf.output(tf.halved("half", tf.image("picture")), max=255)
