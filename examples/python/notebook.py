# ---
# jupyter: a notebook as text, in cells of "percent" form; Jupytext, VS Code and Spyder open it as a notebook
# ---

# %% [markdown]
# # Edges of a scene, step by step
# A program is shown as its graph, and a result as its picture.

# %%
import numpy as np
import tilefarm as tf

rows, cols = np.indices((120, 160))
scene = np.uint8(40 + rows / 2 + 110 * ((rows - 60) ** 2 + (cols - 80) ** 2 < 1600))

# %% [markdown]
# First the scene is softened. Beyond its border it is mirrored.

# %%
x, y = tf.vars("x y")
picture = tf.image("picture")
soft = tf.separable("soft", tf.mirror(picture), [1, 2, 1], divisor=16)
tf.output(soft)

# %%
tf.output(soft).run(scene)

# %% [markdown]
# An edge is where a point differs from the one to its left or above it. `explain` tells which domains were found.

# %%
p = tf.mirror(soft)
edges = tf.func("edges", 8 * tf.maximum(abs(p[x, y] - p[x, y - 1]), abs(p[x, y] - p[x - 1, y])))
program = tf.output(edges, totals=[tf.histogram("steep", edges[x, y])])
print(program.explain(scene.shape))

# %%
result = program.run(scene)
result

# %% [markdown]
# The histogram of the edges is an array.

# %%
result.totals["steep"].values[:12]
