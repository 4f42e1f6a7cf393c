/* The pipelines of bench/pipelines. Each takes a picture, computes its functions stage by stage, and writes what they come to. */
#include "pictures.h"

typedef void pipeline(const struct picture *p);
pipeline copy, grey, tone, histogram, minmax, median, camera;   /* points.c, camera.c */
pipeline blur, unsharp, sobel, harris, conv15, bilateral;       /* stencils.c */
pipeline pyramid, blend, interpolate;                           /* pyramids.c */
