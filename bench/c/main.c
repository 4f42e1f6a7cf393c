/* The pipelines of bench/pipelines in plain C, stage by stage and on one thread: a raw picture in, the result out.
   gcc -O3 -march=native -o pipelines bench/c/[a-z]*.c && ./pipelines PIPELINE < INPUT > RESULT

   PIPELINE is the name of a file NAME.pipe. Samples are kept in bytes, as they are read, or in words; with -DNUMBERS in whole arrays of
   32-bit numbers, as stages are. What a stencil or an index other
   than a point's own reads is a whole array of 32-bit numbers, filled by loops over its rows; what is read at a point alone is computed
   where it is read. An array is let go behind the last stage that reads it. With -fopenmp several threads have rows of their own in
   each loop over rows; with -DTIMES it is told how many milliseconds the stages took. */
#include "pipelines.h"

#include <stdio.h>
#include <string.h>

/* each with the planes of its picture, and what divides the picture's sides */
static const struct {
    const char *name;
    int planes, part;
    pipeline *run;
} all[] = {
    {"copy", 1, 1, copy},           {"grey", 3, 1, grey},           {"blur", 1, 1, blur},     {"unsharp", 3, 1, unsharp},
    {"sobel", 1, 1, sobel},         {"harris", 1, 1, harris},       {"median", 1, 1, median}, {"conv15", 1, 1, conv15},
    {"bilateral", 1, 1, bilateral}, {"pyramid", 1, 16, pyramid},    {"blend", 3, 8, blend},   {"interpolate", 3, 16, interpolate},
    {"camera", 1, 1, camera},       {"histogram", 1, 1, histogram}, {"minmax", 1, 1, minmax}, {"tone", 1, 1, tone},
};

int main(int argc, char **argv) {
    for (size_t i = 0; argc == 2 && i < sizeof all / sizeof *all; i++) {
        if (strcmp(argv[1], all[i].name) != 0) continue;
        struct picture p = read_picture();
        if (p.planes != all[i].planes || (p.max > 255) != (all[i].run == camera)) return 2;
        if (p.rows % all[i].part != 0 || p.cols % all[i].part != 0) return 2;
        all[i].run(&p);
        return fflush(stdout) == 0 && !ferror(stdout) ? 0 : 4;
    }
    fprintf(stderr, "usage: pipelines PIPELINE < INPUT > RESULT\n");
    return 1;
}
