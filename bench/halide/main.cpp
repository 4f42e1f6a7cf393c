// Runs a pipeline that pipelines.cpp has compiled: halide PIPELINE SCHEDULE < PICTURE > RESULT, on HL_NUM_THREADS threads.
// It reads and writes as the C programs of bench/c do. LIST is the file that names what there is, as -DLIST='"list.h"'.
#include "HalideBuffer.h"

#include <cstdio>
#include <cstdlib>
#include <cstring>

using Halide::Runtime::Buffer;
using Compiled = int (*)(halide_buffer_t *, halide_buffer_t *);

#define X(PIPELINE, SCHEDULE) extern "C" int PIPELINE##_##SCHEDULE(halide_buffer_t *, halide_buffer_t *);
#include LIST
#undef X

static const struct {
    const char *pipeline, *schedule;
    Compiled run;
} compiled[] = {
#define X(PIPELINE, SCHEDULE) {#PIPELINE, #SCHEDULE, PIPELINE##_##SCHEDULE},
#include LIST
#undef X
};

// What a result lacks of the picture at each side, the width of the frame that is laid round it, its planes and its greatest sample.
struct Shape {
    const char *pipeline;
    int lacks, frame, planes, max;
};
static const Shape shapes[] = {
    {"copy", 0, 0, 1, 255},    {"blur", 1, 0, 1, 255},   {"unsharp", 2, 0, 3, 255},   {"sobel", 1, 1, 1, 255},  {"harris", 2, 0, 1, 65535},
    {"median", 1, 1, 1, 255},  {"conv15", 7, 0, 1, 255}, {"bilateral", 2, 0, 1, 255}, {"camera", 4, 0, 3, 255}, {"pyramid", 0, 0, 1, 255},
};

struct Picture {
    int cols, rows, planes, max;
    unsigned char *samples;
};

static void *with_memory(void *memory) {
    if (!memory) exit(5);
    return memory;
}

static Picture read_picture() {
    Picture p;
    int kind;
    if (scanf("P%d %d %d %d", &kind, &p.cols, &p.rows, &p.max) != 4 || (kind != 5 && kind != 6) || getchar() == EOF) exit(2);
    p.planes = kind == 6 ? 3 : 1;
    size_t length = (size_t)p.rows * p.cols * p.planes * (p.max > 255 ? 2 : 1);
    p.samples = (unsigned char *)with_memory(malloc(length));
    if (fread(p.samples, 1, length, stdin) != length || getchar() != EOF) exit(2);
    return p;
}

static Buffer<void> as_buffer(const Picture &p) {
    if (p.max > 255) return Buffer<uint16_t>((uint16_t *)p.samples, p.cols, p.rows);
    if (p.planes == 3) return Buffer<uint8_t>::make_interleaved(p.samples, p.cols, p.rows, 3);
    return Buffer<uint8_t>(p.samples, p.cols, p.rows);
}

static int histogram(Compiled run, Buffer<void> in) {
    Buffer<uint32_t> bins(256);
    if (run(in, bins)) return 4;
    printf("h 0..255:");
    for (int bin = 0; bin < 256; bin++) printf(" %u", bins(bin));
    putchar('\n');
    return fflush(stdout) ? 4 : 0;
}

// The frame of median is the picture's own, and that of sobel is 0.
static void copy_frame(const Picture &p, unsigned char *to) {
    size_t last = (size_t)(p.rows - 1) * p.cols;
    memcpy(to, p.samples, p.cols);
    memcpy(to + last, p.samples + last, p.cols);
    for (size_t at = 0; at <= last; at += p.cols) {
        to[at] = p.samples[at];
        to[at + p.cols - 1] = p.samples[at + p.cols - 1];
    }
}

static int picture(const Shape &s, Compiled run, const Picture &p) {
    int inner_cols = p.cols - 2 * s.lacks, inner_rows = p.rows - 2 * s.lacks;
    int cols = inner_cols + 2 * s.frame, rows = inner_rows + 2 * s.frame;
    size_t length = (size_t)cols * rows * s.planes * (s.max > 255 ? 2 : 1);
    unsigned char *result = (unsigned char *)with_memory(s.frame ? calloc(length, 1) : malloc(length));
    halide_dimension_t sides[3] = {{s.lacks, inner_cols, s.planes}, {s.lacks, inner_rows, cols * s.planes}, {0, 3, 1}};
    unsigned char *first = result + (s.frame ? cols + 1 : 0);
    int dimensions = s.planes == 3 ? 3 : 2;
    Buffer<void> out = s.max > 255 ? Buffer<void>(Buffer<uint16_t>((uint16_t *)first, dimensions, sides))
                                   : Buffer<void>(Buffer<uint8_t>(first, dimensions, sides));
    if (run(as_buffer(p), out)) return 4;
    if (!strcmp(s.pipeline, "median")) copy_frame(p, result);
    printf("P%d\n%d %d\n%d\n", s.planes == 3 ? 6 : 5, cols, rows, s.max);
    fwrite(result, 1, length, stdout);
    return fflush(stdout) ? 4 : 0;
}

int main(int argc, char **argv) {
    Compiled run = nullptr;
    for (auto &each : compiled)
        if (argc == 3 && !strcmp(argv[1], each.pipeline) && !strcmp(argv[2], each.schedule)) run = each.run;
    if (run && !strcmp(argv[1], "histogram")) return histogram(run, as_buffer(read_picture()));
    for (auto &shape : shapes)
        if (run && !strcmp(argv[1], shape.pipeline)) return picture(shape, run, read_picture());
    fprintf(stderr, "usage: halide PIPELINE SCHEDULE < PICTURE > RESULT\n");
    return 1;
}
