/* The pipelines of examples/ in plain C, stage by stage and on one thread: a raw PGM of one-byte samples in, the result out.
   gcc -O3 -march=native -o pipelines pipelines.c && ./pipelines PIPELINE < INPUT.pgm > RESULT

   PIPELINE is copy, blur, half, sobel, unsharp, harris or histogram. Each function of examples/PIPELINE/PIPELINE.pipe is a whole
   array of 32-bit numbers, as large as the picture (of half: half as high and as wide), and filled by one pass over the points
   where it is not 0. */
#include <stdint.h>
#include <stdio.h>
#include <stdlib.h>
#include <string.h>

typedef uint8_t sample;
typedef int32_t number;

struct picture {
    int rows, cols;
    const sample *samples;
};

static size_t area(const struct picture *p) { return (size_t)p->rows * p->cols; }

static void *with_memory(void *memory) {
    if (!memory) exit(5);
    return memory;
}

/* a stage of the picture's sides, 0 everywhere */
static number *stage(const struct picture *p) { return with_memory(calloc(area(p), sizeof(number))); }

static int read_picture(FILE *in, struct picture *p) {
    int max;
    if (fscanf(in, "P5 %d %d %d", &p->cols, &p->rows, &max) != 3 || max != 255) return 0;
    if (p->cols < 1 || p->cols > 4096 || p->rows < 1 || p->rows > 4096 || fgetc(in) == EOF) return 0;
    sample *samples = with_memory(malloc(area(p)));
    p->samples = samples;
    return fread(samples, 1, area(p), in) == area(p) && fgetc(in) == EOF;
}

/* writes a stage as a picture, each value cut to 0 to 255 */
static void write_picture(const struct picture *p, const number *restrict values) {
    sample *restrict samples = with_memory(malloc(area(p)));
    for (size_t i = 0; i < area(p); i++) samples[i] = values[i] < 0 ? 0 : values[i] > 255 ? 255 : values[i];
    printf("P5\n%d %d\n255\n", p->cols, p->rows);
    fwrite(samples, 1, area(p), stdout);
}

/* goes over the points (x, y) that are so many rows and columns away from the border; i is the point's place in an array */
#define EACH_POINT(p, ROWS, COLS)                                       \
    for (int x = (ROWS), C = (p)->cols; x < (p)->rows - (ROWS); x++)    \
        for (int y = (COLS), i = x * C + y; y < C - (COLS); y++, i++)

/* the weighted sum of the nine numbers around place i */
#define AROUND(f, w)                                                                        \
    ((w)[0][0] * (f)[i - C - 1] + (w)[0][1] * (f)[i - C] + (w)[0][2] * (f)[i - C + 1] +     \
     (w)[1][0] * (f)[i - 1] + (w)[1][1] * (f)[i] + (w)[1][2] * (f)[i + 1] +                 \
     (w)[2][0] * (f)[i + C - 1] + (w)[2][1] * (f)[i + C] + (w)[2][2] * (f)[i + C + 1])

static const number ones[3][3] = {{1, 1, 1}, {1, 1, 1}, {1, 1, 1}};
static const number rightwards[3][3] = {{-1, 0, 1}, {-2, 0, 2}, {-1, 0, 1}};
static const number downwards[3][3] = {{-1, -2, -1}, {0, 0, 0}, {1, 2, 1}};

static void copy(const struct picture *p) {
    const sample *restrict I = p->samples;
    number *restrict f = stage(p);
    EACH_POINT(p, 0, 0) f[i] = I[i];
    write_picture(p, f);
}

static void blur(const struct picture *p) {
    const sample *restrict I = p->samples;
    number *restrict f = stage(p);
    EACH_POINT(p, 0, 0) f[i] = I[i];
    EACH_POINT(p, 1, 1) f[i] = AROUND(I, ones) / 9;
    write_picture(p, f);
}

static void half(const struct picture *p) {
    const struct picture small = {p->rows / 2, p->cols / 2, NULL};
    const sample *restrict I = p->samples;
    number *restrict f = stage(&small);
    EACH_POINT(&small, 0, 0) {
        const sample *upper = I + 4 * (size_t)x * C + 2 * y, *lower = upper + 2 * C;
        f[i] = (upper[0] + upper[1] + lower[0] + lower[1]) / 4;
    }
    write_picture(&small, f);
}

/* how the picture changes, shifted right; >> rounds down, also below 0 */
static number *change(const struct picture *p, const number weights[3][3], int shift) {
    const sample *restrict I = p->samples;
    number *restrict f = stage(p);
    EACH_POINT(p, 1, 1) f[i] = AROUND(I, weights) >> shift;
    return f;
}

static number *edges(const struct picture *p, const number *restrict across, const number *restrict down) {
    number *restrict f = stage(p);
    EACH_POINT(p, 1, 1) {
        number quarter = (abs(across[i]) + abs(down[i])) / 4;
        f[i] = quarter < 255 ? quarter : 255;
    }
    return f;
}

static void sobel(const struct picture *p) {
    const number *across = change(p, rightwards, 0), *down = change(p, downwards, 0);
    write_picture(p, edges(p, across, down));
}

static number *blurred_down(const struct picture *p) {
    const sample *restrict I = p->samples;
    number *restrict f = stage(p);
    EACH_POINT(p, 2, 0) f[i] = (I[i - 2 * C] + 4 * I[i - C] + 6 * I[i] + 4 * I[i + C] + I[i + 2 * C]) / 16;
    return f;
}

static number *blurred(const struct picture *p, const number *restrict down) {
    number *restrict f = stage(p);
    EACH_POINT(p, 2, 2) f[i] = (down[i - 2] + 4 * down[i - 1] + 6 * down[i] + 4 * down[i + 1] + down[i + 2]) / 16;
    return f;
}

static number *sharpened(const struct picture *p, const number *restrict blur) {
    const sample *restrict I = p->samples;
    number *restrict f = stage(p);
    EACH_POINT(p, 2, 2) f[i] = 4 * I[i] - 3 * blur[i];
    return f;
}

static number *masked(const struct picture *p, const number *restrict blur, const number *restrict sharp) {
    const sample *restrict I = p->samples;
    number *restrict f = stage(p);
    EACH_POINT(p, 0, 0) f[i] = I[i];
    EACH_POINT(p, 2, 2) f[i] = abs(I[i] - blur[i]) <= 3 ? I[i] : sharp[i];
    return f;
}

static void unsharp(const struct picture *p) {
    const number *blur = blurred(p, blurred_down(p));
    write_picture(p, masked(p, blur, sharpened(p, blur)));
}

static number *product(const struct picture *p, const number *restrict a, const number *restrict b) {
    number *restrict f = stage(p);
    EACH_POINT(p, 1, 1) f[i] = a[i] * b[i];
    return f;
}

static number *square(const struct picture *p, const number *restrict a) {
    number *restrict f = stage(p);
    EACH_POINT(p, 1, 1) f[i] = a[i] * a[i];
    return f;
}

static number *sum_of_nine(const struct picture *p, const number *restrict a) {
    number *restrict f = stage(p);
    EACH_POINT(p, 2, 2) f[i] = AROUND(a, ones);
    return f;
}

static number *determinant(const struct picture *p, const number *restrict a, const number *restrict b, const number *restrict c) {
    number *restrict f = stage(p);
    EACH_POINT(p, 2, 2) f[i] = a[i] * c[i] - b[i] * b[i];
    return f;
}

static number *sum(const struct picture *p, const number *restrict a, const number *restrict b) {
    number *restrict f = stage(p);
    EACH_POINT(p, 2, 2) f[i] = a[i] + b[i];
    return f;
}

static number *corners(const struct picture *p, const number *restrict det, const number *restrict trace) {
    number *restrict f = stage(p);
    EACH_POINT(p, 2, 2) f[i] = (det[i] - trace[i] / 5 * (trace[i] / 5)) >> 16;
    return f;
}

static void harris(const struct picture *p) {
    const number *ix = change(p, rightwards, 4), *iy = change(p, downwards, 4);
    const number *ixx = square(p, ix), *ixy = product(p, ix, iy), *iyy = square(p, iy);
    const number *sxx = sum_of_nine(p, ixx), *sxy = sum_of_nine(p, ixy), *syy = sum_of_nine(p, iyy);
    write_picture(p, corners(p, determinant(p, sxx, sxy, syy), sum(p, sxx, syy)));
}

static void histogram(const struct picture *p) {
    int64_t bins[16] = {0};
    for (size_t i = 0; i < area(p); i++) bins[p->samples[i] / 16]++;
    printf("histogram 0..15:");
    for (int bin = 0; bin < 16; bin++) printf(" %lld", (long long)bins[bin]);
    printf("\n");
}

int main(int argc, char **argv) {
    static const struct {
        const char *name;
        void (*run)(const struct picture *);
    } pipelines[] = {{"copy", copy},       {"blur", blur},     {"half", half},          {"sobel", sobel},
                     {"unsharp", unsharp}, {"harris", harris}, {"histogram", histogram}};
    for (size_t i = 0; argc == 2 && i < sizeof pipelines / sizeof *pipelines; i++) {
        if (strcmp(argv[1], pipelines[i].name) != 0) continue;
        struct picture p;
        if (!read_picture(stdin, &p)) return 2;
        pipelines[i].run(&p);
        return fflush(stdout) == 0 && !ferror(stdout) ? 0 : 4;
    }
    fprintf(stderr, "usage: pipelines copy|blur|half|sobel|unsharp|harris|histogram < INPUT.pgm > RESULT\n");
    return 1;
}
