/* Reads raw PGM and PPM pictures and writes them. */
#include "pictures.h"

#include <stdio.h>
#include <time.h>

/* With -DTIMES it is told on standard error how many milliseconds lie between reading a picture and putting the result together. */
static struct timespec picture_read;

static void begin(void) { clock_gettime(CLOCK_MONOTONIC, &picture_read); }

static void end(void) {
#ifdef TIMES
    struct timespec now;
    clock_gettime(CLOCK_MONOTONIC, &now);
    fprintf(stderr, "%.3f\n", (now.tv_sec - picture_read.tv_sec) * 1e3 + (now.tv_nsec - picture_read.tv_nsec) / 1e6);
#endif
}

void *with_memory(void *memory) {
    if (!memory) exit(5);
    return memory;
}

static void refuse(void) {
    fprintf(stderr, "no raw PGM or PPM picture of at most 4096 by 4096 points, or too small a one\n");
    exit(2);
}

static void widen(struct picture *p, const uint8_t *restrict raster, size_t area) {
    byte *restrict bytes = with_memory(malloc(area * sizeof(byte)));
    for (size_t i = 0; i < area; i++) bytes[i] = raster[i];
    p->bytes[0] = bytes;
}

static void part(struct picture *p, const uint8_t *restrict raster, size_t area) {
    byte *restrict red = with_memory(malloc(area * sizeof(byte)));
    byte *restrict green = with_memory(malloc(area * sizeof(byte)));
    byte *restrict blue = with_memory(malloc(area * sizeof(byte)));
    for (size_t i = 0; i < area; i++) {
        red[i] = raster[3 * i];
        green[i] = raster[3 * i + 1];
        blue[i] = raster[3 * i + 2];
    }
    p->bytes[0] = red;
    p->bytes[1] = green;
    p->bytes[2] = blue;
}

static void join(struct picture *p, const uint8_t *restrict raster, size_t area) {
    word *restrict words = with_memory(malloc(area * sizeof(word)));
    for (size_t i = 0; i < area; i++) words[i] = raster[2 * i] << 8 | raster[2 * i + 1];
    p->words = words;
}

static struct picture read_whole(void) {
    struct picture p = {0};
    int kind;
    if (scanf("P%d %d %d %d", &kind, &p.cols, &p.rows, &p.max) != 4 || (kind != 5 && kind != 6)) refuse();
    if (p.cols < 1 || p.cols > 4096 || p.rows < 1 || p.rows > 4096 || p.max < 1 || p.max > 65535 || getchar() == EOF) refuse();
    if (kind == 6 && p.max > 255) refuse();
    p.planes = kind == 6 ? 3 : 1;
    size_t area = (size_t)p.rows * p.cols, length = area * p.planes * (p.max > 255 ? 2 : 1);
    uint8_t *raster = with_memory(malloc(length));
    if (fread(raster, 1, length, stdin) != length || getchar() != EOF) refuse();
    if (p.planes == 3)
        part(&p, raster, area);
    else if (p.max > 255)
        join(&p, raster, area);
    else if (sizeof(byte) > 1)
        widen(&p, raster, area);
    else {
        p.bytes[0] = (byte *)raster;
        return p;
    }
    free(raster);
    return p;
}

struct picture read_picture(void) {
    struct picture p = read_whole();
    begin();
    return p;
}

struct stage stage(int top, int bottom, int left, int right) {
    if (bottom < top || right < left) refuse();
    size_t area = (size_t)(bottom - top + 1) * (right - left + 1);
    return (struct stage){top, bottom, left, right, with_memory(malloc(area * sizeof(number)))};
}

void drop(struct stage f) { free(f.numbers); }

struct stage numbers_of(const struct picture *p, int plane) {
#ifdef NUMBERS
    return (struct stage){0, p->rows - 1, 0, p->cols - 1, p->bytes[plane]};
#else
    struct stage f = within(p, 0, 0);
    EACH_ROW(f) {
        const byte *restrict samples = bytes(p, plane, x);
        number *restrict to = row(f, x);
        EACH_COLUMN(f) to[y] = samples[y];
    }
    return f;
#endif
}

static void write_raster(int kind, struct stage f, int max, const uint8_t *raster, size_t length) {
    printf("P%d\n%d %d\n%d\n", kind, f.right - f.left + 1, f.bottom - f.top + 1, max);
    fwrite(raster, 1, length, stdout);
}

void write_grey(struct stage f, int max) {
    end();
    size_t area = (size_t)(f.bottom - f.top + 1) * (f.right - f.left + 1), length = area * (max > 255 ? 2 : 1);
    const number *restrict numbers = f.numbers;
    uint8_t *restrict raster = with_memory(malloc(length));
    if (max < 256)
        for (size_t i = 0; i < area; i++) raster[i] = clamped(numbers[i], 0, max);
    else
        for (size_t i = 0; i < area; i++) {
            number cut = clamped(numbers[i], 0, max);
            raster[2 * i] = cut >> 8;
            raster[2 * i + 1] = cut;
        }
    write_raster(5, f, max, raster, length);
}

void write_colours(struct stage r, struct stage g, struct stage b) {
    end();
    size_t area = (size_t)(r.bottom - r.top + 1) * (r.right - r.left + 1);
    const number *restrict red = r.numbers, *restrict green = g.numbers, *restrict blue = b.numbers;
    uint8_t *restrict raster = with_memory(malloc(3 * area));
    for (size_t i = 0; i < area; i++) {
        raster[3 * i] = clamped(red[i], 0, 255);
        raster[3 * i + 1] = clamped(green[i], 0, 255);
        raster[3 * i + 2] = clamped(blue[i], 0, 255);
    }
    write_raster(6, r, 255, raster, 3 * area);
}

void write_bins(const char *name, int count, const int64_t *bins) {
    end();
    printf("%s 0..%d:", name, count - 1);
    for (int bin = 0; bin < count; bin++) printf(" %lld", (long long)bins[bin]);
    printf("\n");
}
