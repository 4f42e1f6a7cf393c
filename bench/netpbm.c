/* Reads a raw PGM or PPM into planes of 16-bit samples and writes it back, so many times; prints the milliseconds of each round.
   gcc -O3 -o netpbm_c netpbm.c && ./netpbm_c INPUT ROUNDS > OUTPUT 2> TIMES */
#include <stdint.h>
#include <stdio.h>
#include <stdlib.h>
#include <string.h>
#include <time.h>

struct picture {
    unsigned colours, cols, rows, max;
    uint16_t *samples[3];
};

static double now(void) {
    struct timespec t;
    clock_gettime(CLOCK_MONOTONIC, &t);
    return t.tv_sec * 1e3 + t.tv_nsec / 1e6;
}

static unsigned word(const uint8_t *bytes) { return bytes[0] << 8 | bytes[1]; }

static void read_grey(uint16_t *restrict grey, const uint8_t *restrict raster, size_t area, size_t width) {
    if (width == 1)
        for (size_t i = 0; i < area; i++) grey[i] = raster[i];
    else
        for (size_t i = 0; i < area; i++) grey[i] = word(raster + 2 * i);
}

static void read_colours(uint16_t *restrict red, uint16_t *restrict green, uint16_t *restrict blue, const uint8_t *restrict raster,
                         size_t area, size_t width) {
    if (width == 1)
        for (size_t i = 0; i < area; i++) red[i] = raster[3 * i], green[i] = raster[3 * i + 1], blue[i] = raster[3 * i + 2];
    else
        for (size_t i = 0; i < area; i++)
            red[i] = word(raster + 6 * i), green[i] = word(raster + 6 * i + 2), blue[i] = word(raster + 6 * i + 4);
}

/* whether the bytes are a picture */
static int read_picture(const uint8_t *bytes, size_t len, struct picture *p) {
    int used = 0;
    char kind;
    if (sscanf((const char *)bytes, "P%c %u %u %u%n", &kind, &p->cols, &p->rows, &p->max, &used) != 4) return 0;
    if (kind != '5' && kind != '6') return 0;
    p->colours = kind == '5' ? 1 : 3;
    const uint8_t *raster = bytes + used + 1;
    size_t area = (size_t)p->cols * p->rows;
    size_t width = p->max < 256 ? 1 : 2;
    if ((size_t)(bytes + len - raster) != p->colours * area * width) return 0;
    for (unsigned c = 0; c < p->colours; c++)
        if (!(p->samples[c] = malloc(area * sizeof *p->samples[c]))) return 0;
    if (p->colours == 1)
        read_grey(p->samples[0], raster, area, width);
    else
        read_colours(p->samples[0], p->samples[1], p->samples[2], raster, area, width);
    unsigned most = 0;
    for (unsigned c = 0; c < p->colours; c++)
        for (size_t i = 0; i < area; i++)
            if (p->samples[c][i] > most) most = p->samples[c][i];
    return most <= p->max;
}

static void write_bytes(uint8_t *restrict piece, const struct picture *p, size_t done, size_t n) {
    const uint16_t *red = p->samples[0] + done;
    if (p->colours == 1) {
        for (size_t i = 0; i < n; i++) piece[i] = (uint8_t)red[i];
        return;
    }
    const uint16_t *green = p->samples[1] + done, *blue = p->samples[2] + done;
    for (size_t i = 0; i < n; i++)
        piece[3 * i] = (uint8_t)red[i], piece[3 * i + 1] = (uint8_t)green[i], piece[3 * i + 2] = (uint8_t)blue[i];
}

static void write_words(uint8_t *restrict piece, const struct picture *p, size_t done, size_t n) {
    for (unsigned c = 0; c < p->colours; c++) {
        const uint16_t *plane = p->samples[c] + done;
        for (size_t i = 0; i < n; i++) {
            piece[2 * (p->colours * i + c)] = plane[i] >> 8;
            piece[2 * (p->colours * i + c) + 1] = plane[i] & 0xff;
        }
    }
}

static void write_picture(FILE *out, const struct picture *p) {
    static uint8_t piece[6 * 16384];
    size_t area = (size_t)p->cols * p->rows;
    fprintf(out, "P%c\n%u %u\n%u\n", p->colours == 1 ? '5' : '6', p->cols, p->rows, p->max);
    size_t width = p->colours * (p->max < 256 ? 1 : 2);
    size_t step = sizeof piece / width;
    for (size_t done = 0; done < area; done += step) {
        size_t n = area - done < step ? area - done : step;
        if (p->max < 256)
            write_bytes(piece, p, done, n);
        else
            write_words(piece, p, done, n);
        fwrite(piece, 1, n * width, out);
    }
    fflush(out);
}

int main(int argc, char **argv) {
    FILE *in = fopen(argv[1], "rb");
    int rounds = atoi(argv[2]);
    fseek(in, 0, SEEK_END);
    size_t len = ftell(in);
    for (int round = 0; round < rounds; round++) {
        double t0 = now();
        rewind(in);
        uint8_t *bytes = malloc(len + 1);
        if (fread(bytes, 1, len, in) != len) return 1;
        bytes[len] = 0;
        double t1 = now();
        struct picture p;
        if (!read_picture(bytes, len, &p)) return 2;
        double t2 = now();
        write_picture(stdout, &p);
        double t3 = now();
        fprintf(stderr, "input %.2f read %.2f write %.2f all %.2f ms\n", t1 - t0, t2 - t1, t3 - t2, t3 - t0);
        for (unsigned c = 0; c < p.colours; c++) free(p.samples[c]);
        free(bytes);
    }
    return 0;
}
