/* Weighted sums of the points around a point. */
#include "pipelines.h"

void blur(const struct picture *p) {
    struct stage across = within(p, 0, 1), f = within(p, 1, 1);
    EACH_ROW(across) {
        const byte *restrict I = bytes(p, 0, x);
        number *restrict to = row(across, x);
        EACH_COLUMN(across) to[y] = (I[y - 1] + I[y] + I[y + 1]) / 3;
    }
    EACH_ROW(f) {
        const number *restrict above = row(across, x - 1), *restrict same = row(across, x), *restrict below = row(across, x + 1);
        number *restrict to = row(f, x);
        EACH_COLUMN(f) to[y] = (above[y] + same[y] + below[y]) / 3;
    }
    drop(across);
    write_grey(f, 255);
}

/* one plane, sharpened where it differs from the blurred one by more than 2 */
static struct stage sharpened(const struct picture *p, int plane) {
    struct stage across = within(p, 0, 2), f = within(p, 2, 2);
    EACH_ROW(across) {
        const byte *restrict I = bytes(p, plane, x);
        number *restrict to = row(across, x);
        EACH_COLUMN(across) to[y] = (I[y - 2] + 4 * I[y - 1] + 6 * I[y] + 4 * I[y + 1] + I[y + 2]) >> 4;
    }
    EACH_ROW(f) {
        const number *restrict a = row(across, x - 2), *restrict b = row(across, x - 1), *restrict c = row(across, x);
        const number *restrict d = row(across, x + 1), *restrict e = row(across, x + 2);
        const byte *restrict I = bytes(p, plane, x);
        number *restrict to = row(f, x);
        EACH_COLUMN(f) {
            number blurred = (a[y] + 4 * b[y] + 6 * c[y] + 4 * d[y] + e[y]) >> 4;
            to[y] = abs(I[y] - blurred) <= 2 ? I[y] : 4 * I[y] - 3 * blurred;
        }
    }
    drop(across);
    return f;
}

void unsharp(const struct picture *p) {
    struct stage red = sharpened(p, 0), green = sharpened(p, 1), blue = sharpened(p, 2);
    write_colours(red, green, blue);
}

/* how the picture changes from left to right and from top to bottom, at a point of the middle one of three rows */
#define ACROSS(a, b, c, y) (a[y + 1] - a[y - 1] + 2 * (b[y + 1] - b[y - 1]) + c[y + 1] - c[y - 1])
#define DOWN(a, b, c, y) (c[y - 1] - a[y - 1] + 2 * (c[y] - a[y]) + c[y + 1] - a[y + 1])

void sobel(const struct picture *p) {
    struct stage f = within(p, 0, 0);
    EACH_ROW(f) {
        number *restrict to = row(f, x);
        if (x == 0 || x == f.bottom) {
            EACH_COLUMN(f) to[y] = 0;
            continue;
        }
        const byte *restrict a = bytes(p, 0, x - 1), *restrict b = bytes(p, 0, x), *restrict c = bytes(p, 0, x + 1);
        to[0] = to[f.right] = 0;
        for (int y = 1; y < f.right; y++) to[y] = abs(ACROSS(a, b, c, y)) + abs(DOWN(a, b, c, y));
    }
    write_grey(f, 255);
}

/* the sum of the nine numbers around a point, of which each array is a row */
#define NINE(f, y) \
    (f[0][y - 1] + f[0][y] + f[0][y + 1] + f[1][y - 1] + f[1][y] + f[1][y + 1] + f[2][y - 1] + f[2][y] + f[2][y + 1])

/* the products of the changes */
static void products(const struct picture *p, struct stage xx, struct stage yy, struct stage xy) {
    EACH_ROW(xx) {
        const byte *restrict a = bytes(p, 0, x - 1), *restrict b = bytes(p, 0, x), *restrict c = bytes(p, 0, x + 1);
        number *restrict to_xx = row(xx, x), *restrict to_yy = row(yy, x), *restrict to_xy = row(xy, x);
        EACH_COLUMN(xx) {
            number across = ACROSS(a, b, c, y) >> 3, down = DOWN(a, b, c, y) >> 3;
            to_xx[y] = across * across;
            to_yy[y] = down * down;
            to_xy[y] = across * down;
        }
    }
}

void harris(const struct picture *p) {
    struct stage xx = within(p, 1, 1), yy = within(p, 1, 1), xy = within(p, 1, 1), f = within(p, 2, 2);
    products(p, xx, yy, xy);
    EACH_ROW(f) {
        const number *a[] = {row(xx, x - 1), row(xx, x), row(xx, x + 1)}, *b[] = {row(yy, x - 1), row(yy, x), row(yy, x + 1)};
        const number *c[] = {row(xy, x - 1), row(xy, x), row(xy, x + 1)};
        number *restrict to = row(f, x);
        EACH_COLUMN(f) {
            number sxx = NINE(a, y) / 9, syy = NINE(b, y) / 9, sxy = floored(NINE(c, y), 9), trace = sxx + syy;
            to[y] = (sxx * syy - sxy * sxy - trace * trace / 25) >> 8;
        }
    }
    drop(xx);
    drop(yy);
    drop(xy);
    write_grey(f, 65535);
}

static const number tent[15] = {1, 2, 3, 4, 5, 6, 7, 8, 7, 6, 5, 4, 3, 2, 1};

/* adds a row's part to the sums of another */
static void add_tent(number *restrict sums, const number *restrict I, int cols, number weight) {
    for (int y = 0; y < cols; y++) {
        number sum = sums[y];
#pragma GCC unroll 15
        for (int b = 0; b < 15; b++) sum += weight * tent[b] * I[y + b];
        sums[y] = sum;
    }
}

void conv15(const struct picture *p) {
    struct stage whole = numbers_of(p, 0), f = within(p, 7, 7);
    int cols = f.right - f.left + 1;
    EACH_ROW(f) {
        number *to = row(f, x);
        EACH_COLUMN(f) to[y] = 0;
        for (int a = 0; a < 15; a++) add_tent(to + f.left, row(whole, x + a - 7), cols, tent[a]);
        EACH_COLUMN(f) to[y] >>= 12;
    }
    write_grey(f, 255);
}

static const number near[5] = {1, 2, 3, 2, 1};

/* adds what a row's points differ from those of another, as far as that counts */
static void add_near(number *restrict sums, const byte *restrict I, const byte *restrict around, int cols, number weight) {
    for (int y = 0; y < cols; y++) {
        number sum = sums[y];
#pragma GCC unroll 5
        for (int b = 0; b < 5; b++) sum += weight * near[b] * clamped(around[y + b] - I[y + 2], -24, 24);
        sums[y] = sum;
    }
}

void bilateral(const struct picture *p) {
    struct stage f = within(p, 2, 2);
    int cols = f.right - f.left + 1;
    EACH_ROW(f) {
        const byte *I = bytes(p, 0, x);
        number *to = row(f, x);
        EACH_COLUMN(f) to[y] = 40;
        for (int a = 0; a < 5; a++) add_near(to + f.left, I, bytes(p, 0, x + a - 2), cols, near[a]);
        EACH_COLUMN(f) to[y] = I[y] + floored(to[y], 81);
    }
    write_grey(f, 255);
}
