/* Pictures that are halved again and again, and made large again. */
#include "pipelines.h"

enum { MOST = 5 };

/* The same for rows of bytes, which pictures have, and of numbers:
   NAME_halved: one row of half as many, from four rows, or at the border from the middle two of them
   NAME_bold:   adds the details of a level, half as strong again: what it has beside the next smaller one made large
   NAME_blend:  adds the details of two levels, by how much of each is wanted */
#define ROWS_OF(NAME, TYPE)                                                                                                        \
    static void NAME##_halved(number *restrict to, const TYPE *a, const TYPE *b, const TYPE *c, const TYPE *d, int cols) {         \
        if (a)                                                                                                                     \
            for (int y = 0; y < cols; y++) to[y] = (a[y] + 3 * b[y] + 3 * c[y] + d[y] + 4) >> 3;                                   \
        else                                                                                                                       \
            for (int y = 0; y < cols; y++) to[y] = (b[y] + c[y]) >> 1;                                                             \
    }                                                                                                                              \
    static void NAME##_bold(number *to, const TYPE *level, const number *large, int cols) {                                        \
        for (int y = 0; y < cols; y++) to[y] += 3 * (level[y] - large[y]) >> 1;                                                    \
    }                                                                                                                              \
    static void NAME##_blend(number *restrict to, const TYPE *a, const TYPE *b, const TYPE *m, const number *large_a,              \
                             const number *large_b, int cols) {                                                                    \
        for (int y = 0; y < cols; y++)                                                                                             \
            to[y] += floored(m[y] * (a[y] - large_a[y]) + (255 - m[y]) * (b[y] - large_b[y]) + 127, 255);                          \
    }
ROWS_OF(bytes, byte)
ROWS_OF(numbers, number)

/* half as many columns of what is let go */
static struct stage columns_halved(struct stage f) {
    int cols = (f.right + 1) / 2;
    struct stage half = stage(0, f.bottom, 0, cols - 1);
    EACH_ROW(half) {
        const number *restrict s = row(f, x);
        number *restrict to = row(half, x);
        to[0] = (s[0] + s[1]) >> 1;
        for (int y = 1; y < cols - 1; y++) to[y] = (s[2 * y - 1] + 3 * s[2 * y] + 3 * s[2 * y + 1] + s[2 * y + 2] + 4) >> 3;
        to[cols - 1] = (s[2 * cols - 2] + s[2 * cols - 1]) >> 1;
    }
    drop(f);
    return half;
}

static struct stage plane_halved(const struct picture *p, int plane) {
    struct stage f = stage(0, p->rows / 2 - 1, 0, p->cols - 1);
    EACH_ROW(f) {
        int is_inner = x > 0 && x < f.bottom, y = 2 * x;
        bytes_halved(row(f, x), is_inner ? bytes(p, plane, y - 1) : NULL, bytes(p, plane, y), bytes(p, plane, y + 1),
                     is_inner ? bytes(p, plane, y + 2) : NULL, p->cols);
    }
    return columns_halved(f);
}

static struct stage halved(struct stage whole) {
    struct stage f = stage(0, (whole.bottom + 1) / 2 - 1, 0, whole.right);
    EACH_ROW(f) {
        int is_inner = x > 0 && x < f.bottom, y = 2 * x;
        numbers_halved(row(f, x), is_inner ? row(whole, y - 1) : NULL, row(whole, y), row(whole, y + 1),
                       is_inner ? row(whole, y + 2) : NULL, whole.right + 1);
    }
    return columns_halved(f);
}

/* twice as many rows */
static struct stage rows_doubled(struct stage small) {
    struct stage f = stage(0, 2 * small.bottom + 1, 0, small.right);
    EACH_ROW(f) {
        const number *restrict a = row(small, (x - (x > 0)) / 2), *restrict b = row(small, (x + (x < f.bottom)) / 2);
        number *restrict to = row(f, x);
        if (x == 0 || x == f.bottom) {
            EACH_COLUMN(f) to[y] = a[y];
        } else if (x % 2 == 0) {
            EACH_COLUMN(f) to[y] = (a[y] + 3 * b[y] + 2) >> 2;
        } else {
            EACH_COLUMN(f) to[y] = (3 * a[y] + b[y] + 2) >> 2;
        }
    }
    return f;
}

/* twice as many rows and columns */
static struct stage doubled(struct stage small) {
    struct stage rows = rows_doubled(small), f = stage(0, rows.bottom, 0, 2 * small.right + 1);
    EACH_ROW(f) {
        const number *restrict s = row(rows, x);
        number *restrict to = row(f, x);
        to[0] = s[0];
        for (int y = 0; y < small.right; y++) {
            to[2 * y + 1] = (3 * s[y] + s[y + 1] + 2) >> 2;
            to[2 * y + 2] = (s[y] + 3 * s[y + 1] + 2) >> 2;
        }
        to[f.right] = s[small.right];
    }
    drop(rows);
    return f;
}

void pyramid(const struct picture *p) {
    struct stage small[MOST], f;
    small[1] = plane_halved(p, 0);
    for (int level = 2; level < MOST; level++) small[level] = halved(small[level - 1]);
    for (int level = MOST - 2; level >= 0; level--) {
        struct stage large = doubled(small[level + 1]), grown = doubled(level == MOST - 2 ? small[level + 1] : f);
        EACH_ROW(grown) {
            if (level)
                numbers_bold(row(grown, x), row(small[level], x), row(large, x), grown.right + 1);
            else
                bytes_bold(row(grown, x), bytes(p, 0, x), row(large, x), grown.right + 1);
        }
        if (level < MOST - 2) drop(f);
        drop(large);
        drop(small[level + 1]);
        f = grown;
    }
    write_grey(f, 255);
}

/* two numbers by how much of the first is wanted */
static struct stage blended(struct stage one, struct stage two, struct stage mask) {
    struct stage f = stage(0, one.bottom, 0, one.right);
    EACH_ROW(f) {
        const number *restrict a = row(one, x), *restrict b = row(two, x), *restrict m = row(mask, x);
        number *restrict to = row(f, x);
        EACH_COLUMN(f) to[y] = (m[y] * a[y] + (255 - m[y]) * b[y] + 127) / 255;
    }
    return f;
}

void blend(const struct picture *p) {
    enum { ONE, TWO, MASK, LEVELS = 4 };
    struct stage small[3][LEVELS];
    for (int plane = ONE; plane <= MASK; plane++) {
        small[plane][1] = plane_halved(p, plane);
        for (int level = 2; level < LEVELS; level++) small[plane][level] = halved(small[plane][level - 1]);
    }
    struct stage f = blended(small[ONE][LEVELS - 1], small[TWO][LEVELS - 1], small[MASK][LEVELS - 1]);
    for (int level = LEVELS - 2; level >= 0; level--) {
        struct stage one = doubled(small[ONE][level + 1]), two = doubled(small[TWO][level + 1]), grown = doubled(f);
        EACH_ROW(grown) {
            const number *wide_one = row(one, x), *wide_two = row(two, x);
            number *to = row(grown, x);
            if (level)
                numbers_blend(to, row(small[ONE][level], x), row(small[TWO][level], x), row(small[MASK][level], x), wide_one, wide_two,
                              grown.right + 1);
            else
                bytes_blend(to, bytes(p, ONE, x), bytes(p, TWO, x), bytes(p, MASK, x), wide_one, wide_two, grown.right + 1);
        }
        drop(one);
        drop(two);
        drop(f);
        for (int plane = ONE; plane <= MASK; plane++) drop(small[plane][level + 1]);
        f = grown;
    }
    write_grey(f, 255);
}

/* at what rate each value is known, and the value times that */
static void rates(const struct picture *p, struct stage rate, struct stage sum) {
    EACH_ROW(rate) {
        const byte *restrict value = bytes(p, 0, x), *restrict known = bytes(p, 2, x);
        number *restrict to_rate = row(rate, x), *restrict to_sum = row(sum, x);
        EACH_COLUMN(rate) {
            to_rate[y] = 16 * known[y] + (known[y] >> 4);
            to_sum[y] = value[y] * to_rate[y] >> 4;
        }
    }
}

/* fills what is not known of a level from the next smaller one made large, which becomes the filled level */
static void fill(struct stage rate, struct stage sum, struct stage large_rate, struct stage large_sum) {
    EACH_ROW(rate) {
        const number *restrict a = row(rate, x), *restrict s = row(sum, x);
        number *restrict to_rate = row(large_rate, x), *restrict to_sum = row(large_sum, x);
        EACH_COLUMN(rate) {
            number rest = 4096 - a[y];
            to_rate[y] = a[y] + (rest * to_rate[y] >> 12);
            to_sum[y] = s[y] + (rest * to_sum[y] >> 12);
        }
    }
}

void interpolate(const struct picture *p) {
    struct stage rate[MOST] = {within(p, 0, 0)}, sum[MOST] = {within(p, 0, 0)};
    rates(p, rate[0], sum[0]);
    for (int level = 1; level < MOST; level++) rate[level] = halved(rate[level - 1]), sum[level] = halved(sum[level - 1]);
    for (int level = MOST - 2; level >= 0; level--) {
        struct stage large_rate = doubled(rate[level + 1]), large_sum = doubled(sum[level + 1]);
        fill(rate[level], sum[level], large_rate, large_sum);
        drop(rate[level + 1]);
        drop(sum[level + 1]);
        drop(rate[level]);
        drop(sum[level]);
        rate[level] = large_rate;
        sum[level] = large_sum;
    }
    struct stage f = within(p, 0, 0);
    EACH_ROW(f) {
        const number *restrict a = row(rate[0], x), *restrict s = row(sum[0], x);
        number *restrict to = row(f, x);
        EACH_COLUMN(f) to[y] = a[y] == 0 ? 0 : least(16 * least(s[y], 65535) / a[y], 255);
    }
    drop(rate[0]);
    drop(sum[0]);
    write_grey(f, 255);
}
