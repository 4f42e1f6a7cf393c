/* From the samples of a camera, each of one colour, to a coloured picture. */
#include "pipelines.h"

/* a sample that is brighter than all four of its colour around it is cut to the brightest of them */
static struct stage cleaned(const struct picture *p) {
    struct stage f = within(p, 2, 2);
    EACH_ROW(f) {
        const word *restrict above = words(p, x - 2), *restrict raw = words(p, x), *restrict below = words(p, x + 2);
        number *restrict to = row(f, x);
        EACH_COLUMN(f) to[y] = least(raw[y], greatest(greatest(above[y], below[y]), greatest(raw[y - 2], raw[y + 2])));
    }
    return f;
}

/* green at each point, and how far the sample of red or blue lies above it */
static void greens(struct stage clean, struct stage green, struct stage above_green) {
    EACH_ROW(green) {
        const number *restrict above = row(clean, x - 1), *restrict s = row(clean, x), *restrict below = row(clean, x + 1);
        number *restrict to = row(green, x), *restrict rest = row(above_green, x);
        EACH_COLUMN(green) {
            number is_level = abs(s[y - 1] - s[y + 1]) <= abs(above[y] - below[y]);
            number along = is_level ? (s[y - 1] + s[y + 1]) >> 1 : (above[y] + below[y]) >> 1;
            number value = (x ^ y) & 1 ? along : s[y];
            to[y] = value;
            rest[y] = s[y] - value;
        }
    }
}

/* from ten bits to eight */
static inline number shown(number colour) {
    number c = clamped(colour >> 8, 0, 1023);
    return least(least(5 * c >> 3, 64 + (c >> 2)), 128 + (c >> 3));
}

/* one row of the result, from rows of the samples, of green and of what lies above green; only the last three are read around a point */
static void colours(int x, struct stage f[3], const number *restrict s, const number *restrict green, const number *restrict a,
                    const number *restrict b, const number *restrict c) {
    number *restrict to_red = row(f[0], x), *restrict to_green = row(f[1], x), *restrict to_blue = row(f[2], x);
    number is_even_row = !(x & 1);
    EACH_COLUMN(f[0]) {
        number of_row = (b[y - 1] + b[y + 1]) >> 1, of_column = (a[y] + c[y]) >> 1;
        number of_corners = (a[y - 1] + a[y + 1] + c[y - 1] + c[y + 1]) >> 2;
        number g = green[y], is_even = !(y & 1);
        /* in even rows red is measured at odd columns, and blue at even columns of odd rows */
        number near = is_even == is_even_row ? g + of_row : s[y], far = is_even == is_even_row ? g + of_column : g + of_corners;
        number red = is_even_row ? near : far, blue = is_even_row ? far : near;
        to_red[y] = shown(430 * red - 120 * g - 54 * blue);
        to_green[y] = shown(400 * g - 60 * red - 84 * blue);
        to_blue[y] = shown(416 * blue - 10 * red - 150 * g);
    }
}

void camera(const struct picture *p) {
    struct stage clean = cleaned(p), green = within(p, 3, 3), above = within(p, 3, 3);
    struct stage f[] = {within(p, 4, 4), within(p, 4, 4), within(p, 4, 4)};
    greens(clean, green, above);
    EACH_ROW(f[0]) colours(x, f, row(clean, x), row(green, x), row(above, x - 1), row(above, x), row(above, x + 1));
    drop(clean);
    drop(green);
    drop(above);
    write_colours(f[0], f[1], f[2]);
}
