/* Pictures, and whole arrays of 32-bit numbers: what the pipelines in plain C stand on. */
#include <stddef.h>
#include <stdint.h>
#include <stdlib.h>

typedef int32_t number;

/* samples up to 255, and greater ones: as they are read or, with -DNUMBERS, in whole arrays of numbers as all else is */
#ifdef NUMBERS
typedef number byte, word;
#else
typedef uint8_t byte;
typedef uint16_t word;
#endif

/* The samples of each plane, row by row: bytes where none is above 255, else words. A picture has one plane or three. */
struct picture {
    int rows, cols, planes, max;
    byte *bytes[3];
    word *words;
};

/* A function of a program over whole rows and columns, the first and the last of which are counted. */
struct stage {
    int top, bottom, left, right;
    number *numbers;
};

void *with_memory(void *memory);
struct picture read_picture(void);
/* an array whose numbers nobody has written yet */
struct stage stage(int top, int bottom, int left, int right);
void drop(struct stage f);
/* the samples of a plane: as they lie, where they are numbers already */
struct stage numbers_of(const struct picture *p, int plane);
/* write one stage as a grey picture, or three as a coloured one, each number cut to 0 to max; three have a max of at most 255 */
void write_grey(struct stage f, int max);
void write_colours(struct stage red, struct stage green, struct stage blue);
void write_bins(const char *name, int count, const int64_t *bins);

/* a stage whose sides are so many points shorter at each border than the picture's */
static inline struct stage within(const struct picture *p, int rows, int cols) {
    return stage(rows, p->rows - 1 - rows, cols, p->cols - 1 - cols);
}

static inline number *row(struct stage f, int x) {
    return f.numbers + (ptrdiff_t)(x - f.top) * (f.right - f.left + 1) - f.left;
}

static inline const byte *bytes(const struct picture *p, int plane, int x) { return p->bytes[plane] + (size_t)x * p->cols; }
static inline const word *words(const struct picture *p, int x) { return p->words + (size_t)x * p->cols; }

/* with -fopenmp several threads have rows of their own */
#ifdef _OPENMP
#define EACH_ROW(f) _Pragma("omp parallel for") for (int x = (f).top; x <= (f).bottom; x++)
#else
#define EACH_ROW(f) for (int x = (f).top; x <= (f).bottom; x++)
#endif
#define EACH_COLUMN(f) for (int y = (f).left; y <= (f).right; y++)

static inline number least(number a, number b) { return a < b ? a : b; }
static inline number greatest(number a, number b) { return a > b ? a : b; }
static inline number clamped(number a, number low, number high) { return least(greatest(a, low), high); }

/* a divided by d, which is above 0, and rounded down */
static inline number floored(number a, number d) {
    number quotient = a / d;
    return quotient - (a < quotient * d);
}
