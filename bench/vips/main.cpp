// Ten of the pipelines of bench/pipelines by the operations of libvips: vips PIPELINE < PICTURE > RESULT, on VIPS_CONCURRENCY threads.
// g++ -O2 -o vips bench/vips/main.cpp $(pkg-config --cflags --libs vips-cpp)
//
// The results are those of tilefarm byte by byte. Integer convolutions of libvips round to the nearest, and the pipelines round down:
// so kernels have the scale 1 here, and a shift or a floor comes behind them. Pictures are read and written in strips.
#include <vips/vips8>

#include <cstdio>
#include <cstdlib>
#include <cstring>
#include <iostream>
#include <vector>

using vips::VImage;
using Numbers = std::vector<double>;

static VImage convolved(VImage of, int cols, int rows, Numbers kernel) {
    VImage mask = VImage::new_matrix(cols, rows, kernel.data(), cols * rows);
    return of.conv(mask, VImage::option()->set("precision", VIPS_PRECISION_INTEGER));
}

static VImage without_border(VImage of, int border) {
    return of.extract_area(border, border, of.width() - 2 * border, of.height() - 2 * border);
}

// Numbers divided by a positive one, rounded down.
static VImage divided(VImage of, double by) { return of.cast(VIPS_FORMAT_DOUBLE).linear(1 / by, 0.5 / by).floor().cast(VIPS_FORMAT_INT); }

static VImage bytes(VImage of) { return of.cast(VIPS_FORMAT_UCHAR); }

static VImage copy(VImage I) { return I; }

static VImage grey(VImage I) {
    double weights[] = {77 / 256.0, 150 / 256.0, 29 / 256.0};
    return bytes((I.recomb(VImage::new_matrix(3, 1, weights, 3)) + 0.5).floor());
}

static VImage blur(VImage I) {
    auto third = [](VImage of) { return of.linear(1 / 3.0, 0.5 / 3.0, VImage::option()->set("uchar", true)); };
    VImage across = third(convolved(I.cast(VIPS_FORMAT_USHORT), 3, 1, {1, 1, 1}));
    return without_border(third(convolved(across.cast(VIPS_FORMAT_USHORT), 1, 3, {1, 1, 1})), 1);
}

static VImage unsharp(VImage I) {
    VImage v = I.cast(VIPS_FORMAT_USHORT), across = convolved(v, 5, 1, {1, 4, 6, 4, 1}) >> 4;
    VImage b = convolved(across, 1, 5, {1, 4, 6, 4, 1}) >> 4, sharp = (v << 2) - b - (b << 1);
    return without_border(bytes(((v - b).abs() <= 2).ifthenelse(v, sharp)), 2);
}

static void slopes(VImage I, VImage *across, VImage *down) {
    VImage v = I.cast(VIPS_FORMAT_SHORT);
    *across = convolved(v, 3, 3, {-1, 0, 1, -2, 0, 2, -1, 0, 1});
    *down = convolved(v, 3, 3, {-1, -2, -1, 0, 0, 0, 1, 2, 1});
}

static VImage sobel(VImage I) {
    VImage across, down;
    slopes(I, &across, &down);
    return without_border(bytes(across.abs() + down.abs()), 1).embed(1, 1, I.width(), I.height());
}

static VImage harris(VImage I) {
    VImage across, down;
    slopes(I, &across, &down);
    VImage ix = across >> 3, iy = down >> 3;
    auto mean = [](VImage of) { return divided(convolved(of, 3, 3, Numbers(9, 1)), 9); };
    VImage xx = mean(ix * ix), yy = mean(iy * iy), xy = mean(ix * iy), trace = xx + yy;
    VImage value = (xx * yy - xy * xy - divided(trace * trace, 25)) >> 8;
    return without_border(value.cast(VIPS_FORMAT_USHORT), 2);
}

static VImage median(VImage I) { return I.insert(without_border(I.median(3), 1), 1, 1); }

static VImage conv15(VImage I) {
    Numbers tent = {1, 2, 3, 4, 5, 6, 7, 8, 7, 6, 5, 4, 3, 2, 1};
    VImage across = convolved(I.cast(VIPS_FORMAT_INT), 15, 1, tent);
    return without_border(bytes(convolved(across, 1, 15, tent) >> 12), 7);
}

// What a difference adds, by 255 more than it is: the difference cut to -24 and 24, and multiplied.
static VImage cut_by(int factor) {
    Numbers entries;
    for (int d = -255; d <= 255; d++) entries.push_back(factor * (d < -24 ? -24 : d > 24 ? 24 : d));
    return VImage::new_matrix(entries.size(), 1, entries.data(), entries.size()).cast(VIPS_FORMAT_SHORT);
}

static VImage bilateral(VImage I) {
    VImage raised = (I + 255).cast(VIPS_FORMAT_USHORT), middle = without_border(I, 2);
    std::vector<VImage> terms;
    for (int a = -2; a <= 2; a++)
        for (int b = -2; b <= 2; b++) {
            if (a == 0 && b == 0) continue;
            VImage near = raised.extract_area(2 + b, 2 + a, middle.width(), middle.height());
            terms.push_back((near - middle).cast(VIPS_FORMAT_USHORT).maplut(cut_by((3 - abs(a)) * (3 - abs(b)))));
        }
    return bytes(middle + divided(VImage::sum(terms) + 40, 81));
}

static void write_histogram(VImage I) {
    size_t length;
    auto bins = (const unsigned *)I.hist_find().write_to_memory(&length);
    printf("h 0..255:");
    for (size_t bin = 0; bin < 256; bin++) printf(" %u", bin < length / sizeof *bins ? bins[bin] : 0);
    printf("\n");
}

static const struct {
    const char *name;
    VImage (*made)(VImage);
} pipelines[] = {
    {"copy", copy},     {"grey", grey},     {"blur", blur},     {"unsharp", unsharp},     {"sobel", sobel},
    {"harris", harris}, {"median", median}, {"conv15", conv15}, {"bilateral", bilateral},
};

static void write_picture(VImage made) {
    VipsForeignPpmFormat format = made.bands() == 1 ? VIPS_FOREIGN_PPM_FORMAT_PGM : VIPS_FOREIGN_PPM_FORMAT_PPM;
    VImage shown = made.copy(VImage::option()->set("interpretation", made.bands() > 1 ? VIPS_INTERPRETATION_sRGB
                             : made.format() == VIPS_FORMAT_USHORT ? VIPS_INTERPRETATION_GREY16 : VIPS_INTERPRETATION_B_W));
    shown.ppmsave_target(vips::VTarget::new_to_descriptor(1), VImage::option()->set("format", format)->set("strip", true));
}

int main(int argc, char **argv) {
    if (argc != 2 || VIPS_INIT(argv[0])) return 1;
    try {
        VImage I = VImage::ppmload_source(vips::VSource::new_from_descriptor(0), VImage::option()->set("access", VIPS_ACCESS_SEQUENTIAL));
        for (auto &each : pipelines)
            if (!strcmp(argv[1], each.name)) return write_picture(each.made(I)), 0;
        if (!strcmp(argv[1], "histogram")) return write_histogram(I), fflush(stdout) ? 4 : 0;
    } catch (const vips::VError &fault) {
        std::cerr << fault.what();
        return 4;
    }
    fprintf(stderr, "usage: vips PIPELINE < PICTURE > RESULT\n");
    return 1;
}
