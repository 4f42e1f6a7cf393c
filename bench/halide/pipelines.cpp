// Eleven of the pipelines of bench/pipelines in Halide 14, compiled ahead of time: a static library for each of them and each schedule.
//
// Schedules are by hand, Mullapudi2016's and, where the environment has ADAMS, Adams2019's, which takes minutes. The results are those of
// tilefarm byte by byte, for samples of 8 bits (camera: of 10). So numbers have the least types that nothing overflows. sobel and median are
// their inner points alone: main.cpp lays the frame round them. Here x is the column and y the row.
// generate FOLDER PLUGINS writes the libraries and list.h, which names them; PLUGINS is the folder of the automatic schedulers.
#include "Halide.h"
#include <cstdio>
#include <cstdlib>
#include <functional>
#include <string>
#include <vector>
using namespace Halide;

static Var x("x"), y("y"), c("c"), yi("yi"), yo("yo"), xi("xi"), xo("xo");
enum Sched { HAND, MULLAPUDI, ADAMS };
struct Made { Func out; std::vector<Argument> args; };
static Expr i32(Expr e) { return cast<int32_t>(e); }
static Expr u16(Expr e) { return cast<uint16_t>(e); }
static Expr i16(Expr e) { return cast<int16_t>(e); }
static Expr u8(Expr e) { return cast<uint8_t>(e); }
static Expr sat8(Expr e) { return u8(clamp(e, 0, 255)); }
static Expr swap16(Expr e) { return (e << 8) | (e >> 8); }
static Expr med3(Expr a, Expr b, Expr d) { return max(min(a, b), min(max(a, b), d)); }
static const int N = 2048;                                     // estimates for the autoschedulers
static void est(ImageParam &p) { p.set_estimates({ { 0, N }, { 0, N } }); }
static void est(Func f, int m) { f.set_estimates({ { m, N - 2 * m }, { m, N - 2 * m } }); }

static Made blur(Sched s) {
    ImageParam in(UInt(8), 2, "in"); Func bx("bx"), by("by");
    bx(x, y) = u8((u16(in(x - 1, y)) + in(x, y) + in(x + 1, y)) / u16(3));
    by(x, y) = u8((u16(bx(x, y - 1)) + bx(x, y) + bx(x, y + 1)) / u16(3));
    if (s == HAND) { by.split(y, yo, yi, 32).parallel(yo).vectorize(x, 64);
        bx.store_at(by, yo).compute_at(by, yi).vectorize(x, 64); }
    else { est(in); est(by, 1); }
    return { by, { in } };
}
static Made copy(Sched s) {
    ImageParam in(UInt(8), 2, "in"); Func f("f"); f(x, y) = in(x, y);
    if (s == HAND) f.split(y, yo, yi, 64).parallel(yo).vectorize(x, 64); else { est(in); est(f, 0); }
    return { f, { in } };
}
static Made unsharp(Sched s) {
    ImageParam in(UInt(8), 3, "in"); Func bx("bx"), by("by"), out("out");
    in.dim(0).set_stride(3); in.dim(2).set_stride(1).set_bounds(0, 3);
    auto I = [&](Expr a, Expr b, Expr k) { return i16(in(a, b, k)); };
    bx(x, y, c) = (I(x - 2, y, c) + 4 * I(x - 1, y, c) + 6 * I(x, y, c) + 4 * I(x + 1, y, c) + I(x + 2, y, c)) >> 4;
    by(x, y, c) = (bx(x, y - 2, c) + 4 * bx(x, y - 1, c) + 6 * bx(x, y, c) + 4 * bx(x, y + 1, c) + bx(x, y + 2, c)) >> 4;
    Expr v = I(x, y, c), b = by(x, y, c);
    out(x, y, c) = sat8(select(abs(v - b) <= 2, v, 4 * v - 3 * b));
    out.output_buffer().dim(0).set_stride(3); out.output_buffer().dim(2).set_stride(1).set_bounds(0, 3);
    if (s == HAND) { out.reorder(c, x, y).bound(c, 0, 3).unroll(c).split(y, yo, yi, 32).parallel(yo).vectorize(x, 32);
        by.compute_at(out, yi).reorder(x, y, c).vectorize(x, 32).unroll(c);
        bx.store_at(out, yo).compute_at(out, yi).reorder(x, y, c).vectorize(x, 32).unroll(c); }
    else { in.set_estimates({ { 0, N }, { 0, N }, { 0, 3 } }); out.set_estimates({ { 2, N - 4 }, { 2, N - 4 }, { 0, 3 } }); }
    return { out, { in } };
}
static void grads(ImageParam &in, Func &gx, Func &gy) {
    auto I = [&](Expr a, Expr b) { return i16(in(a, b)); };
    gx(x, y) = I(x + 1, y - 1) - I(x - 1, y - 1) + 2 * (I(x + 1, y) - I(x - 1, y)) + I(x + 1, y + 1) - I(x - 1, y + 1);
    gy(x, y) = I(x - 1, y + 1) - I(x - 1, y - 1) + 2 * (I(x, y + 1) - I(x, y - 1)) + I(x + 1, y + 1) - I(x + 1, y - 1);
}
static Made sobel(Sched s) {                                   // interior only; main lays the zero border round it
    ImageParam in(UInt(8), 2, "in"); Func gx("gx"), gy("gy"), out("out"); grads(in, gx, gy);
    out(x, y) = u8(min(abs(gx(x, y)) + abs(gy(x, y)), u16(255)));
    if (s == HAND) out.split(y, yo, yi, 32).parallel(yo).vectorize(x, 32); else { est(in); est(out, 1); }
    return { out, { in } };
}
static Made harris(Sched s) {
    ImageParam in(UInt(8), 2, "in"); Func gx("gx"), gy("gy"), ix("ix"), iy("iy"), xx("xx"), yy("yy"), xy("xy"), sxx("sxx"),
        syy("syy"), sxy("sxy"), out("out"); grads(in, gx, gy);
    ix(x, y) = gx(x, y) >> 3; iy(x, y) = gy(x, y) >> 3;        // -128..127
    xx(x, y) = ix(x, y) * ix(x, y); yy(x, y) = iy(x, y) * iy(x, y); xy(x, y) = ix(x, y) * iy(x, y);   // fit 16 bits
    auto box = [&](Func f) { Expr e = i32(f(x - 1, y - 1));
        for (int k = 1; k < 9; k++) e += i32(f(x - 1 + k % 3, y - 1 + k / 3));
        return e / 9; };
    sxx(x, y) = box(xx); syy(x, y) = box(yy); sxy(x, y) = box(xy);
    Expr t = sxx(x, y) + syy(x, y), d = sxx(x, y) * syy(x, y) - sxy(x, y) * sxy(x, y);
    out(x, y) = swap16(u16(clamp((d - t * t / 25) >> 8, 0, 65535)));
    if (s == HAND) { out.split(y, yo, yi, 32).parallel(yo).vectorize(x, 16);
        ix.store_at(out, yo).compute_at(out, yi).vectorize(x, 32); iy.store_at(out, yo).compute_at(out, yi).vectorize(x, 32);
        ix.compute_with(iy, x); }
    else { est(in); est(out, 2); }
    return { out, { in } };
}
static Made median(Sched s) {                                  // interior only, as sobel
    ImageParam in(UInt(8), 2, "in"); Func lo("lo"), mi("mi"), hi("hi"), out("out");
    Expr p = in(x, y - 1), q = in(x, y), r = in(x, y + 1);
    lo(x, y) = min(min(p, q), r); mi(x, y) = med3(p, q, r); hi(x, y) = max(max(p, q), r);
    out(x, y) = med3(max(max(lo(x - 1, y), lo(x, y)), lo(x + 1, y)), med3(mi(x - 1, y), mi(x, y), mi(x + 1, y)),
                     min(min(hi(x - 1, y), hi(x, y)), hi(x + 1, y)));
    if (s == HAND) { out.split(y, yo, yi, 32).parallel(yo).vectorize(x, 64);
        for (Func f : { lo, mi, hi }) f.compute_at(out, yi).vectorize(x, 64); }
    else { est(in); est(out, 1); }
    return { out, { in } };
}
static Made conv15(Sched s) {
    ImageParam in(UInt(8), 2, "in"); Func out("out"); Expr e = i32(0);
    for (int a = -7; a <= 7; a++) for (int b = -7; b <= 7; b++) e += (8 - std::abs(a)) * (8 - std::abs(b)) * i32(in(x + b, y + a));
    out(x, y) = sat8(e >> 12);
    if (s == HAND) out.split(y, yo, yi, 32).parallel(yo).vectorize(x, 32); else { est(in); est(out, 7); }
    return { out, { in } };
}
static Made bilateral(Sched s) {
    ImageParam in(UInt(8), 2, "in"); Func out("out"); Expr e = i16(40), m = i16(in(x, y));
    for (int a = -2; a <= 2; a++) for (int b = -2; b <= 2; b++) if (a || b)
        e += cast<int16_t>((3 - std::abs(a)) * (3 - std::abs(b))) * clamp(i16(in(x + b, y + a)) - m, i16(-24), i16(24));
    out(x, y) = sat8(m + e / i16(81));
    if (s == HAND) out.split(y, yo, yi, 32).parallel(yo).vectorize(x, 32); else { est(in); est(out, 2); }
    return { out, { in } };
}
static Made camera(Sched s) {
    ImageParam in(UInt(16), 2, "in"); Func raw("raw"), dn("dn"), g("g"), df("df"), rgb("rgb"), out("out");
    raw(x, y) = i16(swap16(in(x, y)));
    dn(x, y) = clamp(raw(x, y), i16(0), max(max(raw(x, y - 2), raw(x, y + 2)), max(raw(x - 2, y), raw(x + 2, y))));
    Expr h = absd(dn(x - 1, y), dn(x + 1, y)) <= absd(dn(x, y - 1), dn(x, y + 1));
    g(x, y) = select(x % 2 == y % 2, dn(x, y), h, (dn(x - 1, y) + dn(x + 1, y)) >> 1, (dn(x, y - 1) + dn(x, y + 1)) >> 1);
    df(x, y) = dn(x, y) - g(x, y);
    Expr dh = (df(x - 1, y) + df(x + 1, y)) >> 1, dv = (df(x, y - 1) + df(x, y + 1)) >> 1,
         dd = (df(x - 1, y - 1) + df(x + 1, y - 1) + df(x - 1, y + 1) + df(x + 1, y + 1)) >> 2;
    Expr G = g(x, y), xe = x % 2 == 0, ye = y % 2 == 0;
    rgb(x, y) = Tuple(select(ye && !xe, dn(x, y), ye && xe, G + dh, !ye && !xe, G + dv, G + dd), G,
                      select(!ye && xe, dn(x, y), !ye && !xe, G + dh, ye && xe, G + dv, G + dd));
    Expr r = i32(rgb(x, y)[0]), gg = i32(rgb(x, y)[1]), b = i32(rgb(x, y)[2]);
    auto tone = [](Expr e) { Expr v = i16(clamp(e >> 8, 0, 1023)); return u8(min(min((5 * v) >> 3, 64 + (v >> 2)), 128 + (v >> 3))); };
    out(x, y, c) = mux(c, { tone(430 * r - 120 * gg - 54 * b), tone(400 * gg - 60 * r - 84 * b), tone(416 * b - 10 * r - 150 * gg) });
    out.output_buffer().dim(0).set_stride(3); out.output_buffer().dim(2).set_stride(1).set_bounds(0, 3);
    if (s == HAND) {
        out.reorder(c, x, y).bound(c, 0, 3).unroll(c).split(y, yo, yi, 16).parallel(yo).vectorize(x, 32);
        rgb.compute_at(out, yi).vectorize(x, 32);
        for (Func f : { dn, g, df }) f.compute_at(out, yo).vectorize(x, 32);    // strips with recomputed edges
    } else { est(in); out.set_estimates({ { 4, N - 8 }, { 4, N - 8 }, { 0, 3 } }); }
    return { out, { in } };
}
static Made pyramid(Sched s) {                                 // the whole picture; borders by select, as the cases of the text
    ImageParam in(UInt(8), 2, "in"); const int L = 5;
    Expr W0 = in.dim(0).extent(), H0 = in.dim(1).extent();
    Func g[L], e[L], o[L]; std::vector<Func> all;
    auto at = [](Func f, Expr a, Expr b) { return f(a, b); };
    g[0] = Func("g0"); g[0](x, y) = i16(in(x, y));
    auto down = [&](Func f, int l) { Expr H = H0 >> l, W = W0 >> l; Func t, r;      // l: the level made
        Expr ya = clamp(2 * y - 1, 0, 2 * H - 1), yb = clamp(2 * y + 2, 0, 2 * H - 1);
        t(x, y) = select(y >= 1 && y <= H - 2, (at(f, x, ya) + 3 * f(x, 2 * y) + 3 * f(x, 2 * y + 1) + at(f, x, yb) + 4) >> 3,
                         (f(x, 2 * y) + f(x, 2 * y + 1)) >> 1);
        Expr xa = clamp(2 * x - 1, 0, 2 * W - 1), xb = clamp(2 * x + 2, 0, 2 * W - 1);
        r(x, y) = select(x >= 1 && x <= W - 2, (at(t, xa, y) + 3 * t(2 * x, y) + 3 * t(2 * x + 1, y) + at(t, xb, y) + 4) >> 3,
                         (t(2 * x, y) + t(2 * x + 1, y)) >> 1);
        all.push_back(r); return r; };
    auto up = [&](Func f, int l) { Expr H = H0 >> l, W = W0 >> l, h = H / 2, w = W / 2; Func t, r;
        Expr ya = clamp((y - 1) / 2, 0, h - 1), yb = clamp((y + 1) / 2, 0, h - 1);   // at the border both are the same sample
        t(x, y) = select(y % 2 == 0, (f(x, ya) + 3 * f(x, yb) + 2) >> 2, (3 * f(x, ya) + f(x, yb) + 2) >> 2);
        Expr xa = clamp((x - 1) / 2, 0, w - 1), xb = clamp((x + 1) / 2, 0, w - 1);
        r(x, y) = select(x % 2 == 0, (t(xa, y) + 3 * t(xb, y) + 2) >> 2, (3 * t(xa, y) + t(xb, y) + 2) >> 2);
        if (s == HAND) t.compute_at(r, yi).vectorize(x, 16);
        all.push_back(r); return r; };
    for (int l = 1; l < L; l++) g[l] = down(g[l - 1], l);
    Func acc = g[L - 1];
    for (int l = L - 2; l >= 0; l--) {
        Func ee = up(g[l + 1], l), u = l == L - 2 ? ee : up(acc, l); Func oo;
        oo(x, y) = u(x, y) + ((3 * (g[l](x, y) - ee(x, y))) >> 1); all.push_back(oo); acc = oo; }
    Func out("out"); out(x, y) = sat8(acc(x, y));
    if (s == HAND) { all.pop_back();
        for (Func f : all) f.compute_root().split(y, yo, yi, 16, TailStrategy::GuardWithIf).parallel(yo).vectorize(x, 16, TailStrategy::GuardWithIf);
        out.split(y, yo, yi, 16).parallel(yo).vectorize(x, 16); }
    else { est(in); est(out, 0); }
    return { out, { in } };
}
static Made histogram(Sched s) {
    ImageParam in(UInt(8), 2, "in"); Func h("h"); RDom r(in); Var b("b"), u("u");
    h(b) = cast<uint32_t>(0); h(clamp(i32(in(r.x, r.y)), 0, 255)) += cast<uint32_t>(1);
    if (s == HAND) { RVar ro("ro"), ri("ri"); h.update().split(r.y, ro, ri, 64);
        Func p = h.update().rfactor(ro, u); p.compute_root().parallel(u); p.update().parallel(u); h.vectorize(b, 16); }
    else { est(in); h.set_estimates({ { 0, 256 } }); }
    return { h, { in } };
}

using Maker = std::function<Made(Sched)>;
static const std::vector<std::pair<std::string, Maker>> pipelines = {
    { "copy", copy }, { "blur", blur }, { "unsharp", unsharp }, { "sobel", sobel }, { "harris", harris }, { "median", median },
    { "conv15", conv15 }, { "bilateral", bilateral }, { "camera", camera }, { "pyramid", pyramid }, { "histogram", histogram } };

static bool has_plugin(const std::string &path) {
    try { load_plugin(path); return true; } catch (const std::exception &) { return false; }
}

int main(int argc, char **argv) {
    if (argc != 3) { fprintf(stderr, "usage: generate FOLDER PLUGINS\n"); return 1; }
    std::string folder = std::string(argv[1]) + "/", plugins = std::string(argv[2]) + "/", list;
    struct { Sched sched; const char *name, *scheduler; bool there; } schedules[] = {
        { HAND, "hand", "", true },
        { MULLAPUDI, "mullapudi", "Mullapudi2016", has_plugin(plugins + "libautoschedule_mullapudi2016.so") },
        { ADAMS, "adams", "Adams2019", getenv("ADAMS") && has_plugin(plugins + "libautoschedule_adams2019.so") } };
    Target target = get_host_target();
    for (auto &[pipeline, maker] : pipelines) for (auto &s : schedules) {
        if (!s.there) continue;
        std::string name = pipeline + "_" + s.name;
        try {
            Made made = maker(s.sched); Pipeline whole(made.out);
            if (s.sched != HAND) whole.auto_schedule(s.scheduler, target, MachineParams(4, 8 << 20, 40));
            whole.compile_to_static_library(folder + name, made.args, name, list.empty() ? target : target.with_feature(Target::NoRuntime));
            list += "X(" + pipeline + ", " + s.name + ")\n";
        } catch (const std::exception &fault) { fprintf(stderr, "%s: left out: %s\n", name.c_str(), fault.what()); }
    }
    FILE *file = fopen((folder + "list.h").c_str(), "w");
    return file && fputs(list.c_str(), file) >= 0 && !fclose(file) ? 0 : 1;
}
