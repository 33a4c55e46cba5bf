#!/bin/sh
# Measures the kernels of dsp_lanes beside plain C loops: nanoseconds per product of dot and rows (64
# taps), and per sample of add, mult and scale, for samples of 8, 16 and 32 bits. It builds in a
# temporary folder, and is no part of the gate. It needs `rt` and gcc.
set -eu
command -v gcc >/dev/null || { echo "no gcc: nothing is measured"; exit 0; }
top=$(cd "$(dirname "$0")/.." && pwd)
work=${BENCH_FOLDER:-$(mktemp -d)}
mkdir -p "$work/crates/lanes_c/src" "$work/crates/lanes_c/specs" "$work/crates/lanes_c/proofs"
for name in dsp_defs dsp_sat dsp_lanes; do
    rm -rf "$work/crates/$name"
    mkdir "$work/crates/$name"
    (cd "$top/crates/$name" && cp -r src specs proofs "$work/crates/$name/")
done
grep -E '^(dsp_defs|dsp_sat|dsp_lanes):' "$top/crates.txt" > "$work/crates.txt"
echo 'lanes_c staticlib: dsp_lanes dsp_sat dsp_defs' >> "$work/crates.txt"
echo '-- No definitions.' > "$work/crates/lanes_c/specs/Lib.antt"
: > "$work/crates/lanes_c/proofs/Lib.antt"

cat > "$work/crates/lanes_c/src/lib.rt" <<'END'
//! The kernels for a C program that measures them.
#![tactic(auto)]

ghost use Rattle.std.specs.Prelude.{◌≡◌, ◌+◌, ◌<◌, length};

use dsp_defs::Steps;
use dsp_lanes::Lanes;
use std::marker::Brand;
use std::sync::ledger::{Blank, Ledger};

END
for row in "7 i8 16 i32" "15 i16 8 i64" "31 i32 4 i64"; do
    set -- $row
    cat >> "$work/crates/lanes_c/src/lib.rt" <<END
fn mult_$1<M: Ledger>(a: &[$2], b: &[$2], out: &mut [$2], blank: Blank)
    requires left { length a.now ≡ length out.old }
    requires right { length b.now ≡ length out.old }
    requires name { blank.name ≡ M.name }
    requires parts { blank.parts ≡ M.parts }
    requires two { M.parts ≡ 2 }
{
    let mut steps = Steps::<M>::new(blank);
    Lanes::<$2, $3>::mult(a, b, out, &mut steps);
}

fn scale_$1<M: Ledger>(a: &[$2], factor: $2, out: &mut [$2], blank: Blank)
    requires same { length a.now ≡ length out.old }
    requires name { blank.name ≡ M.name }
    requires parts { blank.parts ≡ M.parts }
    requires two { M.parts ≡ 2 }
{
    let mut steps = Steps::<M>::new(blank);
    Lanes::<$2, $3>::scale(a, factor, 1, out, &mut steps);
}

fn dot_$1<M: Ledger>(taps: &[$2], window: &[$2], blank: Blank) -> $4
    requires same { length window.now ≡ length taps.now }
    requires name { blank.name ≡ M.name }
    requires parts { blank.parts ≡ M.parts }
    requires two { M.parts ≡ 2 }
{
    let mut steps = Steps::<M>::new(blank);
    Lanes::<$2, $3>::dot(taps, window, &mut steps)
}

fn rows_$1<M: Ledger>(taps: &[$2], window: &[$2], out: &mut [$2], blank: Blank)
    requires taps { 0 < length taps.now }
    requires window { length window.now + 1 ≡ length out.old + length taps.now }
    requires name { blank.name ≡ M.name }
    requires parts { blank.parts ≡ M.parts }
    requires two { M.parts ≡ 2 }
{
    let mut steps = Steps::<M>::new(blank);
    Lanes::<$2, $3>::rows(taps, window, out, &mut steps);
}

#[unsafe(no_mangle)]
pub extern "C" fn lanes_add_$1(a: &[$2], b: &[$2], out: &mut [$2])
    requires left { length a.now ≡ length out.old }
    requires right { length b.now ≡ length out.old }
{
    Lanes::<$2, $3>::add(a, b, out)
}

#[unsafe(no_mangle)]
pub extern "C" fn lanes_mult_$1(a: &[$2], b: &[$2], out: &mut [$2])
    requires left { length a.now ≡ length out.old }
    requires right { length b.now ≡ length out.old }
{
    mult_$1::<Brand>(a, b, out, Blank::new(2))
}

#[unsafe(no_mangle)]
pub extern "C" fn lanes_scale_$1(a: &[$2], factor: $2, out: &mut [$2])
    requires { length a.now ≡ length out.old }
{
    scale_$1::<Brand>(a, factor, out, Blank::new(2))
}

#[unsafe(no_mangle)]
pub extern "C" fn lanes_dot_$1(taps: &[$2], window: &[$2]) -> $4
    requires { length window.now ≡ length taps.now }
{
    dot_$1::<Brand>(taps, window, Blank::new(2))
}

#[unsafe(no_mangle)]
pub extern "C" fn lanes_rows_$1(taps: &[$2], window: &[$2], out: &mut [$2])
    requires taps { 0 < length taps.now }
    requires window { length window.now + 1 ≡ length out.old + length taps.now }
{
    rows_$1::<Brand>(taps, window, out, Blank::new(2))
}

END
    for call in mult scale dot rows; do
        mkdir -p "$work/crates/lanes_c/proofs/lanes_${call}_$1"
        cat > "$work/crates/lanes_c/proofs/lanes_${call}_$1/Invariants.antt" <<END
use Rattle.lanes_c.proofs.lanes_${call}_$1.Given as goal

abbrev pub ghosts-${call}_$1 : goal.ghosts-${call}_$1
ghosts-${call}_$1 a = record { name = a.blank.name; parts = a.blank.parts }
END
    done
done

cat > "$work/plain.c" <<'END'
#include <stdint.h>
#include <stddef.h>
#define NAME2(a, b, c) a##_##b##_##c
#define NAME1(a, b, c) NAME2(a, b, c)
#define NAME(call, q) NAME1(SET, call, q)
static inline int64_t sat(int64_t v, int n) { int64_t top = ((int64_t)1 << (n - 1)) - 1; return v > top ? top : v < -top - 1 ? -top - 1 : v; }
#define KERNELS(q, T, W, A, bits, mul, clo) \
    void NAME(add, q)(const T *a, const T *b, T *o, size_t n) { for (size_t i = 0; i < n; i++) o[i] = (T)sat((int64_t)a[i] + b[i], bits); } \
    void NAME(mult, q)(const T *a, const T *b, T *o, size_t n) { for (size_t i = 0; i < n; i++) { W p = (W)a[i] * b[i]; o[i] = (T)(mul); } } \
    void NAME(scale, q)(const T *a, T f, T *o, size_t n) { for (size_t i = 0; i < n; i++) { W p = (W)a[i] * f; o[i] = (T)sat(q == 31 ? (p >> 32) * 4 : p >> (q - 1), bits); } } \
    A NAME(dot, q)(const T *t, const T *w, size_t n) { A s = 0; for (size_t i = 0; i < n; i++) s += (W)t[i] * w[i]; return s; } \
    void NAME(rows, q)(const T *t, size_t tn, const T *w, T *o, size_t n) { for (size_t i = 0; i < n; i++) { A s = 0; for (size_t j = 0; j < tn; j++) s += (W)t[j] * w[i + j]; o[i] = (T)(clo); } }
KERNELS(7, int8_t, int32_t, int32_t, 8, sat(p >> 7, 8), sat(s >> 7, 8))
KERNELS(15, int16_t, int32_t, int64_t, 16, sat(p >> 15, 16), sat(s >> 15, 16))
KERNELS(31, int32_t, int64_t, int64_t, 32, 2 * sat(p >> 32, 31), s >> 31)
END

cat > "$work/bench.c" <<'END'
#include <stdint.h>
#include <stdio.h>
#include <stdlib.h>
#include <string.h>
#include <time.h>
static double now(void) { struct timespec t; clock_gettime(CLOCK_PROCESS_CPUTIME_ID, &t); return t.tv_sec * 1e9 + t.tv_nsec; }
enum { N = 4096, TAPS = 64 };
static volatile int64_t sink;
static double least(double a, double b) { return a < b ? a : b; }
#define DECLARE(q, T, A) \
    void o2_add_##q(const T *, const T *, T *, size_t), o3_add_##q(const T *, const T *, T *, size_t); \
    void o2_mult_##q(const T *, const T *, T *, size_t), o3_mult_##q(const T *, const T *, T *, size_t); \
    void o2_scale_##q(const T *, T, T *, size_t), o3_scale_##q(const T *, T, T *, size_t); \
    A o2_dot_##q(const T *, const T *, size_t), o3_dot_##q(const T *, const T *, size_t); \
    void o2_rows_##q(const T *, size_t, const T *, T *, size_t), o3_rows_##q(const T *, size_t, const T *, T *, size_t); \
    void lanes_add_##q(const T *, size_t, const T *, size_t, T *, size_t), lanes_mult_##q(const T *, size_t, const T *, size_t, T *, size_t); \
    void lanes_scale_##q(const T *, size_t, T, T *, size_t); \
    A lanes_dot_##q(const T *, size_t, const T *, size_t); \
    void lanes_rows_##q(const T *, size_t, const T *, size_t, T *, size_t);
DECLARE(7, int8_t, int32_t) DECLARE(15, int16_t, int64_t) DECLARE(31, int32_t, int64_t)
#define TIME(result, per, body) { result = 1e30; for (int pass = 0; pass < 15; pass++) { double from = now(); int turns = (int)(4000000.0 / (per)) + 1; for (int turn = 0; turn < turns; turn++) { body; sink += o[turn % N]; } result = least(result, (now() - from) / turns / (per)); } }
#define STORE(sum) { int64_t whole = (sum); memcpy(o, &whole, sizeof whole); }
#define ROW(name, q, T, per, c2, c3, ours) { double x, y, z; memset(o, 0, sizeof o); TIME(x, per, c2) memcpy(kept, o, sizeof o); TIME(y, per, c3) memset(o, 0, sizeof o); TIME(z, per, ours) printf("%-6s q%-3d %8.3f %8.3f %8.3f%s\n", name, q, x, y, z, memcmp(kept, o, sizeof o) ? "  (differs)" : ""); }
#define BENCH(q, T) { \
    static T a[N + TAPS], b[N + TAPS], t[TAPS], o[N], kept[N]; uint32_t s = 7; \
    for (int i = 0; i < N + TAPS; i++) { s = 1664525 * s + 1013904223; a[i] = (T)(s >> (31 - q)); s = 1664525 * s + 1013904223; b[i] = (T)(s >> (31 - q)); } \
    for (int i = 0; i < TAPS; i++) t[i] = (T)(b[i] / 64); \
    ROW("add", q, T, N, o2_add_##q(a, b, o, N), o3_add_##q(a, b, o, N), lanes_add_##q(a, N, b, N, o, N)) \
    ROW("mult", q, T, N, o2_mult_##q(a, b, o, N), o3_mult_##q(a, b, o, N), lanes_mult_##q(a, N, b, N, o, N)) \
    ROW("scale", q, T, N, o2_scale_##q(a, b[0], o, N), o3_scale_##q(a, b[0], o, N), lanes_scale_##q(a, N, b[0], o, N)) \
    ROW("dot", q, T, N, STORE(o2_dot_##q(a, b, N)), STORE(o3_dot_##q(a, b, N)), STORE(lanes_dot_##q(a, N, b, N))) \
    ROW("rows", q, T, (double)N * TAPS, o2_rows_##q(t, TAPS, a, o, N), o3_rows_##q(t, TAPS, a, o, N), lanes_rows_##q(t, TAPS, a, N + TAPS - 1, o, N)) \
    for (int i = 0; i < TAPS; i++) t[i] = b[i]; \
    ROW("rows*", q, T, (double)N * TAPS, o2_rows_##q(t, TAPS, a, o, N), o3_rows_##q(t, TAPS, a, o, N), lanes_rows_##q(t, TAPS, a, N + TAPS - 1, o, N)) }
int main(void) {
    printf("ns per sample (add, mult, scale) or product (dot, rows of 64 small taps, rows* of 64 large taps)\n");
    printf("%-11s %8s %8s %8s\n", "kernel", "gcc -O2", "gcc -O3", "lanes");
    BENCH(7, int8_t) BENCH(15, int16_t) BENCH(31, int32_t)
    return 0;
}
END

(cd "$work/crates/lanes_c" && rt lib > "$work/lib.log" 2>&1) || { tail -20 "$work/lib.log"; exit 1; }
cd "$work"
gcc -O2 -DSET=o2 -c plain.c -o plain2.o
gcc -O3 -march=native -DSET=o3 -c plain.c -o plain3.o
gcc -O2 bench.c plain2.o plain3.o crates/lanes_c/out/liblanes_c.a -o bench
grep -m1 'model name' /proc/cpuinfo || true
./bench
if [ -z "${BENCH_FOLDER:-}" ]; then rm -rf "$work"; fi
