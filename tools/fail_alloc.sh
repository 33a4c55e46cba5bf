#!/usr/bin/env bash
# Refuses each allocation of `print`, of a run, a bank, a gen, both parts of a run and a check in turn, by a small library
# in front of the C library's `malloc`: each must end with status 10, its line, and an output that was never made; the
# first number that no allocation is left for must be done. It is no part of the gate, and needs gcc.
# DSPFX names another built program.
set -u
. "$(dirname "$(readlink -f "${BASH_SOURCE[0]}")")/built.sh"

cat >"$folder/refuse.c" <<'C'
#define _GNU_SOURCE
#include <dlfcn.h>
#include <errno.h>
#include <stdlib.h>

static long left = -1;

static int refused(void) {
    if (left < 0) {
        const char *number = getenv("REFUSED");
        left = number ? atol(number) : 0;
    }
    return left > 0 && --left == 0;
}

void *malloc(size_t size) {
    static void *(*next)(size_t);
    if (!next) next = dlsym(RTLD_NEXT, "malloc");
    return refused() ? (errno = ENOMEM, NULL) : next(size);
}

void *realloc(void *old, size_t size) {
    static void *(*next)(void *, size_t);
    if (!next) next = dlsym(RTLD_NEXT, "realloc");
    return refused() ? (errno = ENOMEM, NULL) : next(old, size);
}

void *aligned_alloc(size_t alignment, size_t size) {
    static void *(*next)(size_t, size_t);
    if (!next) next = dlsym(RTLD_NEXT, "aligned_alloc");
    return refused() ? (errno = ENOMEM, NULL) : next(alignment, size);
}

int posix_memalign(void **block, size_t alignment, size_t size) {
    static int (*next)(void **, size_t, size_t);
    if (!next) next = dlsym(RTLD_NEXT, "posix_memalign");
    return refused() ? ENOMEM : next(block, alignment, size);
}
C
gcc -O1 -shared -fPIC -o "$folder/refuse.so" "$folder/refuse.c" -ldl || exit 70

# Every kind of block.
cat >"$folder/script.txt" <<'SCRIPT'
dspfx 2 input raw q15 4 8000
table two {1 2}
power max min cmplx_dot negate abs offset 1 scale 16384 1 shift 1 clip -100 100
route {0 1 2} cmplx_mult_real dot lms 0 100 two cmplx_conj fir two sparse two {0 3}
decimate 2 two interpolate 2 two biquad 0 {1 0 1 1 1 1} lattice_fir {1} lattice_iir {1} two pid 1 2 3
mat_add 1 2 two mat_sub 1 2 two mat_scale 1 2 16384 0 mat_trans 2 2 mat_mult 2 2 2 {1 2 3 4}
conv two conv_partial 0 5 two route {0 1 0 1} cmplx_mult add route {0 0} sub route {0 0} mult
route {0 0} cmplx_mag_squared to q31 biquad64 0 {1 1 1 1 1} correlate two
output wave
SCRIPT
head -c 4000 /dev/zero >"$folder/in.raw"

# Tries one command, and prints how many allocations it takes: refused_in_turn NAME WORDS..
refused_in_turn() {
    local name=$1 number=0 status
    shift
    while :; do
        number=$((number + 1))
        rm -f "$folder/out.wav"
        REFUSED=$number LD_PRELOAD=$folder/refuse.so "$program" "$@" >"$folder/report"
        status=$?
        if [ "$status" = 0 ]; then
            echo "$name: $((number - 1)) allocations, each refused in turn"
            return 0
        fi
        if [ "$status" != 10 ] || [ -e "$folder/out.wav" ]; then
            echo "$name: allocation $number refused, status $status"
            cat "$folder/report"
            return 1
        fi
    done
}

refused_in_turn print print "$folder/script.txt" || exit 1
refused_in_turn run run "$folder/script.txt" "$folder/in.raw" "$folder/out.wav" || exit 1
refused_in_turn bank bank "$folder/script.txt" "$folder/in.raw" "$folder/out.wav" || exit 1
refused_in_turn gen gen 7 1000 "$folder/script.txt" "$folder/out.wav" || exit 1
refused_in_turn "resume stop" resume stop 100 "$folder/script.txt" "$folder/in.raw" "$folder/out.wav" || exit 1
cp "$folder/report" "$folder/saved"
refused_in_turn "resume go" resume go "$folder/saved" "$folder/in.raw" "$folder/out.wav" || exit 1
# (a check takes memory for each block, and some blocks for each sample)
head -c 400 "$folder/in.raw" >"$folder/short.raw"
"$program" run "$folder/script.txt" "$folder/short.raw" "$folder/wanted.wav" >/dev/null || exit 1
refused_in_turn check check "$folder/script.txt" "$folder/short.raw" "$folder/wanted.wav" || exit 1
