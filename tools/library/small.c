/*
 * Times calls of a few frames: by the text of a script (tozbirem_feed), by a handle (tozbirem_push), and by plain
 * loops in C, which give the same samples.
 *
 *     gcc -O3 -march=native -I build/library tools/library/small.c build/library/libtozbirem.a -o small && ./small
 *
 * It prints a row for each filter and length of a call: nanoseconds of processor time a call, the least of many
 * passes in which the three take turns, and what the first two are to the third.
 */
#define _POSIX_C_SOURCE 200809L
#include "tozbirem.h"
#include <stdio.h>
#include <stdlib.h>
#include <time.h>

enum { TAPS = 32, SECTIONS = 4, MOST = 4096, PASSES = 25 };

static int16_t taps[TAPS], fir_past[TAPS - 1 + MOST];
static int32_t coefficients[5 * SECTIONS], biquad_past[4 * SECTIONS];

static void plain_fir(const int16_t *in, int16_t *out, size_t frames)
{
    memcpy(fir_past + TAPS - 1, in, frames * sizeof *in);
    for (size_t n = 0; n < frames; n++) {
        int64_t sum = 0;
        for (int k = 0; k < TAPS; k++) sum += (int32_t)taps[k] * fir_past[n + k];
        sum >>= 15;
        out[n] = (int16_t)(sum > INT16_MAX ? INT16_MAX : sum < INT16_MIN ? INT16_MIN : sum);
    }
    memmove(fir_past, fir_past + frames, (TAPS - 1) * sizeof *fir_past);
}

static void plain_biquad(const int32_t *in, int32_t *out, size_t frames)
{
    for (int s = 0; s < SECTIONS; s++) {
        const int32_t *c = coefficients + 5 * s;
        int32_t *past = biquad_past + 4 * s, x1 = past[0], x2 = past[1], y1 = past[2], y2 = past[3];
        for (size_t n = 0; n < frames; n++) {
            int64_t sum = (int64_t)c[0] * in[n] + (int64_t)c[1] * x1 + (int64_t)c[2] * x2 + (int64_t)c[3] * y1 +
                          (int64_t)c[4] * y2;
            x2 = x1, x1 = in[n], y2 = y1, y1 = (int32_t)(sum >> 31), out[n] = y1;
        }
        past[0] = x1, past[1] = x2, past[2] = y1, past[3] = y2;
        in = out;
    }
}

static double now(void)
{
    struct timespec t;
    clock_gettime(CLOCK_PROCESS_CPUTIME_ID, &t);
    return 1e9 * (double)t.tv_sec + (double)t.tv_nsec;
}

static unsigned char input[4 * MOST], by_text[4 * MOST], by_handle[4 * MOST], by_loop[4 * MOST];
static int64_t kept[2][128];
static char script[1024];

static void must(uint32_t status, const char *what)
{
    if (status == TOZBIREM_OK) return;
    fprintf(stderr, "%s: status %u\n", what, (unsigned)status);
    exit(1);
}

/* The script of a filter, and its coefficients in the order of the loops. */
static void make(int is_fir)
{
    int at = snprintf(script, sizeof script, "dspfx 1 input raw %s 1 8000 ", is_fir ? "q15 " : "q31 ");
    at += snprintf(script + at, sizeof script - (size_t)at, is_fir ? "fir {" : "biquad 0 {");
    for (int k = 0; k < (is_fir ? TAPS : 5 * SECTIONS); k++) {
        int32_t value = is_fir ? rand() % 2000 - 1000 : (rand() % 2000 - 1000) * 100000;
        if (is_fir) taps[k] = (int16_t)value;
        else coefficients[k] = value;
        at += snprintf(script + at, sizeof script - (size_t)at, " %d", value);
    }
    snprintf(script + at, sizeof script - (size_t)at, " } output raw");
}

static void row(int is_fir, size_t frames)
{
    size_t bytes = frames * (is_fir ? 2 : 4), text = strlen(script), count = 0, calls = 2000000 / (frames + 200);
    double best[3] = {1e30, 1e30, 1e30};
    struct tozbirem_answer answer;
    struct tozbirem_handle handle = TOZBIREM_EMPTY_HANDLE;
    uint64_t taken = 0;
    int half = 0;
    memset(fir_past, 0, sizeof fir_past), memset(biquad_past, 0, sizeof biquad_past);
    must(tozbirem_hold(script, text, frames, 0, kept[0], 0, &handle, &answer), "hold");
    for (int pass = 0; pass < PASSES; pass++) {
        for (size_t n = 0; n < bytes; n++) input[n] = (unsigned char)rand();
        double begin = now();
        for (size_t call = 0; call < calls; call++, half = !half, taken += frames) {
            must(tozbirem_feed(script, text, frames, taken, kept[half], count, input, bytes, by_text, sizeof by_text,
                               kept[!half], 128, &answer), "feed");
            count = (size_t)answer.kept;
        }
        double middle = now();
        for (size_t call = 0; call < calls; call++)
            must(tozbirem_push(&handle, input, bytes, by_handle, sizeof by_handle, &answer), "push");
        double end = now();
        for (size_t call = 0; call < calls; call++) {
            if (is_fir) plain_fir((const int16_t *)(void *)input, (int16_t *)(void *)by_loop, frames);
            else plain_biquad((const int32_t *)(void *)input, (int32_t *)(void *)by_loop, frames);
            __asm__ volatile("" ::: "memory");
        }
        double last = now(), took[3] = {middle - begin, end - middle, last - end};
        for (int way = 0; way < 3; way++) if (took[way] / (double)calls < best[way]) best[way] = took[way] / (double)calls;
        if (memcmp(by_text, by_loop, bytes) || memcmp(by_handle, by_loop, bytes)) {
            fprintf(stderr, "the samples differ\n");
            exit(1);
        }
    }
    must(tozbirem_let_go(&handle), "let go");
    printf("| %s | %zu | %.0f | %.0f | %.0f | %.2f | %.2f |\n", is_fir ? "fir of 32, q15" : "biquad of 4, q31", frames, best[0],
           best[1], best[2], best[0] / best[2], best[1] / best[2]);
}

int main(void)
{
    printf("| filter | frames | by text, ns | by handle, ns | plain C, ns | text to C | handle to C |\n|---|---|---|---|---|---|---|\n");
    for (int is_fir = 1; is_fir >= 0; is_fir--) {
        make(is_fir);
        for (size_t frames = 16; frames <= MOST; frames *= 16) row(is_fir, frames);
    }
    return 0;
}
