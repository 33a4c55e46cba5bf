/*
 * Refuses the allocations of each call, from the first one on, from the second one on, and so on: each call must end
 * with out of memory, and leave nothing allocated.
 */
#include "tozbirem.h"

#include <stdio.h>
#include <stdlib.h>

void *__real_malloc(size_t);
void *__real_realloc(void *, size_t);
void __real_free(void *);
static long calls, refused, held;

void *__wrap_malloc(size_t size)
{
    if (++calls >= refused && refused) return NULL;
    void *p = __real_malloc(size);
    held += p != NULL;
    return p;
}

void *__wrap_realloc(void *old, size_t size)
{
    if (++calls >= refused && refused) return NULL;
    void *p = __real_realloc(old, size);
    held += p != NULL && old == NULL;
    return p;
}

void __wrap_free(void *p)
{
    held -= p != NULL;
    __real_free(p);
}

static const char *TEXT = "dspfx 2 input raw q15 2 8000 table t {1 2 3 4} fir t decimate 2 t sparse {1 2} {0 5} "
                          "biquad 0 {16384 0 0 0 0 0} conv t lms 0 100 t mat_add 2 2 t max power correlate t output raw";

static int16_t input[16], output[4096], spare[4096];
static size_t written; /* bytes of the output of a run, which a check finds */

/* The program into a buffer, with that many bytes of the output as the other file. */
static uint32_t program(const char *words, void *into, size_t other)
{
    static char report[4096];
    struct tozbirem_lengths lengths;
    uint32_t status = tozbirem_program(words, strlen(words), TEXT, strlen(TEXT), input, sizeof input, output, other, into,
                                       sizeof spare, report, sizeof report, &lengths);
    if (status == 0 && into == output) written = (size_t)lengths.output;
    return status;
}

static uint32_t call(int which)
{
    static int64_t none[1], kept[8192];
    static struct tozbirem_measure measures[64];
    struct tozbirem_plan plan;
    struct tozbirem_answer answer;
    struct tozbirem_handle handle = TOZBIREM_EMPTY_HANDLE;
    size_t n = strlen(TEXT);
    switch (which) {
    case 0: return tozbirem_plan(TEXT, n, 8, 100, &plan, &answer);
    case 1: return tozbirem_feed(TEXT, n, 8, 0, none, 0, input, 32, output, sizeof output, kept, 8192, &answer);
    case 2: return tozbirem_finish(TEXT, n, 8, 0, none, 0, output, sizeof output, measures, 64, &answer);
    case 3: {
        uint32_t status = tozbirem_hold(TEXT, n, 8, 0, none, 0, &handle, &answer);
        if (status == TOZBIREM_OK) status = tozbirem_push(&handle, input, 32, output, sizeof output, &answer);
        tozbirem_let_go(&handle);
        return status;
    }
    case 4: return program("run s i o block 8", output, 0);
    case 5: return program("check s i o", spare, written);
    default: return program("resume stop 4 s i o", spare, 0);
    }
}

int main(void)
{
    for (int which = 0; which < 7; which++) {
        refused = 0;
        calls = 0;
        uint32_t sound = call(which);
        long all = calls;
        if (sound != 0 || held != 0) return printf("call %d: %u, %ld held\n", which, (unsigned)sound, held), 1;
        for (refused = 1; refused <= all; refused++) {
            calls = 0;
            uint32_t status = call(which);
            if (status != TOZBIREM_MEMORY || held != 0)
                return printf("call %d, allocation %ld of %ld: %u, %ld held\n", which, refused, all, (unsigned)status, held), 1;
        }
        printf("call %d: %ld allocations refused\n", which, all);
    }
    return 0;
}
