/*
 * A biquad cascade of two sections in Q31 that goes on where it was: each run filters 4 samples, keeps its state in
 * a file, and the next run goes on from there, as one long signal.
 *
 *     cc -I build/library examples/library/biquad.c build/library/libtozbirem.a -o biquad
 *     ./biquad state && ./biquad state
 */
#include "tozbirem.h"

#include <stdio.h>

enum { FRAMES = 4, NUMBERS = 8 }; /* a biquad keeps 4 numbers a section */

struct state {
    uint64_t frames, count;
    int64_t numbers[NUMBERS];
};

/* Reads a state, or leaves that of a new signal. */
static void load(const char *path, struct state *state)
{
    FILE *file = fopen(path, "rb");
    if (!file) return;
    if (fread(state, sizeof *state, 1, file) != 1) memset(state, 0, sizeof *state);
    fclose(file);
}

static int save(const char *path, const struct tozbirem *chain)
{
    struct state state = {0, 0, {0}};
    FILE *file = fopen(path, "wb");
    if (!file) return 0;
    state.frames = chain->frames;
    state.count = chain->kept_count;
    memcpy(state.numbers, tozbirem_state(chain), chain->kept_count * sizeof *state.numbers);
    size_t written = fwrite(&state, sizeof state, 1, file);
    return fclose(file) == 0 && written == 1;
}

int main(int count, char **words)
{
    const char *script = "dspfx 1 input raw q31 1 48000 "
                         "biquad 1 {268435456 536870912 268435456 536870912 -268435456 "
                         "1073741824 0 0 268435456 0} output raw";
    int32_t input[FRAMES] = {1 << 30, 0, 0, -(1 << 29)}, output[FRAMES];
    int64_t kept[2 * NUMBERS];
    struct state state = {0, 0, {0}};
    struct tozbirem chain;
    char line[256];
    size_t given;

    if (count != 2) return fprintf(stderr, "biquad STATE\n"), 2;
    load(words[1], &state);
    uint32_t status = tozbirem_open(&chain, script, FRAMES, kept, 2 * NUMBERS);
    if (status == TOZBIREM_OK) status = tozbirem_resume(&chain, state.frames, state.numbers, (size_t)state.count);
    if (status == TOZBIREM_OK) status = tozbirem_process(&chain, input, FRAMES, output, sizeof output, &given);
    if (status != TOZBIREM_OK)
        return fprintf(stderr, "biquad: %s\n", tozbirem_text(&chain, status, line, sizeof line)), 1;
    for (size_t i = 0; i < given; i++) printf("%ld\n", (long)output[i]);
    return save(words[1], &chain) ? 0 : 1;
}
