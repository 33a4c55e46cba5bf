/*
 * A FIR filter over a buffer: 3 taps in Q15, as arm_fir_q15 with numTaps 3.
 *
 *     cc -I build/library examples/library/fir.c build/library/libtozbirem.a -o fir && ./fir
 */
#include "tozbirem.h"

#include <stdio.h>

int main(void)
{
    const char *script = "dspfx 1 input raw q15 1 8000 fir {8192 16384 8192} output raw";
    const int16_t input[6] = {1000, -1000, 400, 32767, 32767, 32767};
    int16_t output[6];
    int64_t kept[4]; /* two states of T-1 numbers */
    size_t given;
    struct tozbirem chain;
    char line[256];

    uint32_t status = tozbirem_open(&chain, script, 6, kept, 4);
    if (status == TOZBIREM_OK) status = tozbirem_process(&chain, input, 6, output, sizeof output, &given);
    if (status != TOZBIREM_OK) {
        fprintf(stderr, "fir: %s\n", tozbirem_text(&chain, status, line, sizeof line));
        return 1;
    }
    for (size_t i = 0; i < given; i++) printf("%d\n", output[i]);
    return 0;
}
