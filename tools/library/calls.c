/*
 * The calls from C: every bad argument has its status and changes nothing, a signal in pieces is the signal at once,
 * and eight threads do not see each other. Prints what fails, and ends with 1.
 */
#include "tozbirem.h"

#include <pthread.h>
#include <stdio.h>
#include <stdlib.h>

static int failed;

/* Counts a check that does not hold. */
static void check(int line, int holds, const char *what)
{
    if (holds) return;
    failed = 1;
    printf("line %d: %s\n", line, what);
}

#define CHECK(it) check(__LINE__, (it), #it)

static const char *FIR = "dspfx 1 input raw q15 2 8000 fir {8192 16384} power output raw";
static const char *NARROW = "dspfx 1 input raw q7 1 8000 biquad 0 {1 2 3 4 5 6} output raw";
static const char *WINDOW = "dspfx 1 input raw q31 1 8000 conv_partial 1 3 {1 2} output raw";
static const char *LONG = "dspfx 1 input raw q7 1 8000 correlate {1} output raw";

enum { NUMBERS = 64, ROOM = 4096 };

static void test_plans(void)
{
    struct tozbirem_plan plan;
    struct tozbirem_answer answer;
    CHECK(tozbirem_version() >> 16 == 0 && tozbirem_version() >> 8 == 1);
    CHECK(tozbirem_plan(FIR, strlen(FIR), 100, 10, &plan, &answer) == TOZBIREM_OK);
    CHECK(plan.block == 100 && plan.unit == 1 && plan.frame_bytes == 4 && plan.given_bytes == 4 && plan.room == 400);
    CHECK(plan.measures == 2 && plan.frames_given == 10 && plan.cost_low == 2 * 10 * 2 + 2 * 10 && plan.cost_high == 0);
    CHECK(plan.kept == 4 && tozbirem_plan(FIR, strlen(FIR), 100, 1 + ((uint64_t)1 << 40), &plan, &answer) == TOZBIREM_INPUT);
    CHECK(tozbirem_plan(FIR, strlen(FIR), 100, (uint64_t)1 << 40, &plan, &answer) == TOZBIREM_OK && plan.cost_low == (uint64_t)6 << 40);
    CHECK(plan.format == 15 && plan.channels == 2 && plan.output_format == 15 && plan.output_channels == 2);
    CHECK(tozbirem_plan(FIR, strlen(FIR), 65537, 0, &plan, &answer) == TOZBIREM_BLOCK);
    CHECK(answer.first == 65537 && answer.second == 1);
    CHECK(tozbirem_plan(FIR, strlen(FIR) - 1, 0, 0, &plan, &answer) == TOZBIREM_SCRIPT);
    CHECK(answer.kind == TOZBIREM_UNKNOWN_WORD && answer.first == strlen(FIR) - 3);
    CHECK(tozbirem_plan(FIR, 0, 0, 0, &plan, &answer) == TOZBIREM_SCRIPT);
    CHECK(answer.kind == TOZBIREM_MISSING && answer.first == 0);
    const char *wide = "dspfx 1 input raw q15 1 8000 fir {32768} output raw";
    CHECK(tozbirem_plan(wide, strlen(wide), 0, 0, &plan, &answer) == TOZBIREM_SCRIPT);
    CHECK(answer.kind == TOZBIREM_OUT_OF_RANGE && answer.first == 34 && answer.low == -32768 && answer.high == 32767);
    CHECK(tozbirem_plan(NARROW, strlen(NARROW), 0, 0, &plan, &answer) == TOZBIREM_SCRIPT);
    CHECK(answer.kind == TOZBIREM_NO_SUCH_FORM && answer.low == 7);
}

static void test_pieces(void)
{
    int16_t input[8] = {1000, -1000, 2000, -2000, 3000, -3000, 4000, -4000}, output[ROOM], before[ROOM];
    int64_t kept[NUMBERS] = {0}, next[NUMBERS];
    struct tozbirem_answer answer;
    size_t n = strlen(FIR);
    memset(output, 1, sizeof output);
    memset(next, 1, sizeof next);
    memcpy(before, output, sizeof output);
#define FEED(block, frames, count, bytes, room, numbers) \
    tozbirem_feed(FIR, n, block, frames, kept, count, input, bytes, output, room, next, numbers, &answer)
    CHECK(FEED(2, 0, 0, 6, ROOM, NUMBERS) == TOZBIREM_FRAMES && answer.first == 4);
    CHECK(FEED(1, 0, 0, 8, ROOM, NUMBERS) == TOZBIREM_LENGTH && answer.first == 1);
    CHECK(FEED(2, 0, 0, 8, 7, NUMBERS) == TOZBIREM_ROOM && answer.first == 8);
    CHECK(FEED(2, 0, 0, 8, ROOM, 1) == TOZBIREM_KEPT_ROOM && answer.first == 4);
    CHECK(FEED(0, 1, 0, 8, ROOM, NUMBERS) == TOZBIREM_STATE);
    kept[0] = kept[1] = kept[2] = kept[3] = 40000;
    CHECK(FEED(2, 5, 4, 8, ROOM, NUMBERS) == TOZBIREM_STATE);
    CHECK(FEED(3, 0, 0, 8, 8, NUMBERS) == TOZBIREM_ROOM && answer.first == 12);
    kept[0] = kept[1] = kept[2] = kept[3] = 0;
    CHECK(FEED(2, ((uint64_t)1 << 40) - 1, 4, 8, ROOM, NUMBERS) == TOZBIREM_INPUT && answer.first == (uint64_t)1 << 40);
    CHECK(FEED(2, ((uint64_t)1 << 40) + 1, 4, 8, ROOM, NUMBERS) == TOZBIREM_STATE);
    CHECK(!memcmp(output, before, sizeof output));
    CHECK(next[0] == 0x0101010101010101 && next[NUMBERS - 1] == next[0]);
    CHECK(FEED(2, 0, 0, 8, 8, 4) == TOZBIREM_OK && answer.given == 8 && answer.kept == 4);
    CHECK(output[0] == 500 && output[1] == -500 && output[2] == 1250 && output[3] == -1250 && output[4] == 0x101);
#undef FEED
}

static void test_ends(void)
{
    int8_t output[ROOM];
    int64_t none = 0, kept[NUMBERS];
    static int64_t many[1 << 20], more[(1 << 20) + 1];
    struct tozbirem_measure measures[2];
    struct tozbirem_answer answer;
    const int32_t two[2] = {1 << 30, 1 << 30};
    CHECK(tozbirem_feed(WINDOW, strlen(WINDOW), 2, 0, &none, 0, two, 8, output, ROOM, kept, NUMBERS, &answer) == TOZBIREM_OK);
    CHECK(tozbirem_finish(WINDOW, strlen(WINDOW), 2, 2, kept, (size_t)answer.kept, output, ROOM, measures, 0, &answer) ==
          TOZBIREM_WINDOW);
    CHECK(answer.first == 4 && answer.second == 3);
    kept[0] = (int64_t)1 << 31;
    CHECK(tozbirem_finish(WINDOW, strlen(WINDOW), 2, 2, kept, 1, output, ROOM, measures, 0, &answer) == TOZBIREM_STATE);
    CHECK(tozbirem_finish(WINDOW, strlen(WINDOW), 2, 2, kept, 0, output, ROOM, measures, 0, &answer) == TOZBIREM_STATE);
    CHECK(tozbirem_finish(LONG, strlen(LONG), 1, 1 << 20, many, 1 << 20, output, ROOM, measures, 0, &answer) ==
          TOZBIREM_ROOM);
    CHECK(answer.first == (1 << 21) - 1);
    CHECK(tozbirem_feed(LONG, strlen(LONG), 1, 1 << 20, many, 1 << 20, two, 1, output, ROOM, more, 1 << 20, &answer) ==
          TOZBIREM_KEPT_ROOM);
    CHECK(answer.first == (1 << 20) + 1);
    CHECK(tozbirem_feed(LONG, strlen(LONG), 1, 1 << 20, many, 1 << 20, two, 1, output, ROOM, more, (1 << 20) + 1, &answer) ==
          TOZBIREM_GATHER);
    CHECK(answer.first == 1 << 20 && answer.second == 1);
}

static void test_null(void)
{
    int16_t input[2] = {1, 2}, output[ROOM];
    int64_t kept[NUMBERS];
    struct tozbirem chain;
    struct tozbirem_measure measures[2];
    size_t given;
    CHECK(tozbirem_open(NULL, FIR, 0, kept, NUMBERS) == TOZBIREM_NULL);
    CHECK(tozbirem_open(&chain, NULL, 0, kept, NUMBERS) == TOZBIREM_NULL);
    CHECK(tozbirem_open(&chain, FIR, 0, NULL, NUMBERS) == TOZBIREM_NULL);
    CHECK(tozbirem_open(&chain, FIR, 0, kept, NUMBERS) == TOZBIREM_OK);
    CHECK(tozbirem_process(NULL, input, 1, output, sizeof output, &given) == TOZBIREM_NULL);
    CHECK(tozbirem_process(&chain, NULL, 1, output, sizeof output, &given) == TOZBIREM_NULL);
    CHECK(tozbirem_process(&chain, input, 1, NULL, sizeof output, &given) == TOZBIREM_NULL);
    CHECK(tozbirem_process(&chain, input, 1, output, sizeof output, NULL) == TOZBIREM_NULL);
    CHECK(tozbirem_end(NULL, output, sizeof output, &given, measures, 2) == TOZBIREM_NULL);
    CHECK(tozbirem_end(&chain, NULL, sizeof output, &given, measures, 2) == TOZBIREM_NULL);
    CHECK(tozbirem_end(&chain, output, sizeof output, NULL, measures, 2) == TOZBIREM_NULL);
    CHECK(tozbirem_end(&chain, output, sizeof output, &given, NULL, 2) == TOZBIREM_NULL);
    CHECK(tozbirem_resume(NULL, 0, kept, 0) == TOZBIREM_NULL && tozbirem_resume(&chain, 0, NULL, 1) == TOZBIREM_NULL);
    CHECK(tozbirem_state(NULL) == NULL && chain.frames == 0);
}

/* A chain that is not open: all bytes 0, all bytes 255, and one that was open before it was opened in vain. */
static void test_not_open(void)
{
    int16_t input[2] = {1, 2}, output[ROOM];
    int64_t kept[NUMBERS];
    struct tozbirem chain;
    struct tozbirem_measure measures[2];
    char line[256];
    size_t given = 77;
    for (int kind = 0; kind < 5; kind++) {
        if (kind < 2) memset(&chain, kind ? 255 : 0, sizeof chain);
        if (kind > 1) CHECK(tozbirem_open(&chain, FIR, 0, kept, NUMBERS) == TOZBIREM_OK && chain.is_open == TOZBIREM_IS_OPEN);
        if (kind == 2) CHECK(tozbirem_open(&chain, FIR, 3, NULL, NUMBERS) == TOZBIREM_NULL);
        if (kind == 3) CHECK(tozbirem_open(&chain, FIR, 65537, kept, NUMBERS) == TOZBIREM_BLOCK && chain.plan.block == 0);
        if (kind == 4) CHECK(tozbirem_open(&chain, NULL, 0, kept, NUMBERS) == TOZBIREM_NULL);
        CHECK(chain.is_open != TOZBIREM_IS_OPEN);
        CHECK(tozbirem_process(&chain, input, 1, output, sizeof output, &given) == TOZBIREM_EMPTY);
        CHECK(tozbirem_process(&chain, NULL, 0, output, sizeof output, &given) == TOZBIREM_EMPTY);
        CHECK(tozbirem_end(&chain, output, sizeof output, &given, measures, 2) == TOZBIREM_EMPTY);
        CHECK(tozbirem_resume(&chain, 1, kept, 1) == TOZBIREM_EMPTY && tozbirem_state(&chain) == NULL && given == 77);
        CHECK(!strcmp(tozbirem_text(&chain, TOZBIREM_EMPTY, line, sizeof line), "the chain is not open"));
        CHECK(!strcmp(tozbirem_text(&chain, TOZBIREM_EMPTY, line, 22), "the chain is not open"));
        CHECK(!*tozbirem_text(&chain, TOZBIREM_EMPTY, line, 21));
    }
}

static void test_chains(void)
{
    int16_t input[6] = {1000, -1000, 2000, -2000, 3000, -3000}, output[ROOM], *place = output;
    int64_t kept[8], saved[4];
    struct tozbirem chain;
    struct tozbirem_measure measures[2];
    size_t given;
    CHECK(tozbirem_open(&chain, FIR, 2, kept, 6) == TOZBIREM_OK);
    CHECK(tozbirem_process(&chain, input, 1, output, sizeof output, &given) == TOZBIREM_KEPT_ROOM && chain.answer.first == 4);
    CHECK(tozbirem_open(&chain, "dspfx 1 inputt", 2, kept, 8) == TOZBIREM_SCRIPT && chain.answer.first == 8);
    CHECK(tozbirem_process(&chain, input, 1, output, sizeof output, &given) == TOZBIREM_EMPTY);
    CHECK(tozbirem_end(&chain, output, sizeof output, &given, measures, 2) == TOZBIREM_EMPTY);
    CHECK(tozbirem_open(&chain, FIR, 2, kept, 8) == TOZBIREM_OK && chain.plan.block == 2);
    CHECK(tozbirem_process(&chain, input, 3, output, sizeof output, &given) == TOZBIREM_LENGTH && chain.answer.first == 2);
    CHECK(tozbirem_process(&chain, output, 1, output, sizeof output, &given) == TOZBIREM_OVERLAP);
    CHECK(tozbirem_process(&chain, output + 3, 1, output, 8, &given) == TOZBIREM_OVERLAP);
    CHECK(tozbirem_resume(&chain, 0, kept, 5) == TOZBIREM_KEPT_ROOM && chain.answer.first == 5 && chain.frames == 0);
    CHECK(tozbirem_process(&chain, input, 1, place, sizeof output, &given) == TOZBIREM_OK && given == 1);
    CHECK(tozbirem_process(&chain, NULL, 0, place + 2, 100, &given) == TOZBIREM_OK && given == 0 && chain.frames == 1);
    CHECK(chain.kept_count == 4);
    memcpy(saved, tozbirem_state(&chain), sizeof saved);
    CHECK(tozbirem_process(&chain, input + 2, 2, place + 2, 100, &given) == TOZBIREM_OK && given == 2);
    CHECK(output[2] == 1250 && output[3] == -1250 && output[4] == 2000 && output[5] == -2000);
    CHECK(tozbirem_end(&chain, output, sizeof output, &given, measures, 2) == TOZBIREM_OK && given == 0);
    CHECK(chain.answer.kept == 2 && measures[1].kind == TOZBIREM_POWER && measures[1].number == 2 && measures[1].channel == 1);
    CHECK(measures[0].value == 500 * 500 + 1250 * 1250 + 2000 * 2000 && measures[0].found == 1);
    CHECK(tozbirem_end(&chain, output, sizeof output, &given, measures, 2) == TOZBIREM_ENDED);
    CHECK(tozbirem_process(&chain, input, 1, output, 100, &given) == TOZBIREM_ENDED && chain.frames == 3);
    CHECK(tozbirem_resume(&chain, 1, saved, 4) == TOZBIREM_OK);
    CHECK(tozbirem_process(&chain, input + 2, 1, output, 100, &given) == TOZBIREM_OK && output[0] == 1250 && chain.frames == 2);
    saved[0] = 40000;
    CHECK(tozbirem_resume(&chain, 1, saved, 4) == TOZBIREM_OK);
    CHECK(tozbirem_process(&chain, input + 2, 1, output, 100, &given) == TOZBIREM_STATE && chain.frames == 1);
    CHECK(tozbirem_end(&chain, output, 100, &given, measures, 2) == TOZBIREM_STATE && !chain.has_ended);
}

/* The line of a status with its numbers, which is compared with what is wanted. */
static int says(uint32_t status, const struct tozbirem_answer *answer, const char *wanted)
{
    char line[256];
    size_t length = (size_t)tozbirem_explain(status, answer, line, sizeof line);
    return length == strlen(wanted) && !memcmp(line, wanted, length);
}

static void test_texts(void)
{
    const char *torn = "dspfx 1 input raw q15 1 8000 fir {16384 40000} output raw";
    int64_t kept[8];
    int16_t input[2] = {0, 0}, output[8];
    char line[64];
    size_t given;
    struct tozbirem chain;
    struct tozbirem_answer answer;
    struct tozbirem_plan plan;
    memset(&answer, 0, sizeof answer);
    CHECK(tozbirem_plan(torn, strlen(torn), 0, 0, &plan, &answer) == TOZBIREM_SCRIPT);
    CHECK(says(TOZBIREM_SCRIPT, &answer, "script: OutOfRange at 40, low -32768, high 32767"));
    memset(line, 7, sizeof line);
    CHECK(tozbirem_explain(TOZBIREM_SCRIPT, &answer, line, 47) == 48 && line[0] == 7 && line[46] == 7);
    CHECK(tozbirem_explain(TOZBIREM_SCRIPT, &answer, line, 48) == 48 && line[0] == 's' && line[48] == 7);
    CHECK(tozbirem_plan(FIR, strlen(FIR), 65537, 0, &plan, &answer) == TOZBIREM_BLOCK);
    CHECK(says(TOZBIREM_BLOCK, &answer, "block length 65537, unit 1"));
    CHECK(tozbirem_feed(FIR, strlen(FIR), 4, 0, kept, 0, input, 3, output, 16, kept, 8, &answer) == TOZBIREM_FRAMES);
    CHECK(says(TOZBIREM_FRAMES, &answer, "the input has no whole frames, of 4 bytes each"));
    CHECK(says(TOZBIREM_OK, &answer, "done") && says(TOZBIREM_MEMORY, &answer, "want of memory"));
    CHECK(says(99, &answer, "no status of tozbirem"));
    CHECK(tozbirem_open(&chain, "dspfx 1 input raw q16", 0, kept, 8) == TOZBIREM_SCRIPT);
    CHECK(!strcmp(tozbirem_text(&chain, TOZBIREM_SCRIPT, line, sizeof line), "script: UnknownWord at 18"));
    CHECK(!strcmp(tozbirem_text(&chain, TOZBIREM_SCRIPT, line, 10), ""));
    CHECK(!*tozbirem_text(NULL, TOZBIREM_OK, line, 10) && !*tozbirem_text(&chain, TOZBIREM_OK, NULL, 10));
    CHECK(tozbirem_process(&chain, input, 1, output, 16, NULL) == TOZBIREM_NULL);
    CHECK(!strcmp(tozbirem_text(&chain, TOZBIREM_NULL, line, sizeof line), "a null pointer"));
    (void)given;
}

/* A signal that is held gives, call by call, what its text gives, and leaves the same numbers. */
static void test_handles(void)
{
    int16_t input[64] = {0}, by_text[64], by_handle[64];
    int64_t kept[2][NUMBERS], numbers[NUMBERS];
    struct tozbirem_answer answer, other;
    struct tozbirem_handle handle = TOZBIREM_EMPTY_HANDLE, second = TOZBIREM_EMPTY_HANDLE;
    size_t n = strlen(FIR), count = 0;
    uint64_t frames = 0;
    int half = 0;
    CHECK(tozbirem_push(&handle, input, 0, by_handle, sizeof by_handle, &answer) == TOZBIREM_EMPTY);
    CHECK(tozbirem_keep(&handle, numbers, NUMBERS, &answer) == TOZBIREM_EMPTY);
    CHECK(tozbirem_let_go(&handle) == TOZBIREM_OK && says(TOZBIREM_EMPTY, &answer, "the handle holds no signal"));
    CHECK(tozbirem_hold("dspfx 3", 7, 0, 0, numbers, 0, &handle, &answer) == TOZBIREM_SCRIPT && !handle.is_full);
    CHECK(tozbirem_hold(FIR, n, 32, 0, numbers, 0, &handle, &answer) == TOZBIREM_OK && handle.is_full);
    for (int call = 0; call < 100; call++) {
        size_t bytes = 4 * (size_t)(call % 17);
        for (int i = 0; i < 64; i++) input[i] = (int16_t)(call * 977 + i * 331);
        CHECK(tozbirem_feed(FIR, n, 32, frames, kept[half], count, input, bytes, by_text, sizeof by_text, kept[!half],
                            NUMBERS, &answer) == TOZBIREM_OK);
        half = !half, count = (size_t)answer.kept, frames += bytes / 4;
        CHECK(tozbirem_push(&handle, input, bytes, by_handle, sizeof by_handle, &other) == TOZBIREM_OK);
        CHECK(other.given == answer.given && !memcmp(by_text, by_handle, (size_t)answer.given));
        CHECK(tozbirem_keep(&handle, numbers, NUMBERS, &other) == TOZBIREM_OK && other.kept == count);
        CHECK(!memcmp(numbers, kept[half], count * sizeof *numbers));
    }
    CHECK(tozbirem_push(&handle, input, 3, by_handle, sizeof by_handle, &answer) == TOZBIREM_FRAMES && answer.first == 4);
    CHECK(tozbirem_push(&handle, input, 128, by_handle, 127, &answer) == TOZBIREM_ROOM && answer.first == 128);
    CHECK(tozbirem_keep(&handle, numbers, count - 1, &answer) == TOZBIREM_KEPT_ROOM && answer.first == count);
    /* Another handle goes on from the numbers, and a handle that is used again lets go of what it held. */
    numbers[0] = 40000;
    CHECK(tozbirem_hold(FIR, n, 32, frames, numbers, count, &handle, &answer) == TOZBIREM_STATE && handle.is_full);
    CHECK(tozbirem_hold(FIR, n, 16, frames, kept[half], count, &second, &answer) == TOZBIREM_OK);
    CHECK(tozbirem_push(&handle, input, 64, by_text, sizeof by_text, &answer) == TOZBIREM_OK);
    CHECK(tozbirem_push(&second, input, 64, by_handle, sizeof by_handle, &other) == TOZBIREM_OK);
    CHECK(answer.given == 64 && other.given == 64 && !memcmp(by_text, by_handle, 64));
    CHECK(tozbirem_push(&second, input, 68, by_handle, sizeof by_handle, &other) == TOZBIREM_LENGTH && other.first == 16);
    CHECK(tozbirem_hold(LONG, strlen(LONG), 65536, 0, numbers, 0, &second, &answer) == TOZBIREM_OK);
    CHECK(tozbirem_let_go(&handle) == TOZBIREM_OK && tozbirem_let_go(&second) == TOZBIREM_OK && !second.is_full);
}

/* A correlation that is full refuses the next frames, and goes on with fewer. */
static void test_full(void)
{
    enum { BLOCK = 65536 };
    struct tozbirem_answer answer;
    struct tozbirem_handle handle = TOZBIREM_EMPTY_HANDLE;
    int64_t none[1] = {0};
    char *input = (char *)calloc(BLOCK, 1), *output = (char *)calloc(BLOCK, 1);
    CHECK(tozbirem_hold(LONG, strlen(LONG), BLOCK, 0, none, 0, &handle, &answer) == TOZBIREM_OK);
    for (int call = 0; call < 15; call++) CHECK(tozbirem_push(&handle, input, BLOCK, output, BLOCK, &answer) == TOZBIREM_OK);
    CHECK(tozbirem_push(&handle, input, BLOCK - 1, output, BLOCK, &answer) == TOZBIREM_OK);
    CHECK(tozbirem_push(&handle, input, 2, output, BLOCK, &answer) == TOZBIREM_FULL && answer.first == 1048577);
    CHECK(says(TOZBIREM_FULL, &answer, "too many samples for correlate: 1048577 of a channel"));
    CHECK(tozbirem_push(&handle, input, 1, output, BLOCK, &answer) == TOZBIREM_OK);
    CHECK(tozbirem_let_go(&handle) == TOZBIREM_OK);
    free(input);
    free(output);
}

static void test_programs(void)
{
    const char *run = "run s i o", *print = "print s", *wrong = "rum s i o";
    const char *script = "dspfx 1 input raw q15 1 8000 fir {16384} output raw";
    const unsigned char input[6] = {0xe8, 0x03, 0x18, 0xfc, 0xff, 0xff}, wanted[6] = {0xf4, 0x01, 0x0c, 0xfe, 0xff, 0xff};
    unsigned char output[ROOM];
    char report[ROOM];
    struct tozbirem_lengths lengths;
#define PROGRAM(words, room, told) \
    tozbirem_program(words, strlen(words), script, strlen(script), input, 6, script, 0, output, room, report, told, &lengths)
    CHECK(PROGRAM(run, ROOM, ROOM) == 0 && lengths.output == 6 && !memcmp(output, wanted, 6));
    CHECK(lengths.report > 12 && !memcmp(report, "dspfx: done\n", 12));
    CHECK(PROGRAM(run, 5, ROOM) == 8);
    CHECK(PROGRAM(run, ROOM, 5) == 9 && lengths.output == 6);
    CHECK(PROGRAM(wrong, ROOM, ROOM) == 1);
    CHECK(PROGRAM(print, 0, ROOM) == 0 && lengths.output == 0 && !memcmp(report, "dspfx 1\ninput raw q15 1 8000\nfir {16384}\n", 41));
#undef PROGRAM
    /* The other file is read where it is, up to the first byte that differs, and no output is written. */
    const char *compare = "check s i o";
    unsigned char other[6];
    memset(output, 7, sizeof output);
    for (int wrong = 0; wrong < 2; wrong++) {
        memcpy(other, wanted, 6);
        other[4] ^= (unsigned char)wrong;
        CHECK(tozbirem_program(compare, strlen(compare), script, strlen(script), input, 6, other, 6, output, ROOM, report, ROOM,
                               &lengths) == (wrong ? 11U : 0U));
        CHECK(lengths.output == 0 && output[0] == 7);
    }
    CHECK(tozbirem_program(run, strlen(run), script, strlen(script), input, 0, script, 0, output, 0, report, ROOM, &lengths) == 0);
    CHECK(lengths.output == 0 && output[0] == 7);
}

/* A filter over 20,000 samples of its own, in pieces of 100, by its text and by a handle: the sum of the output in out[1]. */
static void *work(void *argument)
{
    int64_t *out = (int64_t *)argument, kept[4];
    int16_t input[100], output[100], by_handle[100];
    struct tozbirem chain;
    struct tozbirem_answer answer;
    struct tozbirem_handle handle = TOZBIREM_EMPTY_HANDLE;
    size_t given;
    const char *script = "dspfx 1 input raw q15 1 8000 fir {16384 16384} output raw";
    if (tozbirem_open(&chain, script, 100, kept, 4) != TOZBIREM_OK) return NULL;
    if (tozbirem_hold(script, strlen(script), 100, 0, kept, 0, &handle, &answer) != TOZBIREM_OK) return NULL;
    for (int piece = 0; piece < 200; piece++) {
        for (int i = 0; i < 100; i++) input[i] = (int16_t)(2 * (out[0] * piece + i));
        if (tozbirem_process(&chain, input, 100, output, sizeof output, &given) != TOZBIREM_OK || given != 100) return NULL;
        if (tozbirem_push(&handle, input, sizeof input, by_handle, sizeof by_handle, &answer) != TOZBIREM_OK) return NULL;
        if (memcmp(output, by_handle, sizeof output)) return NULL;
        for (int i = 0; i < 100; i++) out[1] += output[i];
    }
    return tozbirem_let_go(&handle) == TOZBIREM_OK ? out : NULL;
}

static void test_threads(void)
{
    pthread_t threads[8];
    int64_t sums[8][2];
    for (int i = 0; i < 8; i++) {
        sums[i][0] = i;
        sums[i][1] = 0;
        CHECK(pthread_create(&threads[i], NULL, work, sums[i]) == 0);
    }
    for (int i = 0; i < 8; i++) {
        void *done = NULL;
        CHECK(pthread_join(threads[i], &done) == 0 && done == sums[i]);
        /* Each output is the mean of two inputs, all even: the sum of all inputs less half of the last one. */
        int64_t wanted = 0;
        for (int piece = 0; piece < 200; piece++)
            for (int k = 0; k < 100; k++) wanted += 2 * ((int64_t)i * piece + k);
        CHECK(sums[i][1] == wanted - ((int64_t)i * 199 + 99));
    }
}

int main(void)
{
    test_plans();
    test_pieces();
    test_ends();
    test_null();
    test_not_open();
    test_chains();
    test_texts();
    test_handles();
    test_full();
    test_programs();
    test_threads();
    return failed;
}
