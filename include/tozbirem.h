/**
 * @file   tozbirem.h
 * @brief  Arm's CMSIS-DSP fixed-point functions (Q7, Q15, Q31, the plain C path), proved, for C and C++.
 *
 * A script names the blocks that samples go through. This one is a filter of three taps in Q15 on one channel:
 *
 *     dspfx 1 input raw q15 1 8000 fir {8192 16384 8192} output raw
 *
 * docs/SCRIPT.md has the language: 38 blocks, three formats, 1 to 16 channels. docs/DEFINITIONS.md says which
 * function of CMSIS-DSP each block stands for. Begin with tozbirem_open(), tozbirem_process() and tozbirem_end();
 * examples/library has whole programs. tools/library.sh proves and builds the library; then build a program by
 *
 *     cc -I build/library program.c build/library/libtozbirem.a
 *
 * **Samples** are words of the format: int8_t in q7, int16_t in q15, int32_t in q31, in the order of bytes of this
 * machine, which is little-endian. A frame has one sample of each channel, channel 0 first, and frames follow each
 * other. If the script says `input wave` or `output wave`, samples in q7 are unsigned bytes, 128 more than the number,
 * as in WAVE files.
 *
 * **State.** The library keeps nothing between two calls. What a filter keeps of the samples before is an array of
 * numbers that the caller holds. So nothing has to be freed, a state is saved by copying it, and any number of threads
 * may call at the same time. A call takes memory by malloc(), and frees it before it returns.
 *
 * **Small calls.** Each of these calls reads the script again, which takes some microseconds. For calls of a few frames
 * there is a handle, which holds the script and its filters from call to call: tozbirem_hold(), tozbirem_push() and
 * tozbirem_let_go(). Its calls take no memory. It gives the same samples.
 *
 * **What the caller owes.** Each pointer is valid for the length that goes with it. Memory that is written overlaps no
 * other argument. Everything else is tested: a call that cannot do what is asked returns a status, and changes no
 * state.
 */
#ifndef TOZBIREM_H
#define TOZBIREM_H

#include <stddef.h>
#include <stdint.h>
#include <string.h>

#ifdef __cplusplus
extern "C" {
#endif

/** @brief What a call returns. `first` and `second` are fields of struct tozbirem_answer. */
enum tozbirem_status {
    TOZBIREM_OK = 0,
    TOZBIREM_SCRIPT = 2,     /**< a fault in the script: its kind, and first is its offset in bytes */
    TOZBIREM_BLOCK = 3,      /**< first is no legal block length; second is the block unit, or 0 if none is legal */
    TOZBIREM_MEMORY = 10,    /**< out of memory */
    TOZBIREM_FRAMES = 20,    /**< the input has no whole frames: first is the number of bytes of one */
    TOZBIREM_LENGTH = 21,    /**< the input has more than one block: first is the block length in frames */
    TOZBIREM_INPUT = 22,     /**< the signal would have more than 2^40 frames, which is first */
    TOZBIREM_ROOM = 23,      /**< the output is too short: first is how many bytes it needs */
    TOZBIREM_GATHER = 24,    /**< `correlate` holds first samples of a channel, and second more are too many */
    TOZBIREM_WINDOW = 25,    /**< a window of `conv_partial` ends at first, and there are second values */
    TOZBIREM_STATE = 26,     /**< these blocks keep no such numbers after so many frames */
    TOZBIREM_NULL = 27,      /**< a null pointer; only of the functions for a chain, below */
    TOZBIREM_KEPT_ROOM = 28, /**< kept_out is too short: first is how many numbers it needs */
    TOZBIREM_OVERLAP = 29,   /**< the output overlaps the input; only of tozbirem_process() */
    TOZBIREM_ENDED = 30,     /**< the signal has ended; only of tozbirem_process() and tozbirem_end() */
    TOZBIREM_FULL = 31,      /**< `correlate` would hold first samples of a channel; only of tozbirem_push() */
    TOZBIREM_EMPTY = 32      /**< the handle holds no signal; of a chain, below, it is not open */
};

/** @brief The kind of a fault in a script, by its name in docs/SCRIPT.md, with what low and high say. */
enum tozbirem_fault {
    TOZBIREM_TOO_LONG = 1,
    TOZBIREM_BAD_BYTE,
    TOZBIREM_UNKNOWN_WORD,
    TOZBIREM_BAD_NUMBER,
    TOZBIREM_OUT_OF_RANGE,  /**< low, high */
    TOZBIREM_MISSING,
    TOZBIREM_NO_SUCH_FORM,  /**< low: the format, 7, 15 or 31 */
    TOZBIREM_CHANNELS_HERE, /**< low: got, high: wanted */
    TOZBIREM_BAD_LENGTH,    /**< low: how many numbers, high: the factor */
    TOZBIREM_TOO_MANY,      /**< low: the limit */
    TOZBIREM_BAD_NAME,
    TOZBIREM_NAME_TAKEN
};

/** @brief What a call says besides its status. */
struct tozbirem_answer {
    uint64_t given;  /**< bytes that were written to the output; 0 where the call was refused */
    uint64_t kept;   /**< numbers that were written to kept_out, or measures; 0 where the call was refused */
    uint64_t first;  /**< what enum tozbirem_status says of the status; else 0 */
    uint64_t second; /**< what enum tozbirem_status says of the status; else 0 */
    int64_t low;     /**< what enum tozbirem_fault says of the kind; else 0 */
    int64_t high;    /**< what enum tozbirem_fault says of the kind; else 0 */
    uint32_t kind;   /**< enum tozbirem_fault with TOZBIREM_SCRIPT, else 0 */
    uint32_t unused; /**< always 0 */
};

/** @brief What a script is, and what a run of it takes and gives. */
struct tozbirem_plan {
    uint64_t block;           /**< the block length, in frames */
    uint64_t unit;            /**< the block unit: legal block lengths are multiples of it */
    uint64_t frame_bytes;     /**< bytes of a frame of the input */
    uint64_t given_bytes;     /**< bytes of a frame of the output */
    uint64_t room;            /**< bytes that the output of a call needs, for a block of frames */
    uint64_t measures;        /**< how many measures the script has: one a channel, of `dot` and `cmplx_dot` one */
    uint64_t frames_given;    /**< frames of the output, tail included, of an input of the frames asked about */
    uint64_t kept;            /**< how many numbers the blocks keep after these frames */
    uint64_t cost_low;        /**< products of that run: the low 64 bits */
    uint64_t cost_high;       /**< products of that run: the high 64 bits */
    uint32_t format;          /**< of the input: 7, 15 or 31 */
    uint32_t channels;        /**< of the input: 1 to 16 */
    uint32_t output_format;   /**< of the output: 7, 15 or 31 */
    uint32_t output_channels; /**< of the output: 1 to 16 */
};

/** @brief What a measure is of. */
enum tozbirem_measured { TOZBIREM_POWER = 1, TOZBIREM_DOT, TOZBIREM_CMPLX_DOT, TOZBIREM_MAX, TOZBIREM_MIN };

/** @brief A measure of a whole signal. The scale of a sum is that of CMSIS-DSP (docs/LIBRARY.md, dsp_measure). */
struct tozbirem_measure {
    uint32_t kind;    /**< enum tozbirem_measured */
    uint32_t number;  /**< which block of the script, from 1 */
    uint32_t channel; /**< which channel, from 0; 0 of `dot` and `cmplx_dot` */
    uint32_t found;   /**< 1, or 0 where `max` and `min` had no sample */
    int64_t value;    /**< the sum, the real part of it, or the greatest or least sample */
    int64_t other;    /**< the imaginary part, or the frame of that sample, from 0 */
};

/**
 * @brief A signal that is held from call to call, or nothing. Begin with TOZBIREM_EMPTY_HANDLE, or with all bytes 0.
 *
 * Its fields are the library's own. It may be moved, but of two copies only one may be used. Threads may hand it on, by a
 * lock or as one starts or ends, and one call at a time uses it.
 */
struct tozbirem_handle {
    uint8_t is_full; /**< 1 where it holds a signal, else 0; set by the library alone */
    void *at;        /**< what it holds; of no use where is_full is 0 */
};
#define TOZBIREM_EMPTY_HANDLE {0, NULL}

/** @brief How much a program wrote. */
struct tozbirem_lengths {
    uint64_t output; /**< bytes of the output */
    uint64_t report; /**< bytes of the report */
};

/*
 * ---- The calls of the library. A program that works on one signal after another needs none of them: see the
 * functions for a chain below. No pointer may be null here, also not where its length is 0.
 */

/**
 * @brief          The version of the library.
 * @return         65,536 for each major version, 256 for each minor one, and the patch: 256 is 0.1.0
 */
uint32_t tozbirem_version(void);

/**
 * @brief          Reads a script, and says what a run of it takes and gives.
 * @param[in]      script         the text of the script; it needs no zero at its end
 * @param[in]      script_length  bytes of the text, at most 1,048,576
 * @param[in]      block          most frames of a call, 1 to 65,536 and a multiple of the block unit; 0 for the
 *                                script's own block length, or its default. It changes no sample
 * @param[in]      frames         frames of an input, for frames_given, kept and the cost
 * @param[out]     plan           what the script is; as it was after another status than TOZBIREM_OK
 * @param[out]     answer         the fault, if there is one
 * @return         TOZBIREM_OK, TOZBIREM_SCRIPT, TOZBIREM_BLOCK, TOZBIREM_INPUT for more than 2^40 frames, or
 *                 TOZBIREM_MEMORY
 */
uint32_t tozbirem_plan(const void *script, size_t script_length, uint64_t block, uint64_t frames,
                       struct tozbirem_plan *plan, struct tozbirem_answer *answer);

/**
 * @brief          Takes the next frames of a signal, and writes what they add to the output.
 * @param[in]      script         the text of the script
 * @param[in]      script_length  bytes of the text
 * @param[in]      block          most frames of this call, as for tozbirem_plan(); two calls may have different ones
 * @param[in]      frames         how many frames came before these
 * @param[in]      kept           the numbers that the call before this one wrote to kept_out
 * @param[in]      kept_count     how many these are; 0 before the first frame
 * @param[in]      input          whole frames, at most a block of them, or none
 * @param[in]      input_bytes    bytes of these frames
 * @param[out]     output         the frames that come of them; the rest of the buffer stays as it is
 * @param[in]      output_bytes   bytes of the buffer, at least the plan's room
 * @param[out]     kept_out       the numbers to go on from
 * @param[in]      kept_room      how many numbers fit there; TOZBIREM_KEPT_ROOM says how many are needed
 * @param[out]     answer         given and kept, or the fault
 * @return         TOZBIREM_OK, or why nothing was done; output and kept_out are then as before: TOZBIREM_SCRIPT,
 *                 TOZBIREM_BLOCK, TOZBIREM_MEMORY, TOZBIREM_FRAMES, TOZBIREM_LENGTH, TOZBIREM_INPUT, TOZBIREM_ROOM,
 *                 TOZBIREM_GATHER, TOZBIREM_STATE or TOZBIREM_KEPT_ROOM
 */
uint32_t tozbirem_feed(const void *script, size_t script_length, uint64_t block, uint64_t frames,
                       const int64_t *kept, size_t kept_count, const void *input, size_t input_bytes,
                       void *output, size_t output_bytes, int64_t *kept_out, size_t kept_room,
                       struct tozbirem_answer *answer);

/**
 * @brief          Ends a signal: writes its tail, and the measures of the whole signal.
 * @param[in]      script         the text of the script
 * @param[in]      script_length  bytes of the text
 * @param[in]      block          most frames of a call, as for tozbirem_plan()
 * @param[in]      frames         how many frames came in all
 * @param[in]      kept           the numbers that the last call wrote to kept_out
 * @param[in]      kept_count     how many these are; 0 before the first frame
 * @param[out]     output         the frames of the tail: none but for `conv`, `conv_partial` and `correlate`
 * @param[in]      output_bytes   bytes of the buffer; TOZBIREM_ROOM says how many the tail has, so that a call with 0
 *                                asks for it
 * @param[out]     measures       the measures, in the order of the script, and in a block by channel
 * @param[in]      measures_room  how many fit there; the plan says how many there are, and no more are written than fit
 * @param[out]     answer         given, and kept, which is the number of measures, or the fault
 * @return         TOZBIREM_OK, or why nothing was done: TOZBIREM_SCRIPT, TOZBIREM_BLOCK, TOZBIREM_MEMORY,
 *                 TOZBIREM_ROOM, TOZBIREM_WINDOW or TOZBIREM_STATE
 */
uint32_t tozbirem_finish(const void *script, size_t script_length, uint64_t block, uint64_t frames,
                         const int64_t *kept, size_t kept_count, void *output, size_t output_bytes,
                         struct tozbirem_measure *measures, size_t measures_room,
                         struct tozbirem_answer *answer);

/**
 * @brief          Has a handle hold a signal of a script. What the handle held before is freed.
 * @param[in]      script         the text of the script, which is not needed after the call
 * @param[in]      script_length  bytes of the text
 * @param[in]      block          most frames of a call, as for tozbirem_plan()
 * @param[in]      frames         how many frames came before; 0 for a new signal
 * @param[in]      kept           the numbers that these left, from tozbirem_keep() or tozbirem_feed()
 * @param[in]      kept_count     how many these are; 0 before the first frame
 * @param[in,out]  handle         the handle
 * @param[out]     answer         the fault, if there is one
 * @return         TOZBIREM_OK, TOZBIREM_SCRIPT, TOZBIREM_BLOCK, TOZBIREM_STATE or TOZBIREM_MEMORY; the handle is as it
 *                 was after another status than TOZBIREM_OK
 */
uint32_t tozbirem_hold(const void *script, size_t script_length, uint64_t block, uint64_t frames, const int64_t *kept,
                       size_t kept_count, struct tozbirem_handle *handle, struct tozbirem_answer *answer);

/**
 * @brief          Takes the next frames of the signal that a handle holds, and writes what they add to the output.
 *                 It gives what tozbirem_feed() gives of the same signal.
 * @param[in,out]  handle         the handle
 * @param[in]      input          whole frames, at most a block of them, or none
 * @param[in]      input_bytes    bytes of these frames
 * @param[out]     output         the frames that come of them; the rest of the buffer stays as it is
 * @param[in]      output_bytes   bytes of the buffer, at least the plan's room
 * @param[out]     answer         given, or the fault
 * @return         TOZBIREM_OK, or why nothing was done: TOZBIREM_FRAMES, TOZBIREM_LENGTH, TOZBIREM_INPUT, TOZBIREM_ROOM,
 *                 TOZBIREM_FULL or TOZBIREM_EMPTY
 */
uint32_t tozbirem_push(struct tozbirem_handle *handle, const void *input, size_t input_bytes, void *output,
                       size_t output_bytes, struct tozbirem_answer *answer);

/**
 * @brief          Writes the numbers that the signal of a handle leaves, to save the state or to end the signal by
 *                 tozbirem_finish(). The handle holds it as before.
 * @param[in,out]  handle         the handle
 * @param[out]     kept_out       the numbers
 * @param[in]      kept_room      how many numbers fit there
 * @param[out]     answer         kept, or the fault
 * @return         TOZBIREM_OK, or why nothing was written: TOZBIREM_KEPT_ROOM or TOZBIREM_EMPTY
 */
uint32_t tozbirem_keep(struct tozbirem_handle *handle, int64_t *kept_out, size_t kept_room,
                       struct tozbirem_answer *answer);

/**
 * @brief          Frees what a handle holds. It then holds nothing, and can be used again.
 * @param[in,out]  handle         the handle
 * @return         TOZBIREM_OK
 */
uint32_t tozbirem_let_go(struct tozbirem_handle *handle);

/**
 * @brief          Says in a line of text what a status means, with the numbers of the answer: the line that `dspfx`
 *                 reports where it has one, as "script: UnknownWord at 17".
 * @param[in]      status         what a call returned
 * @param[in]      answer         what it said besides
 * @param[out]     text           the bytes of the line, with no zero and no new line after them; the buffer stays as
 *                                it is where it is too short
 * @param[in]      text_bytes     bytes of the buffer; 256 are always enough
 * @return         how many bytes the line has
 */
uint64_t tozbirem_explain(uint32_t status, const struct tozbirem_answer *answer, void *text, size_t text_bytes);

/**
 * @brief          Runs the program `dspfx` over files in memory.
 * @param[in]      words          its words with single spaces between them, as `run s i o block 256`, `print s` or
 *                                `convert wave au i o`; names of files stand for the buffers below
 * @param[in]      words_length   bytes of the words
 * @param[in]      script         the file SCRIPT, or STATE of `resume go`
 * @param[in]      script_length  bytes of it
 * @param[in]      input          the file IN
 * @param[in]      input_bytes    bytes of it
 * @param[in]      other          the other file that a command reads, as the output to be checked of `check`
 * @param[in]      other_bytes    bytes of it
 * @param[out]     output         the file OUT
 * @param[in]      output_bytes   bytes of the buffer; a run that would write more ends with 8
 * @param[out]     report         what the program prints, which for `resume stop` is the state
 * @param[in]      report_bytes   bytes of the buffer; a run that would print more ends with 9
 * @param[out]     lengths        how many bytes of the two were written
 * @return         the exit status of the program, 0 to 14 (docs/USE.md)
 */
uint32_t tozbirem_program(const void *words, size_t words_length, const void *script, size_t script_length,
                          const void *input, size_t input_bytes, const void *other, size_t other_bytes,
                          void *output, size_t output_bytes, void *report, size_t report_bytes,
                          struct tozbirem_lengths *lengths);

/*
 * ---- A chain: the script of a signal, the number of its frames, and where its numbers are. These functions test
 * null pointers, and whether the chain is open. Lengths of input and output are in frames where they are counts, and
 * in bytes where they are rooms. A call that is refused changes nothing but chain->answer.
 */

/** @brief What is_open is in a chain that is open. */
#define TOZBIREM_IS_OPEN 0x546F7A62u

/**
 * @brief A signal that goes through a script. It owns nothing: nothing is freed, and its script and its numbers must
 * stay where they are. A chain whose bytes are all 0, and one that tozbirem_open() refused, is not open: the functions
 * below refuse it with TOZBIREM_EMPTY. Any field may be read; tozbirem_open() and tozbirem_resume() set them.
 */
struct tozbirem {
    const char *script;            /**< the text, which ends with a zero; NULL where tozbirem_open() was not called */
    size_t script_length;          /**< bytes of it, without the zero */
    uint64_t frames;               /**< frames of the input that came so far, at most 2^40 */
    int64_t *kept;                 /**< room for two states, one after the other */
    size_t kept_room;              /**< how many numbers fit in each */
    size_t kept_count;             /**< numbers of the present state; 0 before the first frame */
    int half;                      /**< which of the two is the present one, 0 or 1 */
    int has_ended;                 /**< 1 after tozbirem_end() returned TOZBIREM_OK, else 0 */
    uint32_t is_open;              /**< TOZBIREM_IS_OPEN where tozbirem_open() returned TOZBIREM_OK, else another */
    struct tozbirem_plan plan;     /**< what the script is, in its block length; all 0 where the chain is not open */
    struct tozbirem_answer answer; /**< what the last call said that came as far as the library */
};

/**
 * @brief          Begins a signal.
 * @param[out]     chain          the chain; what it was before does not matter
 * @param[in]      script         the text of a script, which ends with a zero, and stays where it is
 * @param[in]      block          most frames of a call, as for tozbirem_plan(); 0 for the script's own or its default
 * @param[in]      kept           room for numbers, which stays where it is
 * @param[in]      kept_numbers   how many fit there, twice as many as a state has: T-1 a channel for `fir`, 4 a section
 *                                and channel for `biquad`; tozbirem_plan() says it for any script and number of
 *                                frames. With too little room tozbirem_process() returns TOZBIREM_KEPT_ROOM
 * @return         TOZBIREM_OK; TOZBIREM_SCRIPT, TOZBIREM_BLOCK or TOZBIREM_MEMORY, as tozbirem_plan(); TOZBIREM_NULL
 *                 for a null pointer. After another status than TOZBIREM_OK the chain is not open
 */
static inline uint32_t tozbirem_open(struct tozbirem *chain, const char *script, uint64_t block, int64_t *kept,
                                     size_t kept_numbers)
{
    if (!chain) return TOZBIREM_NULL;
    memset(chain, 0, sizeof *chain);
    if (!script || !kept) return TOZBIREM_NULL;
    chain->script = script;
    chain->script_length = strlen(script);
    chain->kept = kept;
    chain->kept_room = kept_numbers / 2;
    uint32_t status = tozbirem_plan(script, chain->script_length, block, 0, &chain->plan, &chain->answer);
    if (status == TOZBIREM_OK) chain->is_open = TOZBIREM_IS_OPEN;
    return status;
}

/**
 * @brief          The numbers that the chain keeps now: chain->kept_count of them, after chain->frames frames.
 * @param[in]      chain          the chain
 * @return         where they are; NULL for a null pointer and for a chain that is not open. Copy them, with the two
 *                 counts, to save the state
 */
static inline int64_t *tozbirem_state(const struct tozbirem *chain)
{
    if (!chain || chain->is_open != TOZBIREM_IS_OPEN) return NULL;
    return chain->kept + (chain->half ? chain->kept_room : 0);
}

/**
 * @brief          Goes on from a state that was saved, in a chain of the same script, also one that has ended. The next
 *                 call judges the numbers: tozbirem_process() and tozbirem_end() return TOZBIREM_STATE where the script
 *                 keeps no such ones after so many frames.
 * @param[in,out]  chain          the chain
 * @param[in]      frames         how many frames came before
 * @param[in]      numbers        the numbers of the state; may be NULL if there are none
 * @param[in]      count          how many these are, at most chain->kept_room
 * @return         TOZBIREM_OK; TOZBIREM_KEPT_ROOM for more numbers than have room; TOZBIREM_NULL for a null pointer;
 *                 TOZBIREM_EMPTY where the chain is not open
 */
static inline uint32_t tozbirem_resume(struct tozbirem *chain, uint64_t frames, const int64_t *numbers, size_t count)
{
    if (!chain || (!numbers && count)) return TOZBIREM_NULL;
    if (chain->is_open != TOZBIREM_IS_OPEN) return TOZBIREM_EMPTY;
    memset(&chain->answer, 0, sizeof chain->answer);
    if (count > chain->kept_room) {
        chain->answer.first = count;
        return TOZBIREM_KEPT_ROOM;
    }
    if (count) memmove(tozbirem_state(chain), numbers, count * sizeof *numbers);
    chain->kept_count = count;
    chain->frames = frames;
    chain->has_ended = 0;
    return TOZBIREM_OK;
}

/**
 * @brief          Takes the next frames of the signal, and writes what they add to the output.
 * @param[in,out]  chain          the chain
 * @param[in]      input          the frames; may be NULL if there are none
 * @param[in]      frames         how many these are, at most chain->plan.block; 0 gives nothing
 * @param[out]     output         room for chain->plan.room bytes; it may not overlap the input, nor be NULL
 * @param[in]      output_bytes   bytes of it
 * @param[out]     given          how many frames were written there; as it was after another status than TOZBIREM_OK
 * @return         TOZBIREM_OK, or why nothing was done: TOZBIREM_NULL, TOZBIREM_EMPTY where the chain is not open,
 *                 TOZBIREM_ENDED after tozbirem_end(), TOZBIREM_LENGTH for more than a block of frames,
 *                 TOZBIREM_OVERLAP, and of tozbirem_feed() TOZBIREM_ROOM, TOZBIREM_KEPT_ROOM, TOZBIREM_STATE,
 *                 TOZBIREM_INPUT, TOZBIREM_GATHER or TOZBIREM_MEMORY
 */
static inline uint32_t tozbirem_process(struct tozbirem *chain, const void *input, size_t frames, void *output,
                                        size_t output_bytes, size_t *given)
{
    if (!chain || !output || !given || (!input && frames)) return TOZBIREM_NULL;
    if (chain->is_open != TOZBIREM_IS_OPEN) return TOZBIREM_EMPTY;
    if (chain->has_ended) return TOZBIREM_ENDED;
    if (frames > chain->plan.block) {
        memset(&chain->answer, 0, sizeof chain->answer);
        chain->answer.first = chain->plan.block;
        return TOZBIREM_LENGTH;
    }
    size_t bytes = frames * (size_t)chain->plan.frame_bytes;
    uintptr_t from = (uintptr_t)input, to = (uintptr_t)output;
    if (bytes && from < to + output_bytes && to < from + bytes) return TOZBIREM_OVERLAP;
    int64_t *next = chain->kept + (chain->half ? 0 : chain->kept_room);
    uint32_t status =
        tozbirem_feed(chain->script, chain->script_length, chain->plan.block, chain->frames, tozbirem_state(chain),
                      chain->kept_count, bytes ? input : chain->script, bytes, output, output_bytes, next,
                      chain->kept_room, &chain->answer);
    if (status != TOZBIREM_OK) return status;
    chain->half = !chain->half;
    chain->kept_count = (size_t)chain->answer.kept;
    chain->frames += frames;
    *given = (size_t)(chain->answer.given / chain->plan.given_bytes);
    return TOZBIREM_OK;
}

/**
 * @brief          Ends the signal: writes its tail and its measures. tozbirem_resume() can go on from the state.
 * @param[in,out]  chain          the chain
 * @param[out]     output         room for the tail, which only `conv`, `conv_partial` and `correlate` give; not NULL
 * @param[in]      output_bytes   bytes of it; with TOZBIREM_ROOM chain->answer.first says how many the tail has
 * @param[out]     given          how many frames were written there; as it was after another status than TOZBIREM_OK
 * @param[out]     measures       room for chain->plan.measures measures; may be NULL if room is 0
 * @param[in]      room           how many fit there; no more are written, and chain->answer.kept says how many were
 * @return         TOZBIREM_OK, or why nothing was done: TOZBIREM_NULL, TOZBIREM_EMPTY where the chain is not open,
 *                 TOZBIREM_ENDED where it has ended, and of tozbirem_finish() TOZBIREM_ROOM, TOZBIREM_WINDOW,
 *                 TOZBIREM_STATE or TOZBIREM_MEMORY
 */
static inline uint32_t tozbirem_end(struct tozbirem *chain, void *output, size_t output_bytes, size_t *given,
                                    struct tozbirem_measure *measures, size_t room)
{
    struct tozbirem_measure none;
    if (!chain || !output || !given || (!measures && room)) return TOZBIREM_NULL;
    if (chain->is_open != TOZBIREM_IS_OPEN) return TOZBIREM_EMPTY;
    if (chain->has_ended) return TOZBIREM_ENDED;
    uint32_t status = tozbirem_finish(chain->script, chain->script_length, chain->plan.block, chain->frames,
                                      tozbirem_state(chain), chain->kept_count, output, output_bytes,
                                      measures ? measures : &none, room, &chain->answer);
    if (status != TOZBIREM_OK) return status;
    chain->has_ended = 1;
    *given = (size_t)(chain->answer.given / chain->plan.given_bytes);
    return TOZBIREM_OK;
}

/**
 * @brief          What the last call on a chain said, in a line of text that ends with a zero.
 * @param[in]      chain          the chain, open or not
 * @param[in]      status         what the call returned
 * @param[out]     text           the line, or an empty text where the buffer is too short for it
 * @param[in]      size           bytes of the buffer; 256 are always enough
 * @return         text, or an empty text for a null pointer or a buffer of no bytes
 */
static inline const char *tozbirem_text(const struct tozbirem *chain, uint32_t status, char *text, size_t size)
{
    static const char closed[] = "the chain is not open";
    if (!chain || !text || !size) return "";
    uint64_t length = sizeof closed - 1;
    if (status != TOZBIREM_EMPTY) length = tozbirem_explain(status, &chain->answer, text, size - 1);
    else if (length < size) memcpy(text, closed, length);
    text[length < size ? length : 0] = 0;
    return text;
}

#ifdef __cplusplus
}
#endif

#endif
