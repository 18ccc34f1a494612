/* A Matter colour lamp, proved: its functions for C. docs/WORDS.md says what each word means.
 *
 * Link with target/staticlib/libexports.a, which `scripts/built exports_c` writes (x86-64 Linux).
 */
#ifndef YEMKRUOS_H
#define YEMKRUOS_H

#include <stddef.h>
#include <stdint.h>

#ifdef __cplusplus
extern "C" {
#endif

/* How many words a lamp, a call and an answer have. */
enum {
    YEMKRUOS_LAMP_WORDS = 28,
    YEMKRUOS_CALL_WORDS = 10,
    YEMKRUOS_ANSWER_WORDS = 25
};

/* The kinds of calls: a command's number in the cluster, and the last four. */
enum {
    YEMKRUOS_MOVE_TO_HUE = 0,
    YEMKRUOS_MOVE_HUE = 1,
    YEMKRUOS_STEP_HUE = 2,
    YEMKRUOS_MOVE_TO_SATURATION = 3,
    YEMKRUOS_MOVE_SATURATION = 4,
    YEMKRUOS_STEP_SATURATION = 5,
    YEMKRUOS_MOVE_TO_HUE_AND_SATURATION = 6,
    YEMKRUOS_MOVE_TO_COLOR_TEMPERATURE = 10,
    YEMKRUOS_ENHANCED_MOVE_TO_HUE = 64,
    YEMKRUOS_ENHANCED_MOVE_HUE = 65,
    YEMKRUOS_ENHANCED_STEP_HUE = 66,
    YEMKRUOS_COLOR_LOOP_SET = 68,
    YEMKRUOS_STOP_MOVE_STEP = 71,
    YEMKRUOS_MOVE_COLOR_TEMPERATURE = 75,
    YEMKRUOS_STEP_COLOR_TEMPERATURE = 76,
    YEMKRUOS_START = 256,
    YEMKRUOS_STEP = 257,
    YEMKRUOS_HALT = 258,
    YEMKRUOS_SET_BOUNDS = 259
};

/* Places of words. */
enum {
    /* in a call */
    YEMKRUOS_CALL_KIND = 0,
    YEMKRUOS_CALL_CLOCK = 1,
    YEMKRUOS_CALL_ON_OFF = 2,
    YEMKRUOS_CALL_MASK = 3,
    YEMKRUOS_CALL_OVERRIDE = 4,
    YEMKRUOS_CALL_ARGUMENTS = 5, /* five of them */
    YEMKRUOS_CALL_TASK = 3,      /* of a start: seven words */
    YEMKRUOS_CALL_MINIMUM = 3,   /* of new bounds */
    YEMKRUOS_CALL_MAXIMUM = 4,
    /* in a lamp */
    YEMKRUOS_LAMP_CLOCK = 2,
    YEMKRUOS_LAMP_REMAINING = 4,
    YEMKRUOS_LAMP_HUE = 8, /* the stored one; CurrentHue is it divided by 256, at most 254 */
    YEMKRUOS_LAMP_SATURATION = 9,
    YEMKRUOS_LAMP_MIREDS = 10,
    YEMKRUOS_LAMP_RUNNING = 21, /* 0: idle */
    /* in an answer */
    YEMKRUOS_ANSWER_NUMBER = 0,
    YEMKRUOS_ANSWER_NOTICES = 1, /* sixteen places */
    YEMKRUOS_ANSWER_TASK = 17,   /* seven words; the first is 0 where no task is given */
    YEMKRUOS_ANSWER_WAIT = 24
};

/* Makes a fresh lamp in its 28 words. 0, or why not: 4, 5 or 101; then nothing changes. */
uint64_t yemkruos_new(uint64_t *lamp, size_t lamp_words, uint16_t min, uint16_t max,
                      uint32_t features, uint8_t options, uint64_t clock);

/* Sends a call of 10 words to the lamp, which is left as the call leaves it, and writes the answer's
 * 25 words. 0, or why not: 1, 2, 4 to 8 or 18, with the lamp as it was; or 100, 101 or 102: then nothing
 * changes, nor is an answer written. Lamp, call and answer do not overlap. */
uint64_t yemkruos_call(uint64_t *lamp, size_t lamp_words, const uint64_t *call, size_t call_words,
                       uint64_t *answer, size_t answer_words);

#ifdef __cplusplus
}
#endif

#endif
