/* From red to cyan in two tenths of a second: document 01's three lines, by the functions for C. */
#include "yemkruos.h"

#include <inttypes.h>
#include <stdio.h>
#include <stdlib.h>
#include <string.h>

static uint64_t lamp[YEMKRUOS_LAMP_WORDS];
static uint64_t answer[YEMKRUOS_ANSWER_WORDS];

static void refused(uint64_t number)
{
    printf("refused %" PRIu64 "\n", number);
    exit(1);
}

static void send(const uint64_t call[YEMKRUOS_CALL_WORDS])
{
    uint64_t number = yemkruos_call(lamp, YEMKRUOS_LAMP_WORDS, call, YEMKRUOS_CALL_WORDS, answer,
                                    YEMKRUOS_ANSWER_WORDS);
    if (number != 0)
        refused(number);
}

/* Clock, hue, remaining tenths and wait, then the notices. */
static void print_line(void)
{
    printf("%" PRIu64 " %" PRIu64 " %" PRIu64 " %" PRIu64 ":", lamp[YEMKRUOS_LAMP_CLOCK],
           lamp[YEMKRUOS_LAMP_HUE], lamp[YEMKRUOS_LAMP_REMAINING], answer[YEMKRUOS_ANSWER_WAIT]);
    for (int i = 0; i < 16 && answer[YEMKRUOS_ANSWER_NOTICES + i] != 0; i++)
        printf(" %" PRIu64, answer[YEMKRUOS_ANSWER_NOTICES + i]);
    printf("\n");
}

int main(void)
{
    uint64_t clock = 5000;

    /* bounds 153 and 500, all features, options 0 */
    uint64_t number = yemkruos_new(lamp, YEMKRUOS_LAMP_WORDS, 153, 500, 31, 0, clock);
    if (number != 0)
        refused(number);

    /* the lamp is on; mask and override 0; hue 128, shortest, 2 tenths */
    uint64_t command[YEMKRUOS_CALL_WORDS] = {YEMKRUOS_MOVE_TO_HUE, clock, 1, 0, 0, 128, 0, 2};
    send(command);

    /* the task that the command gave is started */
    uint64_t start[YEMKRUOS_CALL_WORDS] = {YEMKRUOS_START, clock};
    memcpy(start + YEMKRUOS_CALL_TASK, answer + YEMKRUOS_ANSWER_TASK, 7 * sizeof *start);
    send(start);
    print_line();

    /* and stepped at each wait until the lamp is idle */
    while (lamp[YEMKRUOS_LAMP_RUNNING] != 0) {
        clock += answer[YEMKRUOS_ANSWER_WAIT];
        uint64_t step[YEMKRUOS_CALL_WORDS] = {YEMKRUOS_STEP, clock};
        send(step);
        print_line();
    }
    return 0;
}
