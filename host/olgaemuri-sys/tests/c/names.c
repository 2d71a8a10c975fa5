/* A program that has functions of its own under names that stand in the engine's sources: both are called, each by its own side. */
#include "olgaemuri.h"

#include <stdio.h>

static unsigned calls;

unsigned run(void)
{
    return ++calls;
}

unsigned execute(void)
{
    return ++calls;
}

unsigned undo(void)
{
    return ++calls;
}

unsigned clear(void)
{
    return ++calls;
}

unsigned rate_for_wait(void)
{
    return ++calls;
}

unsigned open_state(void)
{
    return ++calls;
}

int main(void)
{
    double rate;
    const uint8_t list[] = {OLGAEMURI_DELIVER, OLGAEMURI_UNDO};
    uint8_t stream[OLGAEMURI_THRESHOLD_BYTES] = {0}, journal[8], answers[2 * OLGAEMURI_ANSWER_BYTES], result[OLGAEMURI_RESULT_BYTES];
    uint8_t number = olgaemuri_run(list, sizeof list, stream, sizeof stream, journal, sizeof journal, answers, sizeof answers, result,
                                   sizeof result);
    uint8_t found = olgaemuri_rate_for_wait(2.0, 4.0, &rate);
    printf("the engine: returned %u, answered %u and %u; returned %u, rate %g; ", number, answers[0], answers[OLGAEMURI_ANSWER_BYTES],
           found, rate);
    static struct olgaemuri_state state;
    number = olgaemuri_open(state.words, OLGAEMURI_STATE_WORD_ROWS, state.floats, OLGAEMURI_STATE_FLOAT_ROWS, journal, sizeof journal);
    printf("opened %u, answered %u; calls of the program's own: %u\n", number,
           olgaemuri_state_execute(&state, stream, sizeof stream, journal, sizeof journal, list, 1).number, calls);
    printf("the program's own: %u\n", run() + execute() + undo() + clear() + rate_for_wait() + open_state());
    return 0;
}
