/* How many bytes of stack one run needs, an open engine for the same commands one by one, and a thread that asks for one rate: each goes
 * on a thread whose stack was filled with one value, and the deepest byte that changed tells. */
#define _POSIX_C_SOURCE 200112L
#include "olgaemuri.h"

#include <pthread.h>
#include <stdio.h>
#include <stdlib.h>

enum { STACK_BYTES = 1 << 20, UNTOUCHED = 0x5a, ROOM = 1024, MANY = 16 };

/* A list of commands, and the buffers of its run; none of them on the stack that is measured. */
static uint8_t list[ROOM], stream[3 * OLGAEMURI_THRESHOLD_BYTES], journal[ROOM], answers[MANY * OLGAEMURI_ANSWER_BYTES];
static uint8_t result[OLGAEMURI_RESULT_BYTES];
static struct olgaemuri_state state;
static size_t length;

/* Every command once, with the three kinds of hazard that are evaluated differently; then UNDO again, which runs the others anew. */
static void write_list(void)
{
    const double end[] = {1, 2, 3, 4, 5, 6, 7, 8}, rate[] = {0.1, 0, 0.1, 0, 0.1, 0, 0.1, 0}, censor = 100.0;
    olgaemuri_put_f64(olgaemuri_put_f64(olgaemuri_put_f64(stream, 2.0), 1.0), 3.0);
    length += olgaemuri_put_create(list + length, 0, 7, OLGAEMURI_RETAIN_RESIDUAL, OLGAEMURI_LOWEST_CAUSE, 10.0, NULL);
    length += olgaemuri_put_set(list + length, 0, 1, 0, olgaemuri_constant(0.5), 0.0);
    length += olgaemuri_put_set(list + length, 0, 2, 0, olgaemuri_piecewise(end, rate, 8, 0.1), 0.0);
    length += olgaemuri_put_set(list + length, 0, 3, 0, olgaemuri_weibull(7.0), 0.0);
    length += olgaemuri_put_reschedule(list + length, 0, 0.0, &censor, 0);
    length += olgaemuri_put_pause(list + length, 0, 1.0);
    length += olgaemuri_put_resume(list + length, 0, 3.0, &censor, 0);
    length += olgaemuri_put_deliver(list + length);
    length += olgaemuri_put_remove(list + length, 0, 1);
    length += olgaemuri_put_undo(list + length);
    length += olgaemuri_put_undo(list + length);
}

static void *nothing(void *unused)
{
    return unused;
}

static void *whole_run(void *number)
{
    *(uint8_t *)number = olgaemuri_run(list, length, stream, sizeof stream, journal, sizeof journal, answers, sizeof answers, result,
                                       sizeof result);
    return NULL;
}

static void *one_by_one(void *number)
{
    uint8_t *answer = answers;
    *(uint8_t *)number = olgaemuri_open(state.words, OLGAEMURI_STATE_WORD_ROWS, state.floats, OLGAEMURI_STATE_FLOAT_ROWS, journal,
                                        sizeof journal);
    for (size_t at = 0; at < length; at += olgaemuri_width(list[at])) {
        *(uint8_t *)number |= olgaemuri_execute(state.words, OLGAEMURI_STATE_WORD_ROWS, state.floats, OLGAEMURI_STATE_FLOAT_ROWS, stream,
                                                sizeof stream, journal, sizeof journal, list + at, length - at, answer,
                                                OLGAEMURI_ANSWER_BYTES);
        answer += OLGAEMURI_ANSWER_BYTES;
    }
    return NULL;
}

static void *one_rate(void *number)
{
    double rate;
    *(uint8_t *)number = olgaemuri_rate_for_wait(1.0, 5.0, &rate);
    return NULL;
}

/* How many bytes of a fresh stack a thread writes, to the deepest one. */
static size_t touched(void *(*body)(void *), void *argument)
{
    void *stack = NULL;
    pthread_attr_t attributes;
    pthread_t thread;
    if (posix_memalign(&stack, 4096, STACK_BYTES) != 0)
        abort();
    memset(stack, UNTOUCHED, STACK_BYTES);
    if (pthread_attr_init(&attributes) != 0 || pthread_attr_setstack(&attributes, stack, STACK_BYTES) != 0
        || pthread_create(&thread, &attributes, body, argument) != 0 || pthread_join(thread, NULL) != 0)
        abort();
    size_t untouched = 0;
    while (untouched < STACK_BYTES && ((uint8_t *)stack)[untouched] == UNTOUCHED)
        untouched++;
    pthread_attr_destroy(&attributes);
    free(stack);
    return STACK_BYTES - untouched;
}

/* Prints what the run and the open engine need beyond a thread that does nothing, then what a thread with one rate needs in all. Fails
 * where the run ended early, a command was refused or there was no rate. */
int main(void)
{
    uint8_t number = 255, answered = 255, found = 255;
    write_list();
    size_t idle = touched(nothing, NULL);
    size_t used = touched(whole_run, &number);
    for (size_t i = 0; i < olgaemuri_get_number(result, 8); i++)
        if (answers[OLGAEMURI_ANSWER_BYTES * i] != OLGAEMURI_ACCEPTED)
            return 2;
    printf("%zu\n%zu\n", used - idle, touched(one_by_one, &answered) - idle);
    printf("%zu\n", touched(one_rate, &found));
    return number != 0 || answered != 0 || found != 0;
}
