/* The rate for a wait through the C header: worked numbers, what is outside the limits, and a session with one of the rates. */
#include "olgaemuri.h"

#include <math.h>
#include <stdio.h>

/* The rate holds 7 before each call, so that one that is not written shows. */
static void print_rate(double threshold, double wait)
{
    double rate = 7.0;
    uint8_t number = olgaemuri_rate_for_wait(threshold, wait, &rate);
    printf("threshold %.17g wait %.17g: number %u rate %.17g\n", threshold, wait, number, rate);
}

static void worked(double longest)
{
    print_rate(2.0, 4.0);
    print_rate(1.0, 5.0);
    print_rate(1.0, 49.0);
    print_rate(1e-323, 2.0);
    print_rate(5e-324, 2.0);
    print_rate(1024.0, 1.0 / longest);
    print_rate(1.0, 1.0 / longest);
    print_rate(1024.0, longest);
}

/* What is outside the limits of both; then just above the largest threshold, just below the shortest wait, just above the longest. */
static void outside(double longest)
{
    const double none[] = {0.0, -0.0, -1.0, INFINITY, -INFINITY, NAN};
    for (size_t i = 0; i < sizeof none / sizeof none[0]; i++) {
        print_rate(none[i], 4.0);
        print_rate(2.0, none[i]);
    }
    print_rate(1024.0000000000002, 4.0);
    print_rate(2.0, 9.094947017729281e-13);
    print_rate(2.0, longest + 0.000244140625);
}

/* A press whose cause draws the threshold and has the rate: how long it waits. */
static void print_wait(double threshold, double rate)
{
    uint8_t list[512], stream[OLGAEMURI_THRESHOLD_BYTES], journal[512], answers[3 * OLGAEMURI_ANSWER_BYTES];
    struct olgaemuri_result result;
    size_t length = 0;
    olgaemuri_put_f64(stream, threshold);
    length += olgaemuri_put_create(list, 0, 7, OLGAEMURI_RETAIN_RESIDUAL, OLGAEMURI_LOWEST_CAUSE, 10.0, NULL);
    length += olgaemuri_put_set(list + length, 0, 1, 0, olgaemuri_constant(rate), 0.0);
    length += olgaemuri_put_reschedule(list + length, 0, 0.0, NULL, 0);
    olgaemuri_run_session(list, length, stream, sizeof stream, journal, sizeof journal, answers, sizeof answers, &result);
    printf("event after %.17g\n", olgaemuri_get_answer(answers + 2 * OLGAEMURI_ANSWER_BYTES).delta);
}

int main(void)
{
    const double longest = 1099511627776.0;
    double rate;
    worked(longest);
    outside(longest);
    if (olgaemuri_rate_for_wait(1.0, 5.0, &rate) == OLGAEMURI_ACCEPTED)
        print_wait(1.0, rate);
    if (olgaemuri_rate_for_wait(1.0, 49.0, &rate) == OLGAEMURI_NO_RATE)
        printf("no rate\n");
    if (olgaemuri_rate_for_wait(0.0, 49.0, &rate) == OLGAEMURI_OUTSIDE_LIMITS)
        printf("outside the limits\n");
    return 0;
}
