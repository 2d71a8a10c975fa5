/* The worked session through the C header: scheduled, paused and resumed, taken back, delivered; two events at one tick; then refusals and
   short buffers. */
#include "olgaemuri.h"

#include <inttypes.h>
#include <stdio.h>

enum { ROOM = 4096, MANY = 64 };

/* A list of commands, and the buffers of its run. */
struct session {
    uint8_t list[ROOM];
    size_t length;
    uint8_t stream[2 * OLGAEMURI_THRESHOLD_BYTES];
    uint8_t journal[ROOM];
    uint8_t answers[MANY * OLGAEMURI_ANSWER_BYTES];
};

static void print_answer(const uint8_t *bytes)
{
    struct olgaemuri_answer answer = olgaemuri_get_answer(bytes);
    printf("number %u event %u censored %u withdrawn %u cause %" PRIu32 " delta %g ticks %" PRIu64 " %" PRIu64 " piece %u\n",
           answer.number, answer.event, answer.censored, answer.withdrawn, answer.cause, answer.delta, answer.ticks_low, answer.ticks_high,
           answer.piece);
}

/* Runs the list and prints the number returned, the result, the answers and how long the applied commands are. */
static void run_and_print(struct session *s, const char *title)
{
    struct olgaemuri_result result;
    memset(s->answers, 0xa5, sizeof s->answers);
    uint8_t number = olgaemuri_run_session(s->list, s->length, s->stream, sizeof s->stream, s->journal, sizeof s->journal, s->answers,
                                           sizeof s->answers, &result);
    printf("%s: returned %u, answered %" PRIu64 ", read %" PRIu64 " of %zu\n", title, number, result.answered, result.bytes_read,
           s->length);
    for (uint64_t i = 0; i < result.answered; i++)
        print_answer(s->answers + OLGAEMURI_ANSWER_BYTES * i);
    printf("applied: %zu bytes\n", olgaemuri_applied_length(s->journal, sizeof s->journal));
}

/* One press: 2.0 is used up at 0.5 an hour, ten ticks an hour. */
static void begin(struct session *s)
{
    static const struct olgaemuri_entity press = {3, 1};
    s->length = 0;
    olgaemuri_put_f64(olgaemuri_put_f64(s->stream, 2.0), 1.0);
    s->length += olgaemuri_put_create(s->list, 0, 7, OLGAEMURI_RETAIN_RESIDUAL, OLGAEMURI_LOWEST_CAUSE, 10.0, &press);
    s->length += olgaemuri_put_set(s->list + s->length, 0, 1, 0, olgaemuri_constant(0.5), 0.0);
    s->length += olgaemuri_put_reschedule(s->list + s->length, 0, 0.0, NULL, 0);
}

static void undone_and_delivered(struct session *s)
{
    const double end[] = {2.0, 5.0}, rate[] = {1.0, 0.0}, censor = 4.5;
    begin(s);
    s->length += olgaemuri_put_pause(s->list + s->length, 0, 1.0);
    s->length += olgaemuri_put_resume(s->list + s->length, 0, 3.0, NULL, -1);
    run_and_print(s, "paused");
    s->length += olgaemuri_put_undo(s->list + s->length);
    s->length += olgaemuri_put_undo(s->list + s->length);
    s->length += olgaemuri_put_deliver(s->list + s->length);
    run_and_print(s, "undone");
    s->length += olgaemuri_put_remove(s->list + s->length, 0, 1);
    s->length += olgaemuri_put_set(s->list + s->length, 0, 2, 0, olgaemuri_piecewise(end, rate, 2, 0.5), 4.0);
    s->length += olgaemuri_put_reschedule(s->list + s->length, 0, 4.0, &censor, 0);
    run_and_print(s, "censored");
}

/* A second press, whose event is due at the same tick and has the higher priority. */
static void urgent_first(struct session *s)
{
    begin(s);
    s->length += olgaemuri_put_create(s->list + s->length, 1, 8, OLGAEMURI_RETAIN_RESIDUAL, OLGAEMURI_LOWEST_CAUSE, 10.0, NULL);
    s->length += olgaemuri_put_set(s->list + s->length, 1, 2, 0, olgaemuri_constant(0.25), 0.0);
    s->length += olgaemuri_put_reschedule(s->list + s->length, 1, 0.0, NULL, 1);
    s->length += olgaemuri_put_deliver(s->list + s->length);
    s->length += olgaemuri_put_deliver(s->list + s->length);
    run_and_print(s, "urgent first");
}

static void refusals(struct session *s)
{
    begin(s);
    s->length += olgaemuri_put_create(s->list + s->length, 0, 7, OLGAEMURI_RESTART, OLGAEMURI_EXPLICIT_PRIORITY, 1.0, NULL);
    s->length += olgaemuri_put_set(s->list + s->length, 0, OLGAEMURI_NO_CAUSE, 0, olgaemuri_gompertz(0.5), 0.0);
    s->length += olgaemuri_put_set(s->list + s->length, 16, 1, 0, olgaemuri_zero(), 0.0);
    s->length += olgaemuri_put_pause(s->list + s->length, 1, -1.0);
    s->length += olgaemuri_put_pause(s->list + s->length, 1, 1.0);
    s->list[s->length++] = 9;
    run_and_print(s, "refused");
}

/* 17 and 18, an empty list in no buffers at all, and bytes that no run has written. */
static void short_buffers(struct session *s)
{
    struct olgaemuri_result result;
    const size_t three = 3 * OLGAEMURI_ANSWER_BYTES;
    begin(s);
    uint8_t number = olgaemuri_run_session(s->list, s->length, s->stream, 16, s->journal, ROOM, s->answers, three - 1, &result);
    printf("%zu answer bytes: returned %u, answered %" PRIu64 "\n", three - 1, number, result.answered);
    number = olgaemuri_run_session(s->list, s->length, s->stream, 15, s->journal, ROOM, s->answers, three, &result);
    printf("15 stream bytes: returned %u, answered %" PRIu64 "\n", number, result.answered);
    number = olgaemuri_run_session(NULL, 0, NULL, 0, NULL, 0, NULL, 0, &result);
    printf("no bytes: returned %u, answered %" PRIu64 "\n", number, result.answered);
    static const uint8_t no_journal[] = {OLGAEMURI_DELIVER, 9, OLGAEMURI_DELIVER};
    printf("no journal of a run: %zu bytes\n", olgaemuri_applied_length(no_journal, sizeof no_journal));
}

int main(void)
{
    static struct session s;
    undone_and_delivered(&s);
    urgent_first(&s);
    refusals(&s);
    short_buffers(&s);
    return 0;
}
