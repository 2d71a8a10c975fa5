/* An engine that stays open: edits one by one, taken back, and what it holds in between; then a copy that goes its own way, and what is
   refused. */
#include "olgaemuri.h"

#include <inttypes.h>
#include <stdio.h>

enum { ROOM = 1024 };

/* An engine with all that belongs to it. */
struct engine {
    struct olgaemuri_state state;
    uint8_t stream[4 * OLGAEMURI_THRESHOLD_BYTES];
    uint8_t journal[ROOM];
};

static void print_clock(const struct engine *e, size_t number)
{
    struct olgaemuri_clock clock = olgaemuri_state_clock(&e->state, number);
    if (!clock.found)
        return;
    printf("  clock %zu: process %" PRIu64 " policy %u tie %u scale %g active %u updated %g", number, clock.process, clock.policy,
           clock.tie, clock.scale, clock.is_active, clock.last_update);
    if (clock.has_entity)
        printf(" entity %" PRIu64 ":%" PRIu32, clock.entity_index, clock.generation);
    if (clock.has_winner)
        printf(" winner %" PRIu32 " at %g in piece %u", clock.winner_cause, clock.winner_time, clock.winner_piece);
    if (clock.has_event)
        printf(" request %" PRIu64, clock.event_index);
    printf("\n");
    for (size_t place = 0; place < clock.causes; place++) {
        struct olgaemuri_cause cause = olgaemuri_state_cause(&e->state, number, place);
        printf("    cause %" PRIu32 ": priority %" PRIu32 " kind %u rate %g used %g of %g since %g", cause.cause, cause.priority,
               cause.kind, cause.rate, cause.accumulated, cause.threshold, cause.interval_start);
        for (size_t pair = 0; pair < cause.pairs; pair++)
            printf(" %g:%g", cause.ends[pair], cause.rates[pair]);
        printf("\n");
    }
}

/* What the engine holds. */
static void print_state(const struct engine *e)
{
    struct olgaemuri_counts counts = olgaemuri_state_counts(&e->state);
    printf("  queued %" PRIu64 " made %" PRIu64 " drawn %" PRIu64 " applied %" PRIu64 " of %d\n", counts.queued, counts.requests_made,
           counts.draw_position, olgaemuri_state_applied(&e->state, ROOM), ROOM);
    for (size_t place = 0; place < counts.queued; place++) {
        struct olgaemuri_request request = olgaemuri_state_request(&e->state, place);
        printf("  request %" PRIu64 ": clock %" PRIu64 " priority %" PRId32 " ticks %" PRIu64 " %" PRIu64 "\n", request.index,
               request.clock, request.priority, request.ticks_low, request.ticks_high);
    }
    for (size_t number = 0; number < OLGAEMURI_CLOCKS; number++)
        print_clock(e, number);
}

/* Gives the engine a command, and prints the answer. */
static void give(struct engine *e, const char *title, const uint8_t *command, size_t length)
{
    struct olgaemuri_answer answer =
        olgaemuri_state_execute(&e->state, e->stream, sizeof e->stream, e->journal, sizeof e->journal, command, length);
    printf("%s: number %u event %u censored %u withdrawn %u cause %" PRIu32 " delta %g ticks %" PRIu64 " piece %u\n", title,
           answer.number, answer.event, answer.censored, answer.withdrawn, answer.cause, answer.delta, answer.ticks_low, answer.piece);
}

/* Two presses; the second has two causes, one of them with pairs. */
static void begin(struct engine *e)
{
    static const double end[] = {2.0, 5.0}, rate[] = {1.0, 0.0}, thresholds[] = {2.0, 1.0, 4.0, 0.5};
    static const struct olgaemuri_entity press = {3, 1};
    uint8_t command[OLGAEMURI_SET_BYTES];
    for (size_t i = 0; i < 4; i++)
        olgaemuri_put_f64(e->stream + OLGAEMURI_THRESHOLD_BYTES * i, thresholds[i]);
    olgaemuri_state_open(&e->state, e->journal, sizeof e->journal);
    give(e, "create", command,
         olgaemuri_put_create(command, 0, 7, OLGAEMURI_RETAIN_RESIDUAL, OLGAEMURI_LOWEST_CAUSE, 10.0, NULL));
    give(e, "set", command, olgaemuri_put_set(command, 0, 1, 0, olgaemuri_constant(0.5), 0.0));
    give(e, "reschedule", command, olgaemuri_put_reschedule(command, 0, 0.0, NULL, 0));
    give(e, "create", command,
         olgaemuri_put_create(command, 15, 8, OLGAEMURI_RESTART, OLGAEMURI_EXPLICIT_PRIORITY, 10.0, &press));
    give(e, "set", command, olgaemuri_put_set(command, 15, 9, 6, olgaemuri_piecewise(end, rate, 2, 0.25), 1.0));
    give(e, "set", command, olgaemuri_put_set(command, 15, 2, 5, olgaemuri_gompertz(0.125), 1.0));
    give(e, "reschedule", command, olgaemuri_put_reschedule(command, 15, 1.0, NULL, -3));
    print_state(e);
}

/* Stopped from hour 1 to hour 3, and both edits taken back. */
static void edited_and_undone(struct engine *e)
{
    uint8_t command[OLGAEMURI_SET_BYTES];
    give(e, "pause", command, olgaemuri_put_pause(command, 0, 1.0));
    give(e, "resume", command, olgaemuri_put_resume(command, 0, 3.0, NULL, 0));
    print_state(e);
    give(e, "undo", command, olgaemuri_put_undo(command));
    give(e, "undo", command, olgaemuri_put_undo(command));
    print_state(e);
}

/* A copy goes its own way; the engine that it was made of stays as it is. */
static void copied(const struct engine *e)
{
    static struct engine copy;
    uint8_t command[OLGAEMURI_SET_BYTES];
    copy = *e;
    give(&copy, "deliver", command, olgaemuri_put_deliver(command));
    give(&copy, "remove", command, olgaemuri_put_remove(command, 15, 9));
    print_state(&copy);
    printf("the first one:\n");
    print_state(e);
}

/* Commands that are refused, bytes that are none, and rows that are no state. */
static void refused(struct engine *e)
{
    uint8_t command[OLGAEMURI_SET_BYTES], answer[OLGAEMURI_ANSWER_BYTES] = {0xa5};
    give(e, "absent", command, olgaemuri_put_pause(command, 1, 1.0));
    give(e, "unknown", (const uint8_t *)"\011", 1);
    give(e, "cut short", command, olgaemuri_put_pause(command, 0, 1.0) - 1);
    give(e, "no byte", NULL, 0);
    olgaemuri_put_deliver(command);
    printf("short answer: returned %u, wrote %u\n",
           olgaemuri_execute(e->state.words, OLGAEMURI_STATE_WORD_ROWS, e->state.floats, OLGAEMURI_STATE_FLOAT_ROWS, e->stream,
                             sizeof e->stream, e->journal, sizeof e->journal, command, 1, answer,
                             OLGAEMURI_ANSWER_BYTES - 1),
           answer[0] != 0xa5);
    printf("a row less: returned %u\n", olgaemuri_open(e->state.words, OLGAEMURI_STATE_WORD_ROWS - 1, e->state.floats,
                                                       OLGAEMURI_STATE_FLOAT_ROWS, e->journal, sizeof e->journal));
    e->state.words[0][0] = 2;
    give(e, "a flag of 2", command, 1);
}

int main(void)
{
    static struct engine e;
    begin(&e);
    edited_and_undone(&e);
    copied(&e);
    refused(&e);
    return 0;
}
