/* Wear that grows in a straight line: guide rails beside a hose that bursts at one rate. Scheduled, counted, taken back, delivered; then
   scales that never fail, and what is refused. */
#include "olgaemuri.h"

#include <inttypes.h>
#include <stdio.h>

enum { ROOM = 1024, RAILS = 1, HOSE = 2 };

/* An engine with all that belongs to it. */
struct engine {
    struct olgaemuri_state state;
    uint8_t stream[4 * OLGAEMURI_THRESHOLD_BYTES];
    uint8_t journal[ROOM];
};

/* Gives the engine a command, and prints the answer. */
static void give(struct engine *e, const char *title, const uint8_t *command, size_t length)
{
    struct olgaemuri_answer answer =
        olgaemuri_state_execute(&e->state, e->stream, sizeof e->stream, e->journal, sizeof e->journal, command, length);
    printf("%s: number %u event %u withdrawn %u cause %" PRIu32 " delta %.17g ticks %" PRIu64 "\n", title, answer.number, answer.event,
           answer.withdrawn, answer.cause, answer.delta, answer.ticks_low);
}

static void set(struct engine *e, const char *title, uint32_t cause, struct olgaemuri_hazard hazard, double now)
{
    uint8_t command[OLGAEMURI_SET_BYTES];
    give(e, title, command, olgaemuri_put_set(command, 0, cause, 0, hazard, now));
}

static void reschedule(struct engine *e, const char *title, double now)
{
    uint8_t command[OLGAEMURI_RESCHEDULE_BYTES];
    give(e, title, command, olgaemuri_put_reschedule(command, 0, now, NULL, 0));
}

/* The causes as the engine holds them. */
static void print_causes(const struct engine *e)
{
    uint64_t causes = olgaemuri_state_clock(&e->state, 0).causes;
    for (size_t place = 0; place < causes; place++) {
        struct olgaemuri_cause cause = olgaemuri_state_cause(&e->state, 0, place);
        printf("  cause %" PRIu32 ": kind %u own %g pairs %" PRIu64 " used %g of %g\n", cause.cause, cause.kind, cause.rate, cause.pairs,
               cause.accumulated, cause.threshold);
    }
}

/* One press, ten ticks an hour; these thresholds will be drawn. */
static void begin(struct engine *e, double first, double second)
{
    uint8_t command[OLGAEMURI_CREATE_BYTES], *stream = e->stream;
    const double thresholds[] = {first, second, 4.0, 1.0};
    for (size_t i = 0; i < 4; i++)
        stream = olgaemuri_put_f64(stream, thresholds[i]);
    olgaemuri_state_open(&e->state, e->journal, sizeof e->journal);
    give(e, "create", command,
         olgaemuri_put_create(command, 0, 7, OLGAEMURI_RETAIN_RESIDUAL, OLGAEMURI_LOWEST_CAUSE, 10.0, NULL));
}

static void rails_and_hose(struct engine *e)
{
    uint8_t command[OLGAEMURI_PAUSE_BYTES];
    begin(e, 0.5, 1.5);
    set(e, "rails", RAILS, olgaemuri_weibull(400.0), 0.0);
    set(e, "hose", HOSE, olgaemuri_constant(0.0025), 0.0);
    reschedule(e, "scheduled", 0.0);
    give(e, "paused at half the scale", command, olgaemuri_put_pause(command, 0, 200.0));
    print_causes(e);
    give(e, "undone", command, olgaemuri_put_undo(command));
    print_causes(e);
    give(e, "delivered", command, olgaemuri_put_deliver(command));
    set(e, "new rails", RAILS, olgaemuri_weibull(400.0), 290.0);
    print_causes(e);
}

/* Scales at most 0 are kept and mean that nothing wears. */
static void never(struct engine *e)
{
    begin(e, 1.0, 1.0);
    set(e, "minus zero", RAILS, olgaemuri_weibull(-0.0), 0.0);
    set(e, "below zero", HOSE, olgaemuri_weibull(-400.0), 0.0);
    reschedule(e, "none due", 0.0);
    print_causes(e);
}

static void refused(struct engine *e)
{
    const double least = 1.0 / 1099511627776.0;
    struct olgaemuri_hazard hazard = olgaemuri_weibull(400.0);
    begin(e, 1.0, 1.0);
    set(e, "2^-40", RAILS, olgaemuri_weibull(least), 0.0);
    set(e, "just below it", HOSE, olgaemuri_weibull(least * (1.0 - 1.0 / 9007199254740992.0)), 0.0);
    set(e, "above 2^40", HOSE, olgaemuri_weibull(2.0 / least), 0.0);
    hazard.count = 1;
    set(e, "a count", HOSE, hazard, 0.0);
    hazard.count = 0;
    hazard.rate[7] = -0.0;
    set(e, "a bit of a pair", HOSE, hazard, 0.0);
    hazard = olgaemuri_weibull(400.0);
    hazard.kind = 5;
    set(e, "no kind", HOSE, hazard, 0.0);
    print_causes(e);
}

int main(void)
{
    static struct engine e;
    rails_and_hose(&e);
    never(&e);
    refused(&e);
    return 0;
}
