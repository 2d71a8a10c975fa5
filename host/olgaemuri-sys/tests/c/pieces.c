/* In which piece of a rate curve an event falls: each pair, the rate after the last, and where it is always 0. Then what stays with a
   clock's winner until the event is delivered. */
#include "olgaemuri.h"

#include <inttypes.h>
#include <stdio.h>

enum { ROOM = 1024, PUNCH = 1, CLUTCH = 2 };

/* An engine with all that belongs to it. */
struct engine {
    struct olgaemuri_state state;
    uint8_t stream[2 * OLGAEMURI_THRESHOLD_BYTES];
    uint8_t journal[ROOM];
};

static struct olgaemuri_answer give(struct engine *e, const uint8_t *command, size_t length)
{
    return olgaemuri_state_execute(&e->state, e->stream, sizeof e->stream, e->journal, sizeof e->journal, command, length);
}

static void print(const struct engine *e, const char *title, struct olgaemuri_answer answer)
{
    struct olgaemuri_clock clock = olgaemuri_state_clock(&e->state, 0);
    printf("%s: number %u event %u cause %" PRIu32 " delta %.17g piece %u; winner %u piece %u\n", title, answer.number, answer.event,
           answer.cause, answer.delta, answer.piece, clock.has_winner, clock.winner_piece);
}

/* One clock with one cause, which draws this threshold. */
static void begin(struct engine *e, struct olgaemuri_hazard hazard, double threshold)
{
    uint8_t command[OLGAEMURI_SET_BYTES];
    olgaemuri_put_f64(olgaemuri_put_f64(e->stream, threshold), 1.0);
    olgaemuri_state_open(&e->state, e->journal, sizeof e->journal);
    give(e, command, olgaemuri_put_create(command, 0, 7, OLGAEMURI_RETAIN_RESIDUAL, OLGAEMURI_LOWEST_CAUSE, 10.0, NULL));
    give(e, command, olgaemuri_put_set(command, 0, PUNCH, 0, hazard, 0.0));
}

static struct olgaemuri_answer reschedule(struct engine *e, const double *censor)
{
    uint8_t command[OLGAEMURI_RESCHEDULE_BYTES];
    return give(e, command, olgaemuri_put_reschedule(command, 0, 0.0, censor, 0));
}

static void one(struct engine *e, const char *title, struct olgaemuri_hazard hazard, double threshold)
{
    begin(e, hazard, threshold);
    print(e, title, reschedule(e, NULL));
}

/* Document 01's P: rate 1 up to 2, none up to 5, 0.5 from there on. */
static struct olgaemuri_hazard curve(void)
{
    static const double end[] = {2.0, 5.0}, rate[] = {1.0, 0.0};
    return olgaemuri_piecewise(end, rate, 2, 0.5);
}

static void pieces(struct engine *e)
{
    one(e, "in the first pair", curve(), 1.0);
    one(e, "fills it", curve(), 2.0);
    one(e, "just more", curve(), 2.0000000000000004);
    one(e, "after the last", curve(), 2.5);
    one(e, "nothing left to use up", curve(), 0.0);
    one(e, "no pair", olgaemuri_piecewise(NULL, NULL, 0, 0.5), 2.0);
    one(e, "constant", olgaemuri_constant(0.5), 2.0);
    one(e, "gompertz", olgaemuri_gompertz(0.5), 2.0);
    one(e, "weibull", olgaemuri_weibull(4.0), 2.0);
    one(e, "never", olgaemuri_zero(), 2.0);
}

/* Eight pairs of one unit each, and the rate after them. */
static void eight(struct engine *e)
{
    static const double end[] = {1, 2, 3, 4, 5, 6, 7, 8}, rate[] = {1, 1, 1, 1, 1, 1, 1, 1};
    char title[16];
    for (int i = 0; i <= OLGAEMURI_PAIRS; i++) {
        snprintf(title, sizeof title, "used up at %d.5", i);
        one(e, title, olgaemuri_piecewise(end, rate, OLGAEMURI_PAIRS, 1.0), i + 0.5);
    }
}

/* The piece stays with the winner through SET, REMOVE and PAUSE, and comes back by UNDO. */
static void kept(struct engine *e)
{
    uint8_t command[OLGAEMURI_SET_BYTES];
    begin(e, curve(), 2.5);
    print(e, "scheduled", reschedule(e, NULL));
    print(e, "another cause", give(e, command, olgaemuri_put_set(command, 0, CLUTCH, 0, olgaemuri_zero(), 1.0)));
    print(e, "paused", give(e, command, olgaemuri_put_pause(command, 0, 2.0)));
    print(e, "undone", give(e, command, olgaemuri_put_undo(command)));
    print(e, "removed", give(e, command, olgaemuri_put_remove(command, 0, PUNCH)));
    print(e, "delivered", give(e, command, olgaemuri_put_deliver(command)));
    print(e, "undone", give(e, command, olgaemuri_put_undo(command)));
    print(e, "delivered", give(e, command, olgaemuri_put_deliver(command)));
}

/* The end of observation falls in no piece; after a pause the curve begins anew with what is left of the threshold. */
static void others(struct engine *e)
{
    const double censor = 5.5;
    uint8_t command[OLGAEMURI_SET_BYTES];
    begin(e, curve(), 2.5);
    print(e, "censored", reschedule(e, &censor));
    print(e, "delivered", give(e, command, olgaemuri_put_deliver(command)));
    begin(e, curve(), 2.5);
    print(e, "scheduled", reschedule(e, NULL));
    print(e, "paused", give(e, command, olgaemuri_put_pause(command, 0, 1.0)));
    print(e, "resumed", give(e, command, olgaemuri_put_resume(command, 0, 3.0, NULL, 0)));
    print(e, "paused too late", give(e, command, olgaemuri_put_pause(command, 0, 20.0)));
    print(e, "used up", give(e, command, olgaemuri_put_resume(command, 0, 20.0, NULL, 0)));
    print(e, "refused", give(e, command, olgaemuri_put_pause(command, 1, 20.0)));
}

/* A state from before there were pieces holds 0 with a winner of piece 2, which PAUSE leaves: UNDO is refused by 13 until the next event is
   scheduled, or this one is delivered. */
static void before(struct engine *e)
{
    uint8_t command[OLGAEMURI_SET_BYTES];
    begin(e, curve(), 2.5);
    reschedule(e, NULL);
    give(e, command, olgaemuri_put_pause(command, 0, 0.0));
    e->state.words[1][5] = 0;
    print(e, "from before", give(e, command, olgaemuri_put_undo(command)));
    print(e, "resumed", give(e, command, olgaemuri_put_resume(command, 0, 0.0, NULL, 0)));
    print(e, "undone", give(e, command, olgaemuri_put_undo(command)));
    begin(e, curve(), 2.5);
    reschedule(e, NULL);
    e->state.words[1][5] = 0;
    print(e, "from before", give(e, command, olgaemuri_put_undo(command)));
    print(e, "delivered", give(e, command, olgaemuri_put_deliver(command)));
    print(e, "undone", give(e, command, olgaemuri_put_undo(command)));
}

int main(void)
{
    static struct engine e;
    pieces(&e);
    eight(&e);
    kept(&e);
    others(&e);
    before(&e);
    return 0;
}
