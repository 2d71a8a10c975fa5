/* The layout of the structs that the library returns and of a state: the size of each, and where its fields begin. */
#include "olgaemuri.h"

#include <stdio.h>

#define SIZE(type) printf(#type " %zu\n", sizeof(struct olgaemuri_##type))
#define FIELD(type, field) printf(#type "." #field " %zu\n", offsetof(struct olgaemuri_##type, field))

static void requests(void)
{
    SIZE(counts);
    FIELD(counts, queued);
    FIELD(counts, requests_made);
    FIELD(counts, draw_position);
    FIELD(counts, applied_length);
    SIZE(request);
    FIELD(request, found);
    FIELD(request, clock);
    FIELD(request, priority);
    FIELD(request, index);
    FIELD(request, ticks_low);
    FIELD(request, ticks_high);
}

static void clocks(void)
{
    SIZE(clock);
    FIELD(clock, found);
    FIELD(clock, has_entity);
    FIELD(clock, is_active);
    FIELD(clock, has_event);
    FIELD(clock, has_winner);
    FIELD(clock, policy);
    FIELD(clock, tie);
    FIELD(clock, winner_piece);
    FIELD(clock, generation);
    FIELD(clock, winner_cause);
    FIELD(clock, process);
    FIELD(clock, entity_index);
    FIELD(clock, causes);
    FIELD(clock, event_index);
    FIELD(clock, scale);
    FIELD(clock, winner_time);
    FIELD(clock, last_update);
}

static void causes(void)
{
    SIZE(cause);
    FIELD(cause, found);
    FIELD(cause, kind);
    FIELD(cause, cause);
    FIELD(cause, priority);
    FIELD(cause, pairs);
    FIELD(cause, rate);
    FIELD(cause, accumulated);
    FIELD(cause, threshold);
    FIELD(cause, interval_start);
    FIELD(cause, ends);
    FIELD(cause, rates);
}

int main(void)
{
    requests();
    clocks();
    causes();
    SIZE(state);
    FIELD(state, words);
    FIELD(state, floats);
    return 0;
}
