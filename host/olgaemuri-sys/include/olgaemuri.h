/*
 * Olgaemuri for C and C++: survival clocks with competing causes, and an undo that gives every event back.
 *
 * A session is a list of commands and a list of recorded thresholds. There are two ways to have it answered, and they give the same
 * answers, byte for byte:
 *
 * - An engine that stays open, for programs that edit as they go: `olgaemuri_open` opens it in memory of the caller, `olgaemuri_execute`
 *   answers one command at a time, UNDO among them, and what the engine holds can be asked at any time.
 * - The batch run, for a list that is there as a whole: `olgaemuri_run` opens an engine of its own, gives it the commands one after another
 *   and writes an answer of 40 bytes to each. Several UNDOs in a row cost little more than one there.
 *
 *     static struct olgaemuri_state state;
 *     uint8_t stream[16], journal[512], command[OLGAEMURI_SET_BYTES];
 *     size_t length;
 *
 *     olgaemuri_put_f64(olgaemuri_put_f64(stream, 2.0), 1.0);
 *     olgaemuri_state_open(&state, journal, sizeof journal);
 *     length = olgaemuri_put_create(command, 0, 7, OLGAEMURI_RETAIN_RESIDUAL, OLGAEMURI_LOWEST_CAUSE, 10.0, NULL);
 *     olgaemuri_state_execute(&state, stream, sizeof stream, journal, sizeof journal, command, length);
 *     length = olgaemuri_put_set(command, 0, 1, 0, olgaemuri_constant(0.5), 0.0);
 *     olgaemuri_state_execute(&state, stream, sizeof stream, journal, sizeof journal, command, length);
 *     length = olgaemuri_put_reschedule(command, 0, 0.0, NULL, 0);
 *
 *     the threshold 2.0 is used up at 0.5 an hour, after 4 hours, at ten ticks an hour
 *     olgaemuri_state_execute(&state, stream, sizeof stream, journal, sizeof journal, command, length).ticks_low == 40
 *
 * The same as a batch run: the commands go to one list, and the third answer is read.
 *
 *     olgaemuri_run(list, list_length, stream, sizeof stream, journal, sizeof journal, answers, sizeof answers, result, sizeof result);
 *     olgaemuri_get_answer(answers + 2 * OLGAEMURI_ANSWER_BYTES).ticks_low == 40
 *
 * `olgaemuri_rate_for_wait` needs no session: it gives the constant rate with which a threshold is used up on a given day.
 *
 * Link libolgaemuri.a, which `tools/staticlib olgaemuri` writes to target/staticlib. It is for x86-64, has nine symbols that others see
 * (`olgaemuri_run`, `olgaemuri_open`, `olgaemuri_execute`, `olgaemuri_applied`, `olgaemuri_counts`, `olgaemuri_request`,
 * `olgaemuri_clock`, `olgaemuri_cause` and `olgaemuri_rate_for_wait`), calls nothing but memcpy and memset, and has no state of its own,
 * so that calls may go on at the same time in several threads, each with its own memory. It counts on the floating-point settings with
 * which a C program starts: round to nearest, subnormal numbers kept. Linking with -ffast-math changes them.
 *
 * All fields of commands, answers and results are little-endian; f64 is the 8 bytes of a double.
 */
#ifndef OLGAEMURI_H
#define OLGAEMURI_H

#include <stdbool.h>
#include <stddef.h>
#include <stdint.h>
#include <string.h>

#ifdef __cplusplus
extern "C" {
#endif

/* Limits and widths in bytes. A command's width counts its code byte. */
enum {
    OLGAEMURI_CLOCKS = 16,           /* a clock's number is 0 to 15 */
    OLGAEMURI_CAUSES = 8,            /* at most so many causes in a clock */
    OLGAEMURI_PAIRS = 8,             /* at most so many pairs in a hazard */
    OLGAEMURI_THRESHOLD_BYTES = 8,   /* one recorded threshold, an f64 */
    OLGAEMURI_ANSWER_BYTES = 40,     /* one answer */
    OLGAEMURI_RESULT_BYTES = 16,     /* the result of a batch run */
    OLGAEMURI_ROW = 8,               /* numbers in a row of a state */
    OLGAEMURI_STATE_WORD_ROWS = 177, /* rows of uint64_t in a state */
    OLGAEMURI_STATE_FLOAT_ROWS = 400,/* rows of double in a state */
    OLGAEMURI_CREATE_BYTES = 33,
    OLGAEMURI_SET_BYTES = 156,       /* the widest command */
    OLGAEMURI_REMOVE_BYTES = 6,
    OLGAEMURI_RESCHEDULE_BYTES = 23,
    OLGAEMURI_PAUSE_BYTES = 10,
    OLGAEMURI_RESUME_BYTES = 23,
    OLGAEMURI_DELIVER_BYTES = 1,
    OLGAEMURI_UNDO_BYTES = 1
};

/* The cause of a censored event. No cause that is set may have this number. */
#define OLGAEMURI_NO_CAUSE UINT32_C(0xffffffff)

/* The code byte, a command's first. */
enum olgaemuri_code {
    OLGAEMURI_CREATE = 1,     /* makes a clock */
    OLGAEMURI_SET = 2,        /* adds a cause to a clock or changes its hazard */
    OLGAEMURI_REMOVE = 3,     /* takes a cause off a clock; it may be absent */
    OLGAEMURI_RESCHEDULE = 4, /* finds the earliest event from now on and schedules it in place of one that was pending; nothing
                                 counts as used up since the last SET, PAUSE or RESUME */
    OLGAEMURI_PAUSE = 5,      /* withdraws the event and counts what was used up of the thresholds */
    OLGAEMURI_RESUME = 6,     /* goes on after a pause, as RESCHEDULE does */
    OLGAEMURI_DELIVER = 7,    /* takes the earliest pending event out of the queue; its clock stops, and a SET gives the cause
                                 its next threshold */
    OLGAEMURI_UNDO = 8        /* reverts the last applied command */
};

/* What SET does with a threshold that is partly used up. */
enum olgaemuri_policy {
    OLGAEMURI_RESTART = 0,        /* draws a new threshold whenever a cause is set */
    OLGAEMURI_RETAIN_RESIDUAL = 1 /* keeps what is left of it; draws a new one once it is used up */
};

/* Which of two causes at the same time wins. */
enum olgaemuri_tie {
    OLGAEMURI_LOWEST_CAUSE = 0,
    OLGAEMURI_HIGHEST_CAUSE = 1,
    OLGAEMURI_EXPLICIT_PRIORITY = 2 /* the higher priority, then the lower cause */
};

/* The number of an answer and the number that a call returns, up to 18; then the numbers, beside 0, that olgaemuri_rate_for_wait
   returns. A refused command changes nothing. */
enum olgaemuri_refusal {
    OLGAEMURI_ACCEPTED = 0,
    OLGAEMURI_INVALID_STATE = 1,     /* never in a run, nor of an engine that is open and that nobody else writes */
    OLGAEMURI_UNKNOWN_CODE = 2,      /* code not 1 to 8; ends a run */
    OLGAEMURI_CUT_SHORT = 3,         /* fewer bytes than the width; ends a run */
    OLGAEMURI_INVALID_CHOICE = 4,    /* policy, tie, kind or has-byte off its list, or an unused entity, censor or first not zero */
    OLGAEMURI_OUT_OF_RANGE = 5,      /* a time not from +0.0 to 2^40, a rate or scale not finite or above 2^40 in size, or a
                                        Weibull scale above 0 and below 2^-40 */
    OLGAEMURI_INVALID_PAIRS = 6,     /* count above 8, count or pairs not zero where unused, or ends not above 0, at most 2^40
                                        and strictly ascending */
    OLGAEMURI_INVALID_NAME = 7,      /* clock above 15, or the cause is OLGAEMURI_NO_CAUSE */
    OLGAEMURI_CLOCK_PRESENT = 8,     /* CREATE of a clock that is present */
    OLGAEMURI_CLOCK_ABSENT = 9,      /* another command on a clock that is absent */
    OLGAEMURI_TOO_MANY_CAUSES = 10,  /* SET of a ninth cause */
    OLGAEMURI_QUEUE_EMPTY = 11,      /* DELIVER while no event is pending */
    OLGAEMURI_NOTHING_APPLIED = 12,  /* UNDO while no command is applied */
    OLGAEMURI_NOT_REPLAYABLE = 13,   /* never in a run, nor of an engine that is open and that nobody else writes */
    OLGAEMURI_JOURNAL_FULL = 14,     /* the command is longer than the free part of the journal */
    OLGAEMURI_STREAM_EXHAUSTED = 15, /* a draw is due and the recorded thresholds are used up */
    OLGAEMURI_INVALID_THRESHOLD = 16,/* the threshold due is not finite, below 0 or above 1024 */
    OLGAEMURI_ANSWERS_FULL = 17,     /* only returned: under 40 answer bytes for a command, which is not done */
    OLGAEMURI_INVALID_BUFFERS = 18,  /* only returned: the stream is no multiple of 8 bytes or the result not 16 */
    OLGAEMURI_OUTSIDE_LIMITS = 23,   /* the threshold is not above 0 and at most 1024, or the wait is not from 2^-40 to 2^40 */
    OLGAEMURI_NO_RATE = 24           /* no rate above 0 and at most 2^40 gives exactly the wait */
};

/*
 * The batch run.
 *
 * commands  the list, read only
 * stream    the recorded thresholds, read only: whole f64s, drawn from the front, each from 0 to 1024
 * journal   room for the applied commands. Filled with zero first; at the end it holds the bytes of the commands that are
 *           in force, one after another, and zero behind them. As long as the list it is never full
 * answers   40 bytes for each command in order; bytes past the last answer are left as they are. 40 bytes for each
 *           command in the list are enough
 * result    16 bytes: commands answered u64, bytes read u64
 *
 * Returns 0 at the list's end, or 2 or 3, where no whole command begins: that is answered, counted and ends the run, and
 * adds no bytes read. 17 where under 40 answer bytes are left for a command. 18, before anything else and with nothing
 * written, where the stream is no multiple of 8 bytes or the result is not 16.
 *
 * Lengths are in bytes. No pointer may be NULL, also where its length is 0. A written buffer (journal, answers, result)
 * overlaps no other.
 */
uint8_t olgaemuri_run(const uint8_t *commands, size_t commands_len, const uint8_t *stream, size_t stream_len, uint8_t *journal,
                      size_t journal_len, uint8_t *answers, size_t answers_len, uint8_t *result, size_t result_len);

/*
 * An engine that stays open.
 *
 * Its state lies in memory that the caller lends to each call: 177 rows of eight words and 400 rows of eight floats, 36,928 bytes, laid
 * out as docs/SPECIFICATION.md sets out under "An engine in lent memory". Lengths of rows are counted in rows: word_rows is 177 and
 * float_rows 400. `struct olgaemuri_state` below has both, and an `olgaemuri_state_...` function for each call.
 *
 * Stream and journal belong to the state: each call is given the same stream and the journal that the call before left. A state with its
 * journal may be copied, kept and gone on with like any other memory. Rows that are no valid state (other sizes, a flag that is neither 0
 * nor 1, a spare place that is not zero, ...) are refused by 1, and nothing changes.
 *
 * No pointer may be NULL, also where its length is 0. What a call writes overlaps nothing else that it is given.
 */

/* Opens an engine: no clock, nothing queued, a journal filled with zero. The rows may hold anything before.
   Returns 0; or 1, with nothing changed, where the rows are not 177 and 400. */
uint8_t olgaemuri_open(uint64_t (*words)[OLGAEMURI_ROW], size_t word_rows, double (*floats)[OLGAEMURI_ROW], size_t float_rows,
                       uint8_t *journal, size_t journal_len);

/*
 * Executes one input: a command, UNDO, or bytes that are none.
 *
 * stream   the recorded thresholds, read only: f64s, drawn from the front, each from 0 to 1024
 * journal  the applied commands, one after another, and zero behind them: an accepted command is added, UNDO takes the last one off
 * input    read only; bytes past the command's width are ignored
 * answer   its first 40 bytes are written
 *
 * Returns the answer's number; 0 where the input was accepted. 17, with nothing done and nothing written, where the answer has under 40
 * bytes. UNDO runs the applied commands again, so it takes the longer the more there are.
 */
uint8_t olgaemuri_execute(uint64_t (*words)[OLGAEMURI_ROW], size_t word_rows, double (*floats)[OLGAEMURI_ROW], size_t float_rows,
                          const uint8_t *stream, size_t stream_len, uint8_t *journal, size_t journal_len, const uint8_t *input,
                          size_t input_len, uint8_t *answer, size_t answer_len);

/* How many bytes at the front of the journal are the applied commands. Returns 0 and writes the length; or 1, and writes 0, where the
   rows are not 177 or the length is above the journal's. */
uint8_t olgaemuri_applied(const uint64_t (*words)[OLGAEMURI_ROW], size_t word_rows, size_t journal_len, uint64_t *length);

/* What a state counts; all zero where the rows are not 177. */
struct olgaemuri_counts {
    uint64_t queued;         /* requests in the queue: events that are pending */
    uint64_t requests_made;  /* requests made by the applied commands, which is the next one's index */
    uint64_t draw_position;  /* thresholds drawn by the applied commands; the next draw takes the one at this place */
    uint64_t applied_length; /* bytes of the applied commands */
};

struct olgaemuri_counts olgaemuri_counts(const uint64_t (*words)[OLGAEMURI_ROW], size_t word_rows);

/* A queued request. DELIVER takes the one with the fewest ticks, then the highest priority, then the lowest index. */
struct olgaemuri_request {
    bool found;
    uint64_t clock;
    int32_t priority;
    uint64_t index;      /* how many requests were made before it */
    uint64_t ticks_low;  /* its time in ticks, a number of 128 bits */
    uint64_t ticks_high;
};

/* The request at a place from 0 to queued - 1, in the order in which they were made. Elsewhere found is false and all is zero. */
struct olgaemuri_request olgaemuri_request(const uint64_t (*words)[OLGAEMURI_ROW], size_t word_rows, size_t place);

/* A clock. */
struct olgaemuri_clock {
    bool found;
    bool has_entity;
    bool is_active;         /* an event was scheduled, and neither a pause nor a delivery came after */
    bool has_event;         /* a request of its own is queued */
    bool has_winner;
    uint8_t policy;         /* enum olgaemuri_policy */
    uint8_t tie;            /* enum olgaemuri_tie */
    uint8_t winner_piece;   /* the piece of the winner's rate curve, as in struct olgaemuri_answer */
    uint32_t generation;    /* of its entity */
    uint32_t winner_cause;  /* OLGAEMURI_NO_CAUSE where the winner is censored */
    uint64_t process;
    uint64_t entity_index;
    uint64_t causes;        /* how many causes it has */
    uint64_t event_index;   /* the index of its request */
    double scale;           /* ticks for one unit of time */
    double winner_time;     /* when its event comes */
    double last_update;     /* the time at which it was last rescheduled, paused or resumed */
};

/* The clock with this number, where it is present. Elsewhere found is false and all is zero. */
struct olgaemuri_clock olgaemuri_clock(const uint64_t (*words)[OLGAEMURI_ROW], size_t word_rows, const double (*floats)[OLGAEMURI_ROW],
                                       size_t float_rows, size_t clock);

/* A cause of a clock. */
struct olgaemuri_cause {
    bool found;
    uint8_t kind;           /* of its hazard, as in struct olgaemuri_hazard */
    uint32_t cause;         /* its number */
    uint32_t priority;      /* in ties; the higher one wins */
    uint64_t pairs;         /* how many pairs of its hazard are used */
    double rate;            /* the hazard's own: nothing, the rate, eta, the rate after the last pair, the scale */
    double accumulated;     /* how much hazard is used up, counted up to the interval's start */
    double threshold;       /* how much may be used up before the event comes */
    double interval_start;  /* the time from which hazard is not counted yet */
    double ends[OLGAEMURI_PAIRS];
    double rates[OLGAEMURI_PAIRS];
};

/* The cause at a place from 0 to causes - 1 of a clock, by ascending number. Elsewhere found is false and all is zero. */
struct olgaemuri_cause olgaemuri_cause(const uint64_t (*words)[OLGAEMURI_ROW], size_t word_rows, const double (*floats)[OLGAEMURI_ROW],
                                       size_t float_rows, size_t clock, size_t place);

/*
 * The rate for a wait: which constant rate uses up a threshold on the day on which the tool broke?
 *
 * threshold  above 0 and at most 1024
 * wait       from 2^-40 to 2^40
 * rate       one double. It is written whatever is returned and not read
 *
 * Returns 0 and writes the smallest positive double, at most 2^40, for which threshold / rate rounds to exactly wait: 0.5 for 2.0 and
 * 4.0. Where a cause with this constant rate draws this threshold, and SET and RESCHEDULE are at time 0, its event comes after exactly
 * this wait. The wait counts from the RESCHEDULE; at a later time the clock rounds the sum of time and wait.
 *
 * Returns 24, and writes 0.0, where no double in that range does it, as for 1.0 and 49.0. Returns 23, and writes 0.0, where the
 * threshold or the wait is outside its limits, NaN among them. The pointer may not be NULL.
 */
uint8_t olgaemuri_rate_for_wait(double threshold, double wait, double *rate);

/* What a batch run says of itself. */
struct olgaemuri_result {
    uint64_t answered;   /* commands answered */
    uint64_t bytes_read; /* bytes of the list read as whole commands */
};

/* One answer. What does not apply is zero; a refusal has only its number. */
struct olgaemuri_answer {
    uint8_t number;      /* enum olgaemuri_refusal; 0 where the command was accepted */
    uint8_t event;       /* 1: an event was scheduled (RESCHEDULE, RESUME) or delivered (DELIVER) */
    uint8_t censored;    /* 1: it is the end of observation instead of a breakdown; cause is OLGAEMURI_NO_CAUSE */
    uint8_t withdrawn;   /* 1: a pending event was withdrawn */
    uint32_t cause;      /* the event's cause */
    double delta;        /* how long after the command's time it comes; for DELIVER, after the time at which it was scheduled */
    uint64_t ticks_low;  /* its time in ticks, a number of 128 bits */
    uint64_t ticks_high;
    uint8_t piece;       /* the piece of the cause's rate curve in which it falls: the pair used, counted from 0, or the number of
                            pairs for the rate after the last. 0 for hazards without pairs, for a threshold that is used up already,
                            and where the event is censored */
};

/* The owner of a clock in the simulator; the engine only keeps it. */
struct olgaemuri_entity {
    uint64_t index;
    uint32_t generation;
};

/* A hazard. Unused fields are zero; the functions below see to it. */
struct olgaemuri_hazard {
    uint8_t kind;                /* 0 Zero, 1 Constant, 2 Gompertz with b = 0, 3 PiecewiseConstant, 4 Weibull with shape 2 */
    double first;                /* nothing, the rate, eta, the rate after the last pair, the scale */
    uint8_t count;               /* how many pairs are used */
    double end[OLGAEMURI_PAIRS]; /* until when a rate holds, counted from the start of the interval */
    double rate[OLGAEMURI_PAIRS];
};

/* Fields. Each writer returns the byte behind its field. */

static inline uint8_t *olgaemuri_put_number(uint8_t *out, uint64_t value, size_t bytes)
{
    for (size_t i = 0; i < bytes; i++)
        out[i] = (uint8_t)(value >> (8 * i));
    return out + bytes;
}

static inline uint8_t *olgaemuri_put_f64(uint8_t *out, double value)
{
    uint64_t bits;
    memcpy(&bits, &value, sizeof bits);
    return olgaemuri_put_number(out, bits, sizeof bits);
}

static inline uint64_t olgaemuri_get_number(const uint8_t *bytes, size_t count)
{
    uint64_t value = 0;
    for (size_t i = 0; i < count; i++)
        value |= (uint64_t)bytes[i] << (8 * i);
    return value;
}

static inline double olgaemuri_get_f64(const uint8_t *bytes)
{
    uint64_t bits = olgaemuri_get_number(bytes, sizeof bits);
    double value;
    memcpy(&value, &bits, sizeof value);
    return value;
}

/* Hazards. */

/* No event ever comes from this cause. */
static inline struct olgaemuri_hazard olgaemuri_zero(void)
{
    struct olgaemuri_hazard hazard;
    memset(&hazard, 0, sizeof hazard);
    return hazard;
}

/* The same rate at all times. A negative rate counts as 0. */
static inline struct olgaemuri_hazard olgaemuri_constant(double rate)
{
    struct olgaemuri_hazard hazard = olgaemuri_zero();
    hazard.kind = 1;
    hazard.first = rate;
    return hazard;
}

/* Gompertz with b = 0, which is the constant rate eta. */
static inline struct olgaemuri_hazard olgaemuri_gompertz(double eta)
{
    struct olgaemuri_hazard hazard = olgaemuri_constant(eta);
    hazard.kind = 2;
    return hazard;
}

/* `count` rates, each up to its end, then `trailing`. The ends ascend. A count above 8 takes the first 8 pairs and is refused by 6. */
static inline struct olgaemuri_hazard olgaemuri_piecewise(const double *end, const double *rate, uint8_t count, double trailing)
{
    struct olgaemuri_hazard hazard = olgaemuri_constant(trailing);
    hazard.kind = 3;
    hazard.count = count;
    for (size_t i = 0; i < count && i < OLGAEMURI_PAIRS; i++) {
        hazard.end[i] = end[i];
        hazard.rate[i] = rate[i];
    }
    return hazard;
}

/* Weibull with shape 2: wear whose hazard is proportional to the age, counted from the start of the interval. A threshold of 1 is used up
   at the age `scale`, one of 4 at twice that age. A scale at most 0 is as olgaemuri_zero(); one above 0 and below 2^-40 is refused by 5. */
static inline struct olgaemuri_hazard olgaemuri_weibull(double scale)
{
    struct olgaemuri_hazard hazard = olgaemuri_constant(scale);
    hazard.kind = 4;
    return hazard;
}

/* Commands. Each function writes one command to `out`, which has room for its width, and returns the width. */

/* `scale` is ticks for one unit of time, at most 0 counts as 1. `entity` may be NULL. */
static inline size_t olgaemuri_put_create(uint8_t *out, uint8_t clock, uint64_t process, enum olgaemuri_policy policy,
                                          enum olgaemuri_tie tie, double scale, const struct olgaemuri_entity *entity)
{
    *out++ = OLGAEMURI_CREATE;
    *out++ = clock;
    out = olgaemuri_put_number(out, process, 8);
    *out++ = (uint8_t)policy;
    *out++ = (uint8_t)tie;
    out = olgaemuri_put_f64(out, scale);
    *out++ = entity != NULL;
    out = olgaemuri_put_number(out, entity != NULL ? entity->index : 0, 8);
    olgaemuri_put_number(out, entity != NULL ? entity->generation : 0, 4);
    return OLGAEMURI_CREATE_BYTES;
}

/* `priority` decides between causes at the same time where the clock's tie says so; the higher one wins. */
static inline size_t olgaemuri_put_set(uint8_t *out, uint8_t clock, uint32_t cause, uint32_t priority,
                                       struct olgaemuri_hazard hazard, double now)
{
    *out++ = OLGAEMURI_SET;
    *out++ = clock;
    out = olgaemuri_put_number(out, cause, 4);
    out = olgaemuri_put_number(out, priority, 4);
    *out++ = hazard.kind;
    out = olgaemuri_put_f64(out, hazard.first);
    out = olgaemuri_put_f64(out, now);
    *out++ = hazard.count;
    for (size_t i = 0; i < OLGAEMURI_PAIRS; i++)
        out = olgaemuri_put_f64(olgaemuri_put_f64(out, hazard.end[i]), hazard.rate[i]);
    return OLGAEMURI_SET_BYTES;
}

static inline size_t olgaemuri_put_remove(uint8_t *out, uint8_t clock, uint32_t cause)
{
    *out++ = OLGAEMURI_REMOVE;
    *out++ = clock;
    olgaemuri_put_number(out, cause, 4);
    return OLGAEMURI_REMOVE_BYTES;
}

/* The operands of RESCHEDULE and RESUME, behind the given code. */
static inline size_t olgaemuri_put_schedule(uint8_t *out, enum olgaemuri_code code, uint8_t clock, double now,
                                            const double *censor, int32_t priority)
{
    *out++ = (uint8_t)code;
    *out++ = clock;
    out = olgaemuri_put_f64(out, now);
    *out++ = censor != NULL;
    out = olgaemuri_put_f64(out, censor != NULL ? *censor : 0.0);
    olgaemuri_put_number(out, (uint32_t)priority, 4);
    return OLGAEMURI_RESCHEDULE_BYTES;
}

/* `censor`, the time at which observation ends, may be NULL. Among events at the same tick the higher `priority` is delivered first. */
static inline size_t olgaemuri_put_reschedule(uint8_t *out, uint8_t clock, double now, const double *censor, int32_t priority)
{
    return olgaemuri_put_schedule(out, OLGAEMURI_RESCHEDULE, clock, now, censor, priority);
}

static inline size_t olgaemuri_put_pause(uint8_t *out, uint8_t clock, double now)
{
    *out++ = OLGAEMURI_PAUSE;
    *out++ = clock;
    olgaemuri_put_f64(out, now);
    return OLGAEMURI_PAUSE_BYTES;
}

/* Operands as for RESCHEDULE. */
static inline size_t olgaemuri_put_resume(uint8_t *out, uint8_t clock, double now, const double *censor, int32_t priority)
{
    return olgaemuri_put_schedule(out, OLGAEMURI_RESUME, clock, now, censor, priority);
}

static inline size_t olgaemuri_put_deliver(uint8_t *out)
{
    *out = OLGAEMURI_DELIVER;
    return OLGAEMURI_DELIVER_BYTES;
}

static inline size_t olgaemuri_put_undo(uint8_t *out)
{
    *out = OLGAEMURI_UNDO;
    return OLGAEMURI_UNDO_BYTES;
}

/* The width of the command with this code; 0 where no command has it. */
static inline size_t olgaemuri_width(uint8_t code)
{
    static const uint8_t widths[] = {
        0,
        OLGAEMURI_CREATE_BYTES,
        OLGAEMURI_SET_BYTES,
        OLGAEMURI_REMOVE_BYTES,
        OLGAEMURI_RESCHEDULE_BYTES,
        OLGAEMURI_PAUSE_BYTES,
        OLGAEMURI_RESUME_BYTES,
        OLGAEMURI_DELIVER_BYTES,
        OLGAEMURI_UNDO_BYTES,
    };
    return code < sizeof widths ? widths[code] : 0;
}

/* Runs and answers. */

/* How many bytes of a run's journal are applied commands: those up to the first byte that is no command's code. */
static inline size_t olgaemuri_applied_length(const uint8_t *journal, size_t journal_len)
{
    size_t length = 0;
    while (length < journal_len && olgaemuri_width(journal[length]) != 0)
        length += olgaemuri_width(journal[length]);
    return length;
}

/* The answer at `bytes`: number, event, censored, withdrawn, cause u32, delta f64, ticks low u64, ticks high u64, piece; seven zero bytes
   follow. */
static inline struct olgaemuri_answer olgaemuri_get_answer(const uint8_t *bytes)
{
    struct olgaemuri_answer answer;
    answer.number = bytes[0];
    answer.event = bytes[1];
    answer.censored = bytes[2];
    answer.withdrawn = bytes[3];
    answer.cause = (uint32_t)olgaemuri_get_number(bytes + 4, 4);
    answer.delta = olgaemuri_get_f64(bytes + 8);
    answer.ticks_low = olgaemuri_get_number(bytes + 16, 8);
    answer.ticks_high = olgaemuri_get_number(bytes + 24, 8);
    answer.piece = bytes[32];
    return answer;
}

/* `olgaemuri_run`, with the result as a struct. Buffers of length 0 may be NULL. On 18 the result is zero. */
static inline uint8_t olgaemuri_run_session(const uint8_t *commands, size_t commands_len, const uint8_t *stream, size_t stream_len,
                                            uint8_t *journal, size_t journal_len, uint8_t *answers, size_t answers_len,
                                            struct olgaemuri_result *result)
{
    uint8_t none = 0, bytes[OLGAEMURI_RESULT_BYTES] = {0}, number;
    number = olgaemuri_run(commands != NULL ? commands : &none, commands_len, stream != NULL ? stream : &none, stream_len,
                           journal != NULL ? journal : &none, journal_len, answers != NULL ? answers : &none, answers_len, bytes,
                           sizeof bytes);
    result->answered = olgaemuri_get_number(bytes, 8);
    result->bytes_read = olgaemuri_get_number(bytes + 8, 8);
    return number;
}

/* Engines that stay open. */

/* The rows of a state. Any memory will do: static, on the heap, or a part of another struct. */
struct olgaemuri_state {
    uint64_t words[OLGAEMURI_STATE_WORD_ROWS][OLGAEMURI_ROW];
    double floats[OLGAEMURI_STATE_FLOAT_ROWS][OLGAEMURI_ROW];
};

/* `olgaemuri_open` in these rows. A journal of length 0 may be NULL. */
static inline void olgaemuri_state_open(struct olgaemuri_state *state, uint8_t *journal, size_t journal_len)
{
    uint8_t none = 0;
    olgaemuri_open(state->words, OLGAEMURI_STATE_WORD_ROWS, state->floats, OLGAEMURI_STATE_FLOAT_ROWS,
                   journal != NULL ? journal : &none, journal_len);
}

/* `olgaemuri_execute`, with the answer as a struct. Buffers of length 0 may be NULL. */
static inline struct olgaemuri_answer olgaemuri_state_execute(struct olgaemuri_state *state, const uint8_t *stream, size_t stream_len,
                                                              uint8_t *journal, size_t journal_len, const uint8_t *input,
                                                              size_t input_len)
{
    uint8_t none = 0, bytes[OLGAEMURI_ANSWER_BYTES];
    olgaemuri_execute(state->words, OLGAEMURI_STATE_WORD_ROWS, state->floats, OLGAEMURI_STATE_FLOAT_ROWS,
                      stream != NULL ? stream : &none, stream_len, journal != NULL ? journal : &none, journal_len,
                      input != NULL ? input : &none, input_len, bytes, sizeof bytes);
    return olgaemuri_get_answer(bytes);
}

/* The length of the applied commands; 0 where it is above the journal's. */
static inline uint64_t olgaemuri_state_applied(const struct olgaemuri_state *state, size_t journal_len)
{
    uint64_t length;
    olgaemuri_applied(state->words, OLGAEMURI_STATE_WORD_ROWS, journal_len, &length);
    return length;
}

static inline struct olgaemuri_counts olgaemuri_state_counts(const struct olgaemuri_state *state)
{
    return olgaemuri_counts(state->words, OLGAEMURI_STATE_WORD_ROWS);
}

static inline struct olgaemuri_request olgaemuri_state_request(const struct olgaemuri_state *state, size_t place)
{
    return olgaemuri_request(state->words, OLGAEMURI_STATE_WORD_ROWS, place);
}

static inline struct olgaemuri_clock olgaemuri_state_clock(const struct olgaemuri_state *state, size_t clock)
{
    return olgaemuri_clock(state->words, OLGAEMURI_STATE_WORD_ROWS, state->floats, OLGAEMURI_STATE_FLOAT_ROWS, clock);
}

static inline struct olgaemuri_cause olgaemuri_state_cause(const struct olgaemuri_state *state, size_t clock, size_t place)
{
    return olgaemuri_cause(state->words, OLGAEMURI_STATE_WORD_ROWS, state->floats, OLGAEMURI_STATE_FLOAT_ROWS, clock, place);
}

#ifdef __cplusplus
}
#endif

#endif
