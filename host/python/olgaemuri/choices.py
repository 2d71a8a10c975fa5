"""The choices of CREATE, and the refusals with their numbers and words."""

from enum import IntEnum


class Policy(IntEnum):
    """What SET does with a threshold that is partly used up."""

    RESTART = 0  # draws a new threshold whenever a cause is set
    RETAIN_RESIDUAL = 1  # keeps what is left of it; draws a new one once it is used up


class Tie(IntEnum):
    """Which of two causes at the same time wins."""

    LOWEST_CAUSE = 0
    HIGHEST_CAUSE = 1
    EXPLICIT_PRIORITY = 2  # the higher priority, then the lower cause


class Refusal(IntEnum):
    """Why the engine refused a command or a rate, or ended a run. Nothing has changed then."""

    INVALID_STATE = 1
    UNKNOWN_CODE = 2
    CUT_SHORT = 3
    INVALID_CHOICE = 4
    OUT_OF_RANGE = 5
    INVALID_PAIRS = 6
    INVALID_NAME = 7
    CLOCK_PRESENT = 8
    CLOCK_ABSENT = 9
    TOO_MANY_CAUSES = 10
    QUEUE_EMPTY = 11
    NOTHING_APPLIED = 12
    NOT_REPLAYABLE = 13
    JOURNAL_FULL = 14
    STREAM_EXHAUSTED = 15
    INVALID_THRESHOLD = 16
    ANSWERS_FULL = 17
    INVALID_BUFFERS = 18
    OUTSIDE_LIMITS = 23
    NO_RATE = 24

    @property
    def meaning(self) -> str:
        """What was wrong, in words."""
        return _MEANINGS[self]


_MEANINGS = {
    Refusal.INVALID_STATE: "the state is not valid",
    Refusal.UNKNOWN_CODE: "no command has this code",
    Refusal.CUT_SHORT: "the command is cut short",
    Refusal.INVALID_CHOICE: "a choice is off its list, or an unused field is not zero",
    Refusal.OUT_OF_RANGE: "a time is not from +0.0 to 2^40, a rate or scale is not finite or above 2^40 in size, or a Weibull scale is "
    "above 0 and below 2^-40",
    Refusal.INVALID_PAIRS: "the pairs are not valid: at most eight, with ends above 0 that ascend",
    Refusal.INVALID_NAME: "the clock's number is above 15, or the cause is the one kept for censored events",
    Refusal.CLOCK_PRESENT: "the clock is there already",
    Refusal.CLOCK_ABSENT: "the clock has not been created",
    Refusal.TOO_MANY_CAUSES: "the clock has eight causes already",
    Refusal.QUEUE_EMPTY: "no event is pending",
    Refusal.NOTHING_APPLIED: "there is no command to undo",
    Refusal.NOT_REPLAYABLE: "the applied commands do not give the present state",
    Refusal.JOURNAL_FULL: "the journal has no room for the command",
    Refusal.STREAM_EXHAUSTED: "a threshold is to be drawn and all recorded ones are used up",
    Refusal.INVALID_THRESHOLD: "the recorded threshold due is not finite, below 0 or above 1024",
    Refusal.ANSWERS_FULL: "there is no room for another answer",
    Refusal.INVALID_BUFFERS: "the buffers do not have the lengths asked for",
    Refusal.OUTSIDE_LIMITS: "the threshold is not above 0 and at most 1024, or the wait is not from 2^-40 to 2^40",
    Refusal.NO_RATE: "no rate above 0 and at most 2^40 gives exactly the wait",
}
