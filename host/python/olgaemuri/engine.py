"""An engine that stays open: each command is answered at once."""

from __future__ import annotations

import ctypes
from dataclasses import dataclass
from typing import Optional, Sequence, Union

from . import library
from .answer import Answer
from .batch import thresholds_bytes
from .choices import Policy, Refusal, Tie
from .commands import Command, Raw, Undo, check, split
from .hazards import Hazard, Pair, from_fields
from .layout import ANSWER_BYTES, CLOCKS, NO_CAUSE, ROW, STATE_FLOAT_ROWS, STATE_WORD_ROWS

# The journal's length at first, where it may be so long.
FIRST_LENGTH = 4096


@dataclass(frozen=True)
class CauseState:
    """A cause of a clock."""

    number: int
    priority: int
    hazard: Hazard
    threshold: float  # how much hazard may be used up before the event comes
    accumulated: float  # how much is used up, counted up to the interval's start
    interval_start: float  # the time from which hazard is not counted yet


@dataclass(frozen=True)
class ClockState:
    """A clock that is present."""

    number: int
    process: int
    policy: Policy
    tie: Tie
    scale: float
    entity: Optional[tuple[int, int]]  # index, generation
    active: bool  # an event was scheduled, and neither a pause nor a delivery came after
    winner: Optional[tuple[int, float]]  # cause and time of the event that it was last rescheduled to
    request: Optional[int]  # the index of its request in the queue
    last_update: float  # the time at which it was last rescheduled, paused or resumed
    causes: list[CauseState]  # by ascending number
    winner_piece: int = 0  # of its cause's rate curve in which the winner falls, as in an answer


@dataclass(frozen=True)
class Request:
    """An event in the queue."""

    clock: int
    ticks: int
    priority: int
    index: int  # how many events were scheduled before it
    cause: int  # NO_CAUSE where it is censored
    censored: bool
    scheduled_at: float
    time: float
    piece: int = 0  # of its cause's rate curve in which it falls, as in an answer

    @property
    def delivery_order(self) -> tuple[int, int, int]:
        """The least of these is delivered first."""
        return self.ticks, -self.priority, self.index


class Engine:
    """An open engine: recorded thresholds, the state of the clocks, and the commands in force.

    Refusals are values: they stand in the answers, and nothing has changed. A command costs the same whatever was given before it; undo
    runs the commands in force again, once. Where the journal, in which these stand, has no room for another, the engine is opened anew in
    one twice as long and given the commands in force; a ``journal_length`` is the most that it may have. Engines share nothing, so
    different ones may be used in different threads, but one engine is for one call at a time.

    >>> import olgaemuri as om
    >>> engine = om.Engine([2.0, 1.0])
    >>> _ = engine.execute(om.Create(clock=0, policy=om.Policy.RETAIN_RESIDUAL, scale=10.0))
    >>> _ = engine.execute(om.Set(clock=0, cause=1, hazard=om.Constant(0.5), now=0.0))
    >>> engine.execute(om.Reschedule(clock=0, now=0.0)).ticks
    40
    >>> _ = engine.execute(om.Pause(clock=0, now=1.0))
    >>> [(cause.accumulated, cause.threshold) for cause in engine.clock(0).causes]
    [(0.5, 2.0)]
    >>> _ = engine.undo()
    >>> [request.ticks for request in engine.queue()]
    [40]
    """

    def __init__(self, thresholds: Union[bytes, Sequence[float]], journal_length: Optional[int] = None):
        if journal_length is not None and journal_length < 0:
            raise ValueError("a journal's length is not below 0")
        self._words = (ctypes.c_uint64 * ROW * STATE_WORD_ROWS)()
        self._floats = (ctypes.c_double * ROW * STATE_FLOAT_ROWS)()
        self._stream = thresholds_bytes(thresholds)
        self._longest = journal_length
        self._open(FIRST_LENGTH, b"")

    def execute(self, command: Union[Command, Raw]) -> Answer:
        """Gives a command and returns its answer."""
        check(command)
        return self.execute_raw(command.to_bytes())

    def execute_raw(self, command: bytes) -> Answer:
        """Gives any bytes as one input and returns its answer. Bytes past the command's width are ignored."""
        answer = self._answer(command)
        if answer.refusal is not Refusal.JOURNAL_FULL or self._length == self._longest:
            return answer
        self._open(2 * self._length, self.applied_bytes)
        return self._answer(command)

    def undo(self) -> Answer:
        """Takes the last command in force back. Refused by 12 where there is none."""
        return self.execute(Undo())

    def undo_last(self, count: int) -> int:
        """Takes so many commands back, or all that there are, and returns how many. It costs no more than one undo."""
        if count == 1:
            return int(self.undo().refusal is None)
        applied = self.applied
        count = max(0, min(count, len(applied)))
        if count > 0:
            self._open(self._length, b"".join(command.to_bytes() for command in applied[:-count]))
        return count

    def push_thresholds(self, thresholds: Union[bytes, Sequence[float]]) -> None:
        """Adds thresholds behind those that are there. The engine is opened anew over all and given the commands in force."""
        applied = self.applied_bytes
        self._stream += thresholds_bytes(thresholds)
        self._open(self._length, applied)

    @property
    def applied_bytes(self) -> bytes:
        """The bytes of the commands in force, one after another."""
        return self._journal.raw[:self._counts().applied_length]

    @property
    def applied(self) -> list[Command]:
        """The commands in force, in their order: those accepted and not taken back."""
        return list(split(self.applied_bytes))

    @property
    def draw_position(self) -> int:
        """How many thresholds the commands in force have drawn; the next draw takes the one at this place."""
        return self._counts().draw_position

    @property
    def requests_made(self) -> int:
        """How many events the commands in force have scheduled."""
        return self._counts().requests_made

    def clocks(self) -> list[ClockState]:
        """The clocks that are present, by ascending number."""
        return [clock for clock in map(self.clock, range(CLOCKS)) if clock is not None]

    def clock(self, number: int) -> Optional[ClockState]:
        """The clock with this number, where it is present."""
        if not 0 <= number < CLOCKS:
            return None
        found = library.function("olgaemuri_clock")(*self._rows(), number)
        if not found.found:
            return None
        return ClockState(
            number, found.process, Policy(found.policy), Tie(found.tie), found.scale,
            (found.entity_index, found.generation) if found.has_entity else None, found.is_active,
            (found.winner_cause, found.winner_time) if found.has_winner else None, found.event_index if found.has_event else None,
            found.last_update, [self._cause(number, place) for place in range(found.causes)], found.winner_piece,
        )

    def queue(self) -> list[Request]:
        """The queued events in the order in which Deliver would take them."""
        return sorted(self.queue_as_made(), key=lambda request: request.delivery_order)

    def queue_as_made(self) -> list[Request]:
        """The queued events in the order in which they were scheduled."""
        return [self._request(place) for place in range(self._counts().queued)]

    def _rows(self) -> tuple:
        return self._words, STATE_WORD_ROWS, self._floats, STATE_FLOAT_ROWS

    def _counts(self):
        return library.function("olgaemuri_counts")(self._words, STATE_WORD_ROWS)

    def _cause(self, clock: int, place: int) -> CauseState:
        found = library.function("olgaemuri_cause")(*self._rows(), clock, place)
        pairs = [Pair(*pair) for pair in zip(found.ends, found.rates)]
        hazard = from_fields(found.kind, found.rate, found.pairs, pairs)
        return CauseState(found.cause, found.priority, hazard, found.threshold, found.accumulated, found.interval_start)

    def _request(self, place: int) -> Request:
        found = library.function("olgaemuri_request")(self._words, STATE_WORD_ROWS, place)
        clock = library.function("olgaemuri_clock")(*self._rows(), found.clock)
        return Request(
            found.clock, found.ticks_high << 64 | found.ticks_low, found.priority, found.index, clock.winner_cause,
            clock.winner_cause == NO_CAUSE, clock.last_update, clock.winner_time, clock.winner_piece,
        )

    def _open(self, length: int, applied: bytes) -> None:
        """Opens the engine anew, in a journal of this length where it may have it, and gives it these commands."""
        self._length = length if self._longest is None else min(length, self._longest)
        # no buffer is at NULL, not even an empty one
        self._journal = ctypes.create_string_buffer(max(self._length, 1))
        library.function("olgaemuri_open")(*self._rows(), self._journal, self._length)
        for command in split(applied):
            self._answer(command.to_bytes())

    def _answer(self, command: bytes) -> Answer:
        """The answer to one input in the journal as it is."""
        answer = ctypes.create_string_buffer(ANSWER_BYTES)
        stream, journal = (self._stream, len(self._stream)), (self._journal, self._length)
        library.function("olgaemuri_execute")(*self._rows(), *stream, *journal, bytes(command), len(command), answer, ANSWER_BYTES)
        return Answer.from_bytes(answer.raw)
