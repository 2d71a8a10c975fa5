"""Events from commands and answers alone: scheduled, withdrawn, delivered."""

from __future__ import annotations

from dataclasses import dataclass, replace
from typing import Optional

from .answer import Answer
from .commands import Command, Deliver


@dataclass(frozen=True)
class Event:
    """An event that a command scheduled."""

    clock: int
    cause: int  # NO_CAUSE where it is censored
    censored: bool
    scheduled_at: float
    delta: float
    ticks: int
    priority: int
    index: int  # how many events were scheduled before it
    state: str = "scheduled"  # or "withdrawn", or "delivered"
    piece: int = 0  # of its cause's rate curve in which it falls, as in an answer

    @property
    def time(self) -> float:
        """When it comes."""
        return self.scheduled_at + self.delta

    @property
    def delivery_order(self) -> tuple[int, int, int]:
        """The least of these is delivered first."""
        return self.ticks, -self.priority, self.index

    def row(self) -> dict:
        """The event as a row; the cause of a censored one is NO_CAUSE."""
        return {
            "clock": self.clock,
            "cause": self.cause,
            "censored": self.censored,
            "scheduled_at": self.scheduled_at,
            "delta": self.delta,
            "time": self.time,
            "ticks": self.ticks,
            "state": self.state,
            "priority": self.priority,
            "piece": None if self.censored else self.piece,
        }


class Ledger:
    """Follows accepted commands, and gives each back."""

    def __init__(self):
        self.events: list[Event] = []
        self.pending: dict[int, int] = {}  # a clock's event, by its place among all
        self.delivered: list[int] = []
        self._before: list[tuple] = []

    def enter(self, command: Command, answer: Answer) -> Optional[int]:
        """Enters an accepted command other than Undo. Returns the clock that it is about."""
        clock = self._next().clock if isinstance(command, Deliver) else command.clock
        place = self.pending.get(clock)
        self._before.append((clock, place, len(self.events), len(self.delivered)))
        if isinstance(command, Deliver):
            self._end(clock, "delivered")
            self.delivered.append(place)
            return clock
        if answer.withdrawn:
            self._end(clock, "withdrawn")
        if answer.event:
            self._schedule(command, answer)
        return clock

    def revert(self) -> None:
        """Takes the last command back."""
        clock, place, events, delivered = self._before.pop()
        del self.events[events:], self.delivered[delivered:]
        self.pending.pop(clock, None)
        if place is not None:
            self.events[place] = replace(self.events[place], state="scheduled")
            self.pending[clock] = place

    def breakdowns(self) -> list[Event]:
        """Those delivered, in order, then those pending, in the order in which they would be delivered."""
        pending = sorted((self.events[place] for place in self.pending.values()), key=lambda event: event.delivery_order)
        return [self.events[place] for place in self.delivered] + pending

    def _next(self) -> Event:
        return min((self.events[place] for place in self.pending.values()), key=lambda event: event.delivery_order)

    def _end(self, clock: int, state: str) -> None:
        place = self.pending.pop(clock)
        self.events[place] = replace(self.events[place], state=state)

    def _schedule(self, command: Command, answer: Answer) -> None:
        index = len(self.events)
        self.pending[command.clock] = index
        event = Event(command.clock, answer.cause, answer.censored, command.now, answer.delta, answer.ticks, command.priority, index)
        self.events.append(replace(event, piece=answer.piece))
