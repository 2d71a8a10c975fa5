"""One run of a list of commands by a newly opened engine."""

from __future__ import annotations

import struct
from dataclasses import dataclass, field
from typing import Iterable, Optional, Sequence, Union

from . import library
from .answer import Answer
from .choices import Refusal
from .commands import Command, Raw, Undo, check, split
from .layout import ANSWER_BYTES, RESULT_BYTES, THRESHOLD_BYTES
from .ledger import Event, Ledger


@dataclass
class Step:
    """An input with its answer."""

    command: Union[Command, Raw]
    answer: Answer
    clock: Optional[int]  # that it names or, for an accepted Deliver, whose event is delivered
    applied: bool = False  # accepted, no Undo, and not undone later
    undone_by: Optional[int] = None  # the number of the Undo that took it back

    def row(self, number: int) -> dict:
        """The step as a row; what does not apply is None."""
        answer = self.answer
        event = answer.event
        return {
            "no": number,
            "command": self.command.name,
            "clock": self.clock,
            "now": getattr(self.command, "now", None),
            "number": answer.number,
            "refusal": answer.refusal.meaning if answer.refusal else None,
            "event": event,
            "censored": answer.censored,
            "withdrawn": answer.withdrawn,
            "cause": answer.cause if event else None,
            "delta": answer.delta if event else None,
            "ticks": answer.ticks if event else None,
            "piece": answer.piece if event and not answer.censored else None,
            "applied": self.applied,
            "undone_by": self.undone_by,
        }


@dataclass
class Outcome:
    """What a run gave."""

    end: Optional[Refusal]  # why it ended before the list's end
    bytes_read: int
    steps: list[Step]
    journal: bytes = field(repr=False)
    events: list[Event] = field(default_factory=list)  # all that the applied commands scheduled
    breakdowns: list[Event] = field(default_factory=list)  # those delivered, then those pending

    @property
    def answers(self) -> list[Answer]:
        """The answers, in order."""
        return [step.answer for step in self.steps]

    @property
    def applied(self) -> list[Command]:
        """The commands in force: accepted and not undone."""
        return [step.command for step in self.steps if step.applied]

    @property
    def pending(self) -> list[Event]:
        """The events that are scheduled, in the order in which Deliver would take them."""
        return [event for event in self.breakdowns if event.state == "scheduled"]

    def answer_rows(self) -> list[dict]:
        """A row for each command with its answer."""
        return [step.row(number) for number, step in enumerate(self.steps, 1)]

    def event_rows(self) -> list[dict]:
        """A row for each event that a command in force scheduled, withdrawn ones among them."""
        return [event.row() for event in self.events]

    def breakdown_rows(self) -> list[dict]:
        """A row for each event delivered, in order, then for each one still scheduled."""
        return [event.row() for event in self.breakdowns]


def thresholds_bytes(thresholds: Union[bytes, Sequence[float]]) -> bytes:
    """The bytes of thresholds, which are floats or their bytes already."""
    if not isinstance(thresholds, (bytes, bytearray, memoryview)):
        values = [float(threshold) for threshold in thresholds]
        return struct.pack(f"<{len(values)}d", *values)
    if memoryview(thresholds).nbytes % THRESHOLD_BYTES:
        raise ValueError("the thresholds' bytes are no multiple of 8")
    return bytes(thresholds)


def commands_bytes(commands: Union[bytes, Iterable[Union[Command, Raw]]]) -> bytes:
    """The bytes of commands, which are typed or bytes already."""
    if isinstance(commands, (bytes, bytearray, memoryview)):
        return bytes(commands)
    commands = list(commands)
    for command in commands:
        check(command)
    return b"".join(command.to_bytes() for command in commands)


def run(
    commands: Union[bytes, Iterable[Union[Command, Raw]]], thresholds: Union[bytes, Sequence[float]], journal_length: Optional[int] = None
) -> Outcome:
    """Opens an engine and gives it the commands one after another.

    ``commands`` are typed or bytes, ``thresholds`` floats or their bytes. The journal has room for every command; with a
    ``journal_length`` it has room for so many bytes of commands in force. Refusals are values here: ``answers`` has them. The same list
    gives the same outcome.
    """
    commands, thresholds = commands_bytes(commands), thresholds_bytes(thresholds)
    if journal_length is not None and journal_length < 0:
        raise ValueError("a journal's length is not below 0")
    inputs = list(split(commands))
    # more than the list can fill is never needed
    length = len(commands) if journal_length is None else min(journal_length, len(commands))
    number, journal, answers, result = library.call(commands, thresholds, length, ANSWER_BYTES * len(inputs), RESULT_BYTES)
    answered, bytes_read = struct.unpack("<2Q", result)
    parts = (answers[ANSWER_BYTES * place:ANSWER_BYTES * (place + 1)] for place in range(answered))
    return _outcome(Refusal(number) if number else None, bytes_read, inputs, [Answer.from_bytes(part) for part in parts], journal)


def _outcome(end, bytes_read: int, inputs: list, answers: list[Answer], journal: bytes) -> Outcome:
    ledger, steps, standing = Ledger(), [], []
    for number, (command, answer) in enumerate(zip(inputs, answers), 1):
        step = Step(command, answer, getattr(command, "clock", None))
        if answer.refusal is None and isinstance(command, Undo):
            undone = standing.pop()
            undone.applied, undone.undone_by = False, number
            ledger.revert()
        elif answer.refusal is None:
            step.clock = ledger.enter(command, answer)
            step.applied = True
            standing.append(step)
        steps.append(step)
    return Outcome(end, bytes_read, steps, journal, ledger.events, ledger.breakdowns())
