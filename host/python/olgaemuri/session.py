"""A session that is edited: commands one by one, undo and redo."""

from __future__ import annotations

import struct
from contextlib import contextmanager
from typing import Iterable, Iterator, Optional, Sequence, Union

from .answer import Answer
from .batch import Outcome, run, thresholds_bytes
from .choices import Refusal
from .commands import Command, Raw, Undo, check
from .engine import ClockState, Engine, Request
from .refused import Refused


class NothingToRedo(Exception):
    """No step was undone since the last command."""


class Session:
    """Recorded thresholds and the commands given so far.

    An engine stays open, and each command is given to it alone; ``queue`` and ``clocks`` tell what it holds. Rows and ``outcome`` are of
    the whole list, which is run for them. Undo is the engine's own, so what is undone is what the engine says. A step is what one undo
    takes back: one ``execute``, or all that is executed in a ``group``. Sessions share nothing, so different ones may be used in
    different threads, but one session is for one call at a time. ``thresholds`` are floats or their bytes, as ``load`` gives them;
    ``commands`` are typed: ``split`` makes them of bytes.
    """

    def __init__(
        self, thresholds: Union[bytes, Sequence[float]], commands: Iterable[Command] = (), journal_length: Optional[int] = None
    ):
        self._thresholds = [value for value, in struct.iter_unpack("<d", thresholds_bytes(thresholds))]
        self._journal_length = journal_length
        self._engine = Engine(self._thresholds, journal_length)
        self._outcome: Optional[Outcome] = None
        self._list: list[Command] = []  # every command accepted, Undo among them
        self._done: list[list[Command]] = []  # the steps in force
        self._undone: list[list[Command]] = []  # the steps that redo gives back, the next one last
        self._group: Optional[list[Command]] = None
        self.extend(commands)

    @property
    def thresholds(self) -> list[float]:
        """The recorded thresholds."""
        return list(self._thresholds)

    @property
    def commands(self) -> list[Command]:
        """Every command accepted so far, in order, Undo among them."""
        return list(self._list)

    @property
    def outcome(self) -> Outcome:
        """What the engine says to the whole list."""
        if self._outcome is None:
            self._outcome = run(self._list, self._thresholds, self._journal_length)
        return self._outcome

    def queue(self) -> list[Request]:
        """The events that are scheduled, in the order in which Deliver would take them."""
        return self._engine.queue()

    def clocks(self) -> list[ClockState]:
        """The clocks that are present with their causes, by ascending number."""
        return self._engine.clocks()

    @property
    def draws(self) -> int:
        """How many thresholds the commands in force have drawn."""
        return self._engine.draw_position

    def execute(self, command: Command) -> Answer:
        """Gives a command to the engine and returns its answer. Raises ``Refused`` where it is refused; then nothing has changed.

        ``Undo`` is not taken here: ``undo`` knows of steps.
        """
        return self.extend([command])[0]

    def extend(self, commands: Iterable[Command]) -> list[Answer]:
        """Executes several commands, each a step of its own. One refused refuses all of them."""
        if isinstance(commands, (bytes, bytearray, memoryview)):
            raise TypeError("a session executes typed commands, not bytes: `split` makes them of bytes")
        commands = list(commands)
        for command in commands:
            check(command)
            if isinstance(command, (Undo, Raw)):
                raise TypeError(f"a session executes typed commands other than Undo, not {command!r}")
        answers = self._given(commands)
        if commands:
            self._undone.clear()
        for command in commands:
            if self._group is None:
                self._done.append([command])
            else:
                self._group.append(command)
        return answers

    @contextmanager
    def group(self) -> Iterator[None]:
        """What is executed inside is one step for undo and redo. Where an exception leaves it, the session is as it was before."""
        if self._group is not None:
            raise RuntimeError("a group is open already")
        before = len(self._list), list(self._undone)
        self._group = step = []
        try:
            yield
        except BaseException:
            length, self._undone = before
            self._engine.undo_last(len(self._list) - length)
            del self._list[length:]
            self._outcome = None
            raise
        else:
            if step:
                self._done.append(step)
        finally:
            self._group = None

    @property
    def can_undo(self) -> bool:
        """Whether there is a step to take back."""
        return bool(self._done) and self._group is None

    @property
    def can_redo(self) -> bool:
        """Whether there is a step to give back."""
        return bool(self._undone) and self._group is None

    @property
    def next_undo(self) -> list[Command]:
        """The commands that ``undo`` would take back."""
        return list(self._done[-1]) if self._done else []

    @property
    def next_redo(self) -> list[Command]:
        """The commands that ``redo`` would give back."""
        return list(self._undone[-1]) if self._undone else []

    def undo(self) -> list[Command]:
        """Takes the last step back and returns its commands. Raises ``Refused`` by 12 where there is none."""
        self._outside()
        if not self._done:
            raise Refused(Refusal.NOTHING_APPLIED, Undo())
        count = self._engine.undo_last(len(self._done[-1]))
        self._keep([Undo()] * count)
        self._undone.append(self._done.pop())
        return self.next_redo

    def redo(self) -> list[Answer]:
        """Gives the step last undone again and returns its answers, which are those that it had before, to the last bit."""
        self._outside()
        if not self._undone:
            raise NothingToRedo("there is no step to redo")
        answers = self._given(self._undone[-1])
        self._done.append(self._undone.pop())
        return answers

    def answer_rows(self) -> list[dict]:
        """A row for each command with its answer."""
        return self.outcome.answer_rows()

    def event_rows(self) -> list[dict]:
        """A row for each event that a command in force scheduled."""
        return self.outcome.event_rows()

    def breakdown_rows(self) -> list[dict]:
        """A row for each event delivered, then for each one still scheduled."""
        return self.outcome.breakdown_rows()

    def _outside(self) -> None:
        if self._group is not None:
            raise RuntimeError("undo and redo take whole steps: close the group first")

    def _given(self, commands: list[Command]) -> list[Answer]:
        """Gives these to the engine and keeps them, if none is refused."""
        given = [command.to_bytes() for command in commands]
        answers: list[Answer] = []
        for command, bytes_given in zip(commands, given):
            answer = self._engine.execute_raw(bytes_given)
            if answer.refusal is not None:
                self._engine.undo_last(len(answers))
                raise Refused(answer.refusal, command)
            answers.append(answer)
        self._keep(commands)
        return answers

    def _keep(self, commands: list[Command]) -> None:
        self._list += commands
        self._outcome = None
