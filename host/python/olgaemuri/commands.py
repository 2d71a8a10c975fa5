"""Typed commands, and their bytes.

A command may have values that the engine refuses (clock 16, a time below 0); what does not fit into its field at all (clock 256) is a
ValueError when its bytes are asked for.
"""

from __future__ import annotations

import struct
from dataclasses import dataclass
from typing import Iterator, Optional, Union

from . import hazards, layout
from .choices import Policy, Tie
from .hazards import Hazard, Pair


def _packed(form: str, *values) -> bytes:
    try:
        return struct.pack("<" + form, *values)
    except (struct.error, OverflowError) as error:
        raise ValueError(f"a value does not fit into its field: {error}") from None


def check(command) -> None:
    """TypeError where this is no command. An int would pass for one, as it has ``to_bytes`` too."""
    if not isinstance(command, (_Command, Raw)):
        raise TypeError(f"expected a command as Create(...) or Set(...), not {command!r}")


class _Command:
    code: int

    def operands(self) -> bytes:
        """The bytes behind the code."""
        return b""

    def to_bytes(self) -> bytes:
        """The command's bytes, as many as its width."""
        return bytes([self.code]) + self.operands()

    @property
    def name(self) -> str:
        """The command's word, as "create"."""
        return type(self).__name__.lower()


@dataclass(frozen=True)
class Create(_Command):
    """Makes a clock. ``scale`` is ticks for one unit of time; ``process`` and ``entity`` (index, generation) are only kept."""

    clock: int
    policy: Policy
    tie: Tie = Tie.LOWEST_CAUSE
    scale: float = 1.0
    process: int = 0
    entity: Optional[tuple[int, int]] = None
    code = layout.CREATE

    def operands(self) -> bytes:
        index, generation = self.entity or (0, 0)
        has = self.entity is not None
        return _packed("BQBBdBQI", self.clock, self.process, self.policy, self.tie, self.scale, has, index, generation)


@dataclass(frozen=True)
class Set(_Command):
    """Adds a cause to a clock or changes its hazard. Of causes at the same time the higher priority wins, where the tie says so."""

    clock: int
    cause: int
    hazard: Hazard
    now: float
    priority: int = 0
    code = layout.SET

    def __post_init__(self):
        kinds = (hazards.Zero, hazards.Constant, hazards.Gompertz, hazards.PiecewiseConstant, hazards.Weibull)
        if not isinstance(self.hazard, kinds):
            raise TypeError(f"a hazard is Zero, Constant, Gompertz, PiecewiseConstant or Weibull, not {self.hazard!r}")

    def operands(self) -> bytes:
        kind, first, pairs = hazards.to_fields(self.hazard)
        # more than eight pairs are refused by their count; only eight have a place
        head = _packed("BIIBddB", self.clock, self.cause, self.priority, kind, first, self.now, min(len(pairs), 255))
        places = [value for pair in pairs[: layout.MAX_PAIRS] for value in pair]
        return head + _packed("16d", *places, *[0.0] * (2 * layout.MAX_PAIRS - len(places)))


@dataclass(frozen=True)
class Remove(_Command):
    """Takes a cause off a clock. A cause that is absent may be removed too."""

    clock: int
    cause: int
    code = layout.REMOVE

    def operands(self) -> bytes:
        return _packed("BI", self.clock, self.cause)


@dataclass(frozen=True)
class Reschedule(_Command):
    """Finds the clock's earliest event from now on and schedules it in place of one that was pending.

    Nothing counts as used up since the last SET, PAUSE or RESUME. An event after ``censor`` is scheduled as censored. Of events at the
    same tick the one with the higher priority is delivered first.
    """

    clock: int
    now: float
    censor: Optional[float] = None
    priority: int = 0
    code = layout.RESCHEDULE

    def operands(self) -> bytes:
        censor = 0.0 if self.censor is None else self.censor
        return _packed("BdBdi", self.clock, self.now, self.censor is not None, censor, self.priority)


@dataclass(frozen=True)
class Pause(_Command):
    """Stops a clock: its event is withdrawn, and what was used up of the thresholds is counted."""

    clock: int
    now: float
    code = layout.PAUSE

    def operands(self) -> bytes:
        return _packed("Bd", self.clock, self.now)


@dataclass(frozen=True)
class Resume(Reschedule):
    """Goes on after a pause, as Reschedule does."""

    code = layout.RESUME


@dataclass(frozen=True)
class Deliver(_Command):
    """Takes the earliest pending event out of the queue; its clock stops. A Set gives the cause its next threshold."""

    code = layout.DELIVER


@dataclass(frozen=True)
class Undo(_Command):
    """Reverts the last applied command."""

    code = layout.UNDO


@dataclass(frozen=True)
class Raw:
    """Bytes that no command of these types has. The engine refuses them; where no whole command begins, the run ends."""

    bytes: bytes
    name = "raw"

    def to_bytes(self) -> bytes:
        """The bytes."""
        return self.bytes


Command = Union[Create, Set, Remove, Reschedule, Pause, Resume, Deliver, Undo]


def _optional(has: int, value, is_blank: bool):
    """A value behind its has-byte."""
    if has > 1 or (has == 0 and not is_blank):
        raise ValueError("a has-byte is off its list, or an unused field is not zero")
    return value if has else None


def _create(operands: bytes) -> Create:
    clock, process, policy, tie, scale, has, index, generation = struct.unpack("<BQBBdBQI", operands)
    entity = _optional(has, (index, generation), (index, generation) == (0, 0))
    return Create(clock, Policy(policy), Tie(tie), scale, process, entity)


def _set(operands: bytes) -> Set:
    clock, cause, priority, kind, first, now, count = struct.unpack_from("<BIIBddB", operands)
    pairs = [Pair(*pair) for pair in struct.iter_unpack("<dd", operands[struct.calcsize("<BIIBddB"):])]
    return Set(clock, cause, hazards.from_fields(kind, first, count, pairs), now, priority)


def _reschedule(kind: type, operands: bytes) -> Reschedule:
    clock, now, has, censor, priority = struct.unpack("<BdBdi", operands)
    return kind(clock, now, _optional(has, censor, struct.pack("<d", censor) == bytes(8)), priority)


def from_bytes(command: bytes) -> Command:
    """The command with these bytes, which are as many as its width. ValueError where no command of these types has them."""
    code, operands = command[0], command[1:]
    if code == layout.CREATE:
        return _create(operands)
    if code == layout.SET:
        return _set(operands)
    if code == layout.REMOVE:
        return Remove(*struct.unpack("<BI", operands))
    if code in (layout.RESCHEDULE, layout.RESUME):
        return _reschedule(Reschedule if code == layout.RESCHEDULE else Resume, operands)
    if code == layout.PAUSE:
        return Pause(*struct.unpack("<Bd", operands))
    return Deliver() if code == layout.DELIVER else Undo()


def split(commands: bytes) -> Iterator[Union[Command, Raw]]:
    """Cuts a list into commands as the engine does. Where no whole command begins, all that is left is one Raw."""
    place = 0
    while place < len(commands):
        width = layout.WIDTHS.get(commands[place], len(commands))
        front = commands[place:place + width]
        if len(front) < width or commands[place] not in layout.WIDTHS:
            yield Raw(commands[place:])
            return
        try:
            yield from_bytes(front)
        except ValueError:
            yield Raw(front)
        place += width
