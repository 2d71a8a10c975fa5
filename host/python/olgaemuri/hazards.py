"""Hazards: how fast a cause uses up its threshold over time."""

from __future__ import annotations

import struct
from dataclasses import dataclass
from typing import NamedTuple, Sequence, Union

from .layout import MAX_PAIRS


class Pair(NamedTuple):
    """One piece of a PiecewiseConstant: its rate holds before its end, counted from the start of the interval."""

    end: float
    rate: float


@dataclass(frozen=True)
class Zero:
    """No event ever comes from this cause."""


@dataclass(frozen=True)
class Constant:
    """The same rate at all times. A negative rate counts as 0."""

    rate: float


@dataclass(frozen=True)
class Gompertz:
    """Gompertz with b = 0, which is the constant rate eta."""

    eta: float


@dataclass(frozen=True)
class PiecewiseConstant:
    """Rates by pieces, at most eight by ascending end, and one after the last piece."""

    pairs: Sequence[Pair]
    trailing: float

    def __post_init__(self):
        object.__setattr__(self, "pairs", tuple(Pair(*pair) for pair in self.pairs))


@dataclass(frozen=True)
class Weibull:
    """Weibull with shape 2: wear whose hazard is proportional to the age, counted from the start of the interval.

    A threshold of 1 is used up at the age ``scale``, one of 4 at twice that age. A scale at most 0 is as Zero; one
    above 0 and below 2^-40 is refused by 5.
    """

    scale: float


Hazard = Union[Zero, Constant, Gompertz, PiecewiseConstant, Weibull]


def to_fields(hazard: Hazard) -> tuple[int, float, Sequence[Pair]]:
    """The fields kind, first and pairs of SET."""
    if isinstance(hazard, Zero):
        return 0, 0.0, ()
    if isinstance(hazard, Constant):
        return 1, hazard.rate, ()
    if isinstance(hazard, Gompertz):
        return 2, hazard.eta, ()
    if isinstance(hazard, Weibull):
        return 4, hazard.scale, ()
    return 3, hazard.trailing, hazard.pairs


def from_fields(kind: int, first: float, count: int, pairs: Sequence[Pair]) -> Hazard:
    """The hazard with these fields. ValueError where no hazard has them; the engine refuses such fields by 4 or 6."""
    used = min(count, MAX_PAIRS) if kind == 3 else 0
    blank = all(_is_blank(value) for pair in pairs[used:] for value in pair)
    if kind > 4 or count != used or not blank or (kind == 0 and not _is_blank(first)):
        raise ValueError("no hazard has these fields")
    if kind == 3:
        return PiecewiseConstant(pairs[:used], first)
    return Zero() if kind == 0 else {1: Constant, 2: Gompertz, 4: Weibull}[kind](first)


def _is_blank(value: float) -> bool:
    """Whether all bits are zero."""
    return struct.pack("<d", value) == bytes(8)
