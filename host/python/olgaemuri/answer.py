"""The engine's answer to one command, from its 40 bytes."""

from __future__ import annotations

import struct
from dataclasses import dataclass
from typing import Optional

from .choices import Refusal


@dataclass(frozen=True)
class Answer:
    """What the engine says to one command. What does not apply is False or zero; a refusal has nothing else."""

    refusal: Optional[Refusal] = None
    event: bool = False  # an event was scheduled, or delivered
    censored: bool = False  # that event is the end of observation; its cause is NO_CAUSE
    withdrawn: bool = False  # an event that was pending was withdrawn
    cause: int = 0
    delta: float = 0.0  # how long after the command's time it comes; for Deliver, after the time at which it was scheduled
    ticks: int = 0
    piece: int = 0  # of its cause's rate curve in which it falls: pairs from 0, then the trailing rate; else 0

    @property
    def number(self) -> int:
        """The refusal's number, or 0."""
        return int(self.refusal or 0)

    @classmethod
    def from_bytes(cls, answer: bytes) -> Answer:
        """The answer with these 40 bytes, of which the last seven are not used."""
        number, event, censored, withdrawn, cause, delta, low, high, piece = struct.unpack("<4BId2QB7x", answer)
        refusal = Refusal(number) if number else None
        return cls(refusal, bool(event), bool(censored), bool(withdrawn), cause, delta, high << 64 | low, piece)
