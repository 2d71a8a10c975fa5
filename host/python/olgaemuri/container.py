"""Sessions as bytes, as `olgaemuri convert --to bytes` writes them (docs/SESSION-FORMAT.md)."""

from __future__ import annotations

import struct
from pathlib import Path
from typing import NamedTuple, Optional, Union

from .batch import Outcome, run
from .layout import THRESHOLD_BYTES

_MAGIC = b"OLGAEMU\x01"
_NO_LENGTH = 2**64 - 1


class Loaded(NamedTuple):
    """A session's parts, as the engine takes them."""

    commands: bytes
    thresholds: bytes
    journal_length: Optional[int]

    def run(self) -> Outcome:
        """Gives the session to the engine."""
        return run(self.commands, self.thresholds, self.journal_length)


def loads(container: bytes) -> Loaded:
    """The session with these bytes. ValueError where they are none."""
    if len(container) < 32 or container[:8] != _MAGIC:
        raise ValueError("these bytes are no session: they do not begin as one")
    journal, commands, thresholds = struct.unpack_from("<3Q", container, 8)
    if len(container) != 32 + commands + thresholds or thresholds % THRESHOLD_BYTES:
        raise ValueError("these bytes are no session: the lengths in the head are not theirs")
    body = container[32:]
    return Loaded(body[:commands], body[commands:], None if journal == _NO_LENGTH else journal)


def load(file: Union[str, Path]) -> Loaded:
    """The session in a file."""
    return loads(Path(file).read_bytes())
