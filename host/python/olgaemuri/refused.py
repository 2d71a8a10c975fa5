"""Refusals as exceptions."""

from __future__ import annotations

from typing import Optional

from .choices import Refusal
from .commands import Command


class Refused(Exception):
    """The engine refused a command, and the session is as it was before; or it refused a rate, and there is no command."""

    def __init__(self, refusal: Refusal, command: Optional[Command] = None):
        super().__init__(f"refused by {int(refusal)}: {refusal.meaning}")
        self.refusal = refusal
        self.command = command

    @property
    def number(self) -> int:
        """The refusal's number."""
        return int(self.refusal)
