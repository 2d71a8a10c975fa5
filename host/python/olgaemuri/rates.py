"""The constant rate for a breakdown on a known day."""

from __future__ import annotations

import struct

from . import library
from .choices import Refusal
from .refused import Refused


def rate_for_wait(threshold: float, wait: float) -> float:
    """The smallest constant rate, above 0 and at most 2^40, with which a threshold is used up after exactly this wait.

    ``threshold / rate`` is the wait to the last bit. Raises ``Refused`` by 24 where no float in that range does it, and by 23 where the
    threshold is not above 0 and at most 1,024 or the wait is not from 2^-40 to 2^40.

        >>> rate_for_wait(2.0, 4.0)
        0.5
        >>> rate_for_wait(1.0, 5.0)
        0.19999999999999998
    """
    number, rate = library.rate_for_wait(_float(threshold), _float(wait))
    if number:
        raise Refused(Refusal(number))
    return rate


def _float(value: float) -> float:
    """The float that a command's field would hold; a ValueError where it would hold none."""
    try:
        return struct.unpack("<d", struct.pack("<d", value))[0]
    except (struct.error, OverflowError) as error:
        raise ValueError(f"a value is no float: {error}") from None
