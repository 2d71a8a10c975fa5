"""What the library returns of an engine's state. tests/test_header.py holds the fields to the C header."""

from ctypes import Structure, c_bool, c_double, c_int32, c_uint8, c_uint32, c_uint64

from .layout import MAX_PAIRS


class Counts(Structure):
    """What a state counts."""

    _fields_ = [(name, c_uint64) for name in ("queued", "requests_made", "draw_position", "applied_length")]


class Request(Structure):
    """A queued request."""

    _fields_ = [
        ("found", c_bool), ("clock", c_uint64), ("priority", c_int32), ("index", c_uint64), ("ticks_low", c_uint64),
        ("ticks_high", c_uint64),
    ]


class Clock(Structure):
    """A clock."""

    _fields_ = [
        ("found", c_bool), ("has_entity", c_bool), ("is_active", c_bool), ("has_event", c_bool), ("has_winner", c_bool),
        ("policy", c_uint8), ("tie", c_uint8), ("winner_piece", c_uint8), ("generation", c_uint32), ("winner_cause", c_uint32),
        ("process", c_uint64), ("entity_index", c_uint64), ("causes", c_uint64), ("event_index", c_uint64), ("scale", c_double),
        ("winner_time", c_double), ("last_update", c_double),
    ]


class Cause(Structure):
    """A cause of a clock."""

    _fields_ = [
        ("found", c_bool), ("kind", c_uint8), ("cause", c_uint32), ("priority", c_uint32), ("pairs", c_uint64), ("rate", c_double),
        ("accumulated", c_double), ("threshold", c_double), ("interval_start", c_double), ("ends", c_double * MAX_PAIRS),
        ("rates", c_double * MAX_PAIRS),
    ]
