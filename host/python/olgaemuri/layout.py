"""Numbers of the engine's bytes: limits, widths, codes. tests/test_header.py holds them to the C header."""

CLOCKS = 16
MAX_CAUSES = 8
MAX_PAIRS = 8

THRESHOLD_BYTES = 8
ANSWER_BYTES = 40
RESULT_BYTES = 16

# A state: rows of eight words and rows of eight floats.
ROW = 8
STATE_WORD_ROWS = 177
STATE_FLOAT_ROWS = 400

# The cause of a censored event. No cause that is set may have this number.
NO_CAUSE = 0xFFFFFFFF

CREATE, SET, REMOVE, RESCHEDULE, PAUSE, RESUME, DELIVER, UNDO = range(1, 9)

# The bytes of a command by its code, the code byte among them.
WIDTHS = {CREATE: 33, SET: 156, REMOVE: 6, RESCHEDULE: 23, PAUSE: 10, RESUME: 23, DELIVER: 1, UNDO: 1}
