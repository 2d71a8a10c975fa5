"""Two machines, an edit of two commands, undo and redo. Prints the breakdowns after each.

Run from the repository's root: python3 host/python/examples/press_shop.py
"""

import sys
from pathlib import Path

sys.path.insert(0, str(Path(__file__).resolve().parents[1]))

import olgaemuri as om  # noqa: E402

PUNCH, PRESS = 0, 1
TOOL_BREAK, RAM_SEAL = 1, 2


def show(what, rows):
    """The rows in columns; `pandas.DataFrame(rows)` would do as well."""
    print(what)
    for row in rows:
        print("  clock {clock}  cause {cause}  at {time:g}  tick {ticks}  {state}".format(**row))


session = om.Session([1.5, 0.75, 2.0])  # recorded thresholds: exponential, mean 1
session.extend(
    [
        om.Create(clock=PUNCH, policy=om.Policy.RETAIN_RESIDUAL, scale=60.0),
        om.Create(clock=PRESS, policy=om.Policy.RESTART, scale=60.0),
        om.Set(clock=PUNCH, cause=TOOL_BREAK, hazard=om.Constant(0.05), now=0.0),
        om.Set(clock=PRESS, cause=RAM_SEAL, hazard=om.PiecewiseConstant([(8.0, 0.0)], trailing=0.25), now=0.0),
        om.Reschedule(clock=PUNCH, now=0.0),
        om.Reschedule(clock=PRESS, now=0.0),
    ]
)
show("Planned", session.breakdown_rows())

with session.group():  # one step: the punch runs faster from hour 10 on
    session.execute(om.Set(clock=PUNCH, cause=TOOL_BREAK, hazard=om.Constant(0.1), now=10.0))
    session.execute(om.Reschedule(clock=PUNCH, now=10.0))
show("Faster from hour 10 on", session.breakdown_rows())

session.undo()
show("Undone", session.breakdown_rows())

session.redo()
session.execute(om.Deliver())
show("Redone, and the first breakdown has come", session.breakdown_rows())

try:
    session.execute(om.Pause(clock=7, now=12.0))
except om.Refused as refused:
    print(refused)
