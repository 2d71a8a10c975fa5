"""Survival clocks with competing causes and an undo that gives every event back, run by the proved engine.

``run`` gives a list of commands to a newly opened engine and returns every answer. ``Session`` is for editing: it takes commands one by
one, raises ``Refused`` where the engine refuses one, and has undo and redo, also of several commands as one step. Rows are lists of
dicts, which ``pandas.DataFrame`` takes as they are. ``Engine`` is what stays open under it: answers with refusals among them, and all
that the state holds. ``rate_for_wait`` gives the constant rate for a breakdown on a known day.

    >>> import olgaemuri as om
    >>> session = om.Session([2.0, 1.0])     # the thresholds that causes will draw
    >>> _ = session.execute(om.Create(clock=0, policy=om.Policy.RETAIN_RESIDUAL, scale=10.0))
    >>> _ = session.execute(om.Set(clock=0, cause=1, hazard=om.Constant(0.5), now=0.0))
    >>> session.execute(om.Reschedule(clock=0, now=0.0)).ticks
    40
    >>> session.execute(om.Pause(clock=0, now=1.0)).withdrawn
    True
    >>> session.undo()
    [Pause(clock=0, now=1.0)]
    >>> [row["ticks"] for row in session.breakdown_rows()]
    [40]

What the engine does with a command, and every number, is in docs/SPECIFICATION.md.
"""

from .answer import Answer
from .batch import Outcome, Step, run
from .choices import Policy, Refusal, Tie
from .commands import Command, Create, Deliver, Pause, Raw, Remove, Reschedule, Resume, Set, Undo, split
from .container import load, loads
from .engine import CauseState, ClockState, Engine, Request
from .hazards import Constant, Gompertz, Hazard, Pair, PiecewiseConstant, Weibull, Zero
from .layout import ANSWER_BYTES, CLOCKS, MAX_CAUSES, MAX_PAIRS, NO_CAUSE
from .ledger import Event
from .rates import rate_for_wait
from .refused import Refused
from .session import NothingToRedo, Session

__all__ = [
    "ANSWER_BYTES", "Answer", "CLOCKS", "CauseState", "ClockState", "Command", "Constant", "Create", "Deliver", "Engine", "Event",
    "Gompertz", "Hazard", "MAX_CAUSES", "MAX_PAIRS", "NO_CAUSE", "NothingToRedo", "Outcome", "Pair", "Pause", "PiecewiseConstant",
    "Policy", "Raw", "Refusal", "Refused", "Remove", "Request", "Reschedule", "Resume", "Session", "Set", "Step", "Tie", "Undo",
    "Weibull", "Zero", "load", "loads", "rate_for_wait", "run", "split",
]
