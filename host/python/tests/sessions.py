"""One press to begin with, and random commands from a seed."""

import random

import olgaemuri as om


def press(policy=om.Policy.RETAIN_RESIDUAL, tie=om.Tie.LOWEST_CAUSE):
    """CREATE of clock 0, ten ticks to one unit of time."""
    return om.Create(clock=0, policy=policy, tie=tie, scale=10.0)


def set_rate(now, rate=0.5, cause=1):
    """SET on clock 0 of a constant rate."""
    return om.Set(clock=0, cause=cause, hazard=om.Constant(rate), now=now)


def row_9():
    """Row 9 of docs/SPECIFICATION.md: a breakdown scheduled for tick 40."""
    return [press(), set_rate(0.0), om.Reschedule(clock=0, now=0.0)]


def _hazard(source):
    rate = source.randrange(5) / 4
    pairs = [(float(end), rate) for end in range(1, source.randrange(1, 10))]
    return source.choice([om.Zero(), om.Constant(rate), om.Gompertz(rate), om.PiecewiseConstant(pairs, 0.5), om.Weibull(4 * rate)])


def likely_command(source: random.Random):
    """A command that is mostly accepted, on one of three clocks; times are halves, so that ties come. No Undo."""
    clock, cause, now = source.randrange(3), source.randrange(4), source.randrange(20) / 2
    censor = now + source.randrange(8) if source.randrange(4) == 0 else None
    priority = source.randrange(3)
    return source.choice(
        [om.Create(clock, source.choice(list(om.Policy)), source.choice(list(om.Tie)), 10.0)] * 2
        + [om.Set(clock, cause, _hazard(source), now, priority)] * 5
        + [om.Remove(clock, cause), om.Pause(clock, now), om.Deliver()]
        + [om.Reschedule(clock, now, censor, priority), om.Resume(clock, now, censor, priority)] * 2
    )


def thresholds(source: random.Random):
    """Some thresholds; there may be too few."""
    return [source.randrange(12) / 4 for _ in range(source.randrange(5, 40))]
