"""Wear that grows in a straight line: waits, what is used up, scales that never fail, refusals."""

import math
import random
import struct
import unittest

import olgaemuri as om
from tests.sessions import press, set_rate

LEAST, MOST = 2.0**-40, 2.0**40


def rails(scale, now=0.0):
    """SET on clock 0 of a cause that wears."""
    return om.Set(clock=0, cause=1, hazard=om.Weibull(scale), now=now)


def below(value):
    """The float just below one above 0."""
    return struct.unpack("<d", struct.pack("<Q", struct.unpack("<Q", struct.pack("<d", value))[0] - 1))[0]


class Wear(unittest.TestCase):
    def test_waits(self):
        source = random.Random(20261117)
        for _ in range(2000):
            scale, threshold = math.ldexp(source.uniform(1, 2), source.randrange(-40, 40)), source.expovariate(1.0)
            answer = om.run([press(), rails(scale), om.Reschedule(0, 0.0)], [threshold]).answers[2]
            self.assertEqual((answer.cause, answer.delta), (1, scale * math.sqrt(threshold)))

    def test_what_is_used_up(self):
        session = om.Session([4.0, 3.0], [press(), rails(400.0), set_rate(0.0, 0.0025, cause=2), om.Reschedule(0, 0.0)])
        self.assertEqual(session.queue()[0].time, 800.0)
        session.execute(om.Pause(0, 200.0))
        worn, hose = session.clocks()[0].causes
        self.assertEqual((worn.hazard, worn.accumulated, worn.threshold), (om.Weibull(400.0), 0.25, 4.0))
        self.assertEqual((hose.hazard, hose.accumulated), (om.Constant(0.0025), 0.5))
        session.undo()
        self.assertEqual((session.queue()[0].time, session.clocks()[0].causes[0].accumulated), (800.0, 0.0))

    def test_scales_at_most_0_never_fail(self):
        for scale in [0.0, -0.0, -5e-324, -400.0, -MOST]:
            engine = om.Engine([1.0])
            engine.execute(press())
            self.assertIsNone(engine.execute(rails(scale)).refusal)
            self.assertFalse(engine.execute(om.Reschedule(0, 0.0)).event)
            kept = engine.clock(0).causes[0].hazard
            self.assertEqual(struct.pack("<d", kept.scale), struct.pack("<d", scale))

    def test_refusals(self):
        for scale in [5e-324, below(LEAST), MOST * 2, math.inf, -math.inf, math.nan]:
            session = om.Session([1.0], [press()])
            with self.assertRaises(om.Refused) as caught:
                session.execute(rails(scale))
            self.assertIs(caught.exception.refusal, om.Refusal.OUT_OF_RANGE)
            self.assertRegex(str(caught.exception), r"a Weibull scale is above 0 and below 2\^-40$")
        for scale in [LEAST, MOST]:
            self.assertIsNone(om.run([press(), rails(scale)], [1.0]).answers[1].refusal)
        for at, byte, number in [(10, 5, 4), (27, 1, 6), (28, 1, 6), (155, 0x80, 6)]:
            command = bytearray(rails(400.0).to_bytes())
            command[at] = byte
            self.assertEqual(om.run(press().to_bytes() + bytes(command), [1.0]).answers[1].number, number)


if __name__ == "__main__":
    unittest.main()
