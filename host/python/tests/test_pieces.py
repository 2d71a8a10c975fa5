"""The piece of a rate curve in which an event falls: in answers, in what an engine holds, in rows."""

import unittest

import olgaemuri as om
from tests.sessions import press

# Rate 1 up to 2, none up to 5, 0.5 from there on.
CURVE = om.PiecewiseConstant([(2.0, 1.0), (5.0, 0.0)], 0.5)


def scheduled(hazard, threshold, censor=None):
    """An engine with one cause that has drawn this threshold, and the answer to its Reschedule."""
    engine = om.Engine([threshold, 1.0])
    engine.execute(press()), engine.execute(om.Set(0, 1, hazard, 0.0))
    return engine, engine.execute(om.Reschedule(0, 0.0, censor))


class Answers(unittest.TestCase):
    def test_worked_numbers(self):
        eight = om.PiecewiseConstant([(float(end), 1.0) for end in range(1, 9)], 1.0)
        cases = [
            (CURVE, 1.0, 1.0, 0), (CURVE, 2.0, 2.0, 0), (CURVE, 2.0000000000000004, 5.000000000000001, 2), (CURVE, 2.5, 6.0, 2),
            (CURVE, 0.0, 0.0, 0), (om.PiecewiseConstant([], 0.5), 2.0, 4.0, 0), (eight, 7.5, 7.5, 7), (eight, 8.5, 8.5, 8),
            (om.Constant(0.5), 2.0, 4.0, 0), (om.Gompertz(0.5), 2.0, 4.0, 0), (om.Weibull(4.0), 4.0, 8.0, 0),
        ]
        for hazard, threshold, delta, piece in cases:
            engine, answer = scheduled(hazard, threshold)
            self.assertEqual((answer.event, answer.delta, answer.piece), (True, delta, piece), (hazard, threshold))
            self.assertEqual(engine.clock(0).winner_piece, piece)
            self.assertEqual(engine.queue()[0].piece, piece)

    def test_bytes(self):
        answer = bytearray(om.ANSWER_BYTES)
        answer[1], answer[32] = 1, 255
        self.assertEqual((len(answer), om.Answer.from_bytes(bytes(answer)).piece), (40, 255))

    def test_censored(self):
        engine, answer = scheduled(CURVE, 2.5, 5.5)
        self.assertEqual((answer.censored, answer.piece, engine.clock(0).winner_piece), (True, 0, 0))


class Winners(unittest.TestCase):
    def test_kept_until_it_is_delivered(self):
        engine, _ = scheduled(CURVE, 2.5)
        for command in [om.Set(0, 1, om.Zero(), 1.0), om.Remove(0, 1), om.Pause(0, 1.0)]:
            self.assertIsNone(engine.execute(command).refusal)
            self.assertEqual(engine.clock(0).winner_piece, 2)
            engine.undo()
            self.assertEqual(engine.clock(0).winner_piece, 2)
        delivered = engine.execute(om.Deliver())
        self.assertEqual((delivered.delta, delivered.piece, engine.clock(0).winner_piece), (6.0, 2, 0))

    def test_the_curve_begins_anew(self):
        engine, _ = scheduled(CURVE, 2.5)
        engine.execute(om.Pause(0, 1.0))
        resumed = engine.execute(om.Resume(0, 3.0))
        self.assertEqual((resumed.delta, resumed.piece), (1.5, 0))


class Rows(unittest.TestCase):
    def test_rows(self):
        commands = [press(), om.Set(0, 1, CURVE, 0.0), om.Reschedule(0, 0.0), om.Deliver(), om.Set(0, 1, CURVE, 7.0)]
        outcome = om.run(commands + [om.Resume(0, 7.0, 7.5)], [2.5, 1.0])
        self.assertEqual([row["piece"] for row in outcome.answer_rows()], [None, None, 2, 2, None, None])
        self.assertEqual([row["piece"] for row in outcome.event_rows()], [2, None])
        self.assertEqual([row["piece"] for row in outcome.breakdown_rows()], [2, None])


if __name__ == "__main__":
    unittest.main()
