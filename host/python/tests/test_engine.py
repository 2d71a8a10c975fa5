"""An engine that stays open gives what a run gives, command for command, and tells what it holds."""

import doctest
import random
import unittest

import olgaemuri as om
from olgaemuri import batch, engine as engines
from tests.sessions import likely_command, row_9, set_rate, thresholds


def looked_at(engine):
    """All that an engine tells."""
    return engine.clocks(), engine.queue_as_made(), engine.requests_made, engine.draw_position, engine.applied_bytes


class Answers(unittest.TestCase):
    def test_those_of_a_run(self):
        source, accepted = random.Random(91), 0
        for turn in range(150):
            drawn, length = thresholds(source), source.randrange(2500) if turn % 2 else None
            commands = [om.Undo() if source.randrange(6) == 0 else likely_command(source) for _ in range(50)]
            engine, outcome = om.Engine(drawn, length), om.run(commands, drawn, length)
            self.assertEqual(repr([engine.execute(command) for command in commands]), repr(outcome.answers))
            self.assertEqual(engine.applied, outcome.applied)
            self.assertEqual(engine.requests_made, len(outcome.events))
            queue, pending = engine.queue(), outcome.pending
            self.assertEqual([request.delivery_order for request in queue], [event.delivery_order for event in pending])
            told = [(event.clock, event.time, event.piece) for event in pending]
            self.assertEqual([(request.clock, request.time, request.piece) for request in queue], told)
            accepted += len(outcome.applied)
        self.assertGreater(accepted, 1000)

    def test_bytes_that_are_no_command(self):
        engine = om.Engine([])
        for given, number in [(b"", 3), (b"\x09", 2), (b"\x05\x00", 3), (b"\x07\x01", 11), (b"\x08", 12)]:
            self.assertEqual(engine.execute_raw(given).number, number)
        with self.assertRaisesRegex(TypeError, "expected a command"):
            engine.execute(b"\x07")
        self.assertEqual((engine.undo().number, engine.undo_last(3), engine.applied), (12, 0, []))


class Journal(unittest.TestCase):
    def test_it_grows(self):
        engine = om.Engine([2.0, 1.0])
        for command in row_9() + [om.Reschedule(0, 0.0)] * 1000:
            self.assertIsNone(engine.execute(command).refusal)
        anew = om.Engine([2.0, 1.0])
        for command in engine.applied:
            anew.execute(command)
        self.assertEqual(looked_at(anew), looked_at(engine))
        self.assertGreater(len(engine.applied_bytes), 4 * engines.FIRST_LENGTH)

    def test_14_comes_where_it_is_due(self):
        for length in [0, 32, 33, 55, 56, 4096, 4097, 5000, 9000]:
            engine, accepted = om.Engine([], length), 0
            self.assertEqual(engine.execute(row_9()[0]).refusal is None, length >= 33)
            while engine.execute(om.Reschedule(0, 0.0)).refusal is None:
                accepted += 1
            self.assertEqual(accepted, max(0, length - 33) // 23)
            self.assertEqual(engine.execute(om.Reschedule(0, 0.0)).number, 14 if length >= 33 else 9)
        with self.assertRaises(ValueError):
            om.Engine([], -1)


class State(unittest.TestCase):
    def test_every_field(self):
        engine = om.Engine([2.0, 4.0])
        hazard = om.PiecewiseConstant([(2.0, 0.25), (3.0, 0.0)], 0.5)
        engine.execute(om.Create(15, om.Policy.RESTART, om.Tie.EXPLICIT_PRIORITY, 10.0, 7, (3, 9)))
        engine.execute(om.Set(15, 9, hazard, 1.0, 6))
        engine.execute(om.Set(15, 2, om.Zero(), 1.0))
        engine.execute(om.Reschedule(15, 1.5, 4.0, -1))
        causes = [om.CauseState(2, 0, om.Zero(), 4.0, 0.0, 1.0), om.CauseState(9, 6, hazard, 2.0, 0.0, 1.0)]
        settings = (15, 7, om.Policy.RESTART, om.Tie.EXPLICIT_PRIORITY, 10.0, (3, 9))
        expected = om.ClockState(*settings, True, (om.NO_CAUSE, 4.0), 0, 1.5, causes)
        self.assertEqual(engine.clocks(), [expected])
        self.assertEqual([engine.clock(number) for number in (-1, 0, 16)], [None] * 3)
        self.assertEqual(engine.queue(), [om.Request(15, 40, -1, 0, om.NO_CAUSE, True, 1.5, 4.0)])
        self.assertEqual((engine.draw_position, engine.requests_made), (2, 1))

    def test_several_undos_are_one(self):
        source = random.Random(92)
        for _ in range(30):
            engine, other, count = om.Engine([1.0] * 30), om.Engine([1.0] * 30), source.randrange(30)
            for command in [likely_command(source) for _ in range(40)]:
                engine.execute(command), other.execute(command)
            undone = sum(other.undo().refusal is None for _ in range(count))
            self.assertEqual(engine.undo_last(count), undone)
            self.assertEqual(looked_at(engine), looked_at(other))

    def test_added_thresholds(self):
        engine = om.Engine([2.0])
        engine.execute(row_9()[0]), engine.execute(set_rate(0.0))
        before = looked_at(engine)
        self.assertEqual(engine.execute(set_rate(0.0, cause=2)).number, 15)
        engine.push_thresholds([8.0])
        self.assertEqual(looked_at(engine), before)
        self.assertIsNone(engine.execute(set_rate(0.0, cause=2)).refusal)
        self.assertEqual([cause.threshold for cause in engine.clock(0).causes], [2.0, 8.0])


class Edits(unittest.TestCase):
    def test_a_session_gives_each_edit_alone(self):
        session, runs, run = om.Session([2.0, 1.0], row_9()), [], batch.library.call
        batch.library.call = lambda *given: runs.append(1) or run(*given)
        try:
            for _ in range(500):
                session.execute(om.Pause(0, 1.0))
                self.assertEqual(session.queue(), [])
                session.undo()
                self.assertEqual((session.queue()[0].ticks, session.draws, len(session.clocks())), (40, 1, 1))
            self.assertEqual(runs, [])
            self.assertEqual(session.outcome.pending[0].ticks, 40)
            self.assertEqual(runs, [1])
        finally:
            batch.library.call = run


def load_tests(loader, tests, pattern):
    """The example in the class's own words."""
    tests.addTests(doctest.DocTestSuite(engines))
    return tests


if __name__ == "__main__":
    unittest.main()
