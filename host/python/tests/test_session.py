"""Sessions: refusals as exceptions, undo and redo, steps of several commands."""

import doctest
import random
import struct
import unittest
from concurrent.futures import ThreadPoolExecutor

import olgaemuri as om
from tests.sessions import likely_command, press, row_9, set_rate, thresholds


def shown(session):
    """What must be the same after as many undos and redos."""
    outcome = session.outcome
    return outcome.applied, outcome.event_rows(), outcome.breakdown_rows()


def edited(source, commands):
    """A session of so many commands, refused ones left out; now and then a group."""
    session = om.Session(thresholds(source))
    refused = 0
    for _ in range(commands):
        try:
            with session.group():
                for _ in range(source.choice([1, 1, 1, 3])):
                    session.execute(likely_command(source))
        except om.Refused:
            refused += 1
    return session, refused


class Undo(unittest.TestCase):
    def test_the_press(self):
        session = om.Session([2.0, 1.0], row_9())
        before = shown(session)
        session.execute(om.Pause(0, 1.0))
        self.assertEqual(session.execute(om.Resume(0, 3.0)).ticks, 60)
        self.assertEqual(session.undo(), [om.Resume(0, 3.0)])
        self.assertEqual(session.undo(), [om.Pause(0, 1.0)])
        self.assertEqual(shown(session), before)
        self.assertEqual((session.next_redo, session.can_redo), ([om.Pause(0, 1.0)], True))
        self.assertTrue(session.redo()[0].withdrawn)
        self.assertEqual(session.redo()[0].ticks, 60)
        with self.assertRaises(om.NothingToRedo):
            session.redo()

    def test_a_draw_is_given_back(self):
        session = om.Session([2.0, 1.0], [press(), set_rate(0.0)])
        session.undo()
        session.execute(set_rate(0.0, rate=1.0))
        self.assertEqual(session.execute(om.Reschedule(0, 0.0)).delta, 2.0)

    def test_nothing_to_undo(self):
        session = om.Session([])
        self.assertFalse(session.can_undo)
        with self.assertRaises(om.Refused) as caught:
            session.undo()
        self.assertEqual((caught.exception.number, str(caught.exception)), (12, "refused by 12: there is no command to undo"))

    def test_a_command_ends_redo(self):
        session = om.Session([2.0, 1.0], row_9())
        session.undo()
        session.execute(om.Pause(0, 1.0))
        self.assertFalse(session.can_redo)

    def test_random_histories(self):
        source = random.Random(20261116)
        steps = refusals = 0
        for _ in range(150):
            session, refused = edited(source, 12)
            refusals += refused
            states = [shown(session)]
            while session.can_undo:
                session.undo()
                states.append(shown(session))
            self.assertEqual(states[-1], ([], [], []))
            steps += len(states)
            while session.can_redo:
                states.pop()
                session.redo()
                self.assertEqual(repr(shown(session)), repr(states[-1]))
        self.assertTrue(steps > 500 and refusals > 200, (steps, refusals))

    def test_redo_gives_the_same_answers(self):
        source = random.Random(7)
        for _ in range(100):
            session, _ = edited(source, 10)
            if not session.can_undo:
                continue
            count = len(session.next_undo)
            answers = session.outcome.answers[len(session.commands) - count:]
            session.undo()
            self.assertEqual(repr(session.redo()), repr(answers))


class Refused(unittest.TestCase):
    def test_the_session_is_as_before(self):
        session = om.Session([2.0, 1.0], row_9())
        session.undo()
        before, commands = shown(session), session.commands
        with self.assertRaises(om.Refused) as caught:
            session.execute(om.Pause(1, 0.0))
        self.assertIs(caught.exception.refusal, om.Refusal.CLOCK_ABSENT)
        self.assertEqual(caught.exception.command, om.Pause(1, 0.0))
        with self.assertRaises(om.Refused):
            session.extend([om.Reschedule(0, 0.0), om.Pause(1, 0.0)])
        self.assertEqual((shown(session), session.commands, session.can_redo), (before, commands, True))

    def test_what_is_no_edit(self):
        session = om.Session([])
        for command in (om.Undo(), om.Raw(b"\x07")):
            with self.assertRaises(TypeError):
                session.execute(command)
        with self.assertRaises(ValueError):
            session.execute(om.Pause(256, 0.0))
        self.assertEqual(session.commands, [])


class Given(unittest.TestCase):
    """What a session is made of."""

    def test_thresholds_as_bytes(self):
        given = struct.pack("<2d", 2.0, 1.0)
        outcome = om.run(b"".join(command.to_bytes() for command in row_9()), given)
        for thresholds in [given, bytearray(given), memoryview(given)]:
            session = om.Session(thresholds, outcome.applied)
            self.assertEqual(session.thresholds, [2.0, 1.0])
            self.assertEqual(session.outcome.pending[0].ticks, 40)
            self.assertEqual(om.run(row_9(), thresholds).pending[0].ticks, 40)
            self.assertEqual(om.run(bytearray(row_9()[0].to_bytes()), thresholds).applied, row_9()[:1])
        with self.assertRaisesRegex(ValueError, "no multiple of 8"):
            om.Session(given[1:])

    def test_what_is_no_command(self):
        session = om.Session([2.0, 1.0], row_9())
        before = shown(session)
        for wrong in [7, 8, b"\x07", None, "undo", om.Undo]:
            with self.assertRaisesRegex(TypeError, "expected a command"):
                session.execute(wrong)
            with self.assertRaisesRegex(TypeError, "expected a command"):
                session.extend([om.Deliver(), wrong])
            with self.assertRaisesRegex(TypeError, "expected a command"):
                om.run([wrong], [2.0])
        for wrong in [b"\x07", bytearray(b"\x07")]:
            with self.assertRaisesRegex(TypeError, "not bytes"):
                om.Session([2.0], wrong)
        self.assertEqual(shown(session), before)


class Groups(unittest.TestCase):
    def test_one_step(self):
        session = om.Session([2.0, 1.0], row_9())
        before = shown(session)
        with session.group():
            session.execute(om.Pause(0, 1.0))
            session.execute(om.Resume(0, 3.0))
            with self.assertRaises(RuntimeError):
                session.undo()
        after = shown(session)
        self.assertEqual(len(session.undo()), 2)
        self.assertEqual(shown(session), before)
        self.assertEqual(len(session.redo()), 2)
        self.assertEqual(shown(session), after)

    def test_a_group_that_fails(self):
        session = om.Session([2.0, 1.0], row_9())
        session.undo()
        before, commands = shown(session), session.commands
        with self.assertRaises(om.Refused):
            with session.group():
                session.execute(om.Pause(0, 1.0))
                session.execute(om.Pause(1, 1.0))
        self.assertEqual((shown(session), session.commands, session.can_redo), (before, commands, True))

    def test_an_empty_group_is_no_step(self):
        session = om.Session([2.0, 1.0], row_9())
        with session.group():
            pass
        self.assertEqual(session.next_undo, [om.Reschedule(0, 0.0)])


class Threads(unittest.TestCase):
    def test_runs_at_the_same_time(self):
        with ThreadPoolExecutor(4) as pool:
            ticks = list(pool.map(lambda n: om.run(row_9(), [n / 4]).pending[0].ticks, range(400)))
        self.assertEqual(ticks, [5 * n for n in range(400)])


def load_tests(loader, tests, pattern):
    """The examples in the module's own words."""
    tests.addTests(doctest.DocTestSuite(om))
    return tests


if __name__ == "__main__":
    unittest.main()
