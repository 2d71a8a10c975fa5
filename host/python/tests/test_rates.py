"""The rate for a wait: worked numbers, refusals, and sessions with that rate."""

import doctest
import math
import random
import unittest

import olgaemuri as om
from olgaemuri import rates
from tests.sessions import press, set_rate

MOST = 2.0**40


class Rates(unittest.TestCase):
    def test_worked_numbers(self):
        for threshold, wait, rate in [(2, 4, 0.5), (1.0, 5.0, 0.19999999999999998), (1e-323, 2.0, 5e-324), (1.0, 1 / MOST, MOST)]:
            self.assertEqual(om.rate_for_wait(threshold, wait), rate)

    def refuses(self, threshold, wait, refusal):
        with self.assertRaises(om.Refused) as caught:
            om.rate_for_wait(threshold, wait)
        error = caught.exception
        self.assertEqual((error.refusal, error.number, error.command), (refusal, int(refusal), None))
        self.assertEqual(str(error), f"refused by {int(refusal)}: {refusal.meaning}")

    def test_no_rate(self):
        for threshold, wait in [(1.0, 49.0), (5e-324, 2.0), (1024.0, 1 / MOST)]:
            self.refuses(threshold, wait, om.Refusal.NO_RATE)

    def test_outside_the_limits(self):
        for none in [0.0, -0.0, -1.0, math.nan, math.inf, -math.inf, MOST * 2]:
            self.refuses(none, 4.0, om.Refusal.OUTSIDE_LIMITS)
            self.refuses(2.0, none, om.Refusal.OUTSIDE_LIMITS)
        for threshold, wait in [(1024.0000000000002, 4.0), (2.0, 9.094947017729281e-13), (2.0, 1099511627776.0002)]:
            self.refuses(threshold, wait, om.Refusal.OUTSIDE_LIMITS)

    def test_what_is_no_number(self):
        for wrong in ["2", b"2", None, [2.0], 10**400]:
            with self.assertRaisesRegex(ValueError, "a value is no float"):
                om.rate_for_wait(wrong, 4.0)
            with self.assertRaisesRegex(ValueError, "a value is no float"):
                om.rate_for_wait(2.0, wrong)

    def test_sessions(self):
        source = random.Random(20261116)
        found = 0
        for _ in range(300):
            threshold, wait = source.uniform(0.01, 5.0), source.uniform(0.5, 500.0)
            try:
                rate = om.rate_for_wait(threshold, wait)
            except om.Refused as refused:
                self.assertEqual(refused.number, 24)
                continue
            found += 1
            outcome = om.run([press(), set_rate(0.0, rate), om.Reschedule(0, 0.0)], [threshold])
            self.assertEqual(outcome.pending[0].delta, wait)
        self.assertTrue(50 < found < 300, found)


def load_tests(loader, tests, pattern):
    """The examples in the function's own words."""
    tests.addTests(doctest.DocTestSuite(rates))
    return tests


if __name__ == "__main__":
    unittest.main()
