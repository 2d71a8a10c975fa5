"""Runs of the engine: the worked rows, refusals as values, rows, and the examples beside the command line's own output."""

import json
import os
import subprocess
import tempfile
import unittest
from pathlib import Path

import olgaemuri as om
from tests.sessions import press, row_9, set_rate

ROOT = Path(__file__).parents[3]


def command_line():
    """The command line, if it was built."""
    built = [ROOT / "host/olgaemuri/target" / profile / "olgaemuri" for profile in ("release", "debug")]
    built = [program for program in built if os.access(program, os.X_OK)]
    return max(built, key=lambda program: program.stat().st_mtime) if built else None


class Rows(unittest.TestCase):
    def test_row_9(self):
        outcome = om.run(row_9(), [2.0, 1.0])
        self.assertEqual(outcome.answers[2], om.Answer(None, True, False, False, 1, 4.0, 40))
        self.assertEqual((outcome.end, outcome.bytes_read), (None, 33 + 156 + 23))
        self.assertEqual(outcome.journal, b"".join(command.to_bytes() for command in row_9()))

    def test_row_10(self):
        edits = [om.Pause(0, 1.0), om.Resume(0, 3.0)]
        self.assertEqual(om.run(row_9() + edits, [2.0, 1.0]).pending[0].ticks, 60)
        back = om.run(row_9() + edits + [om.Undo(), om.Undo()], [2.0, 1.0])
        self.assertEqual([(event.ticks, event.state) for event in back.events], [(40, "scheduled")])
        self.assertEqual([step.undone_by for step in back.steps], [None, None, None, 7, 6, None, None])

    def test_row_12(self):
        censored = [om.run(row_9()[:2] + [om.Reschedule(0, 0.0, censor)], [2.0]).answers[2].censored for censor in (4.0, 3.5)]
        self.assertEqual(censored, [False, True])

    def test_urgent_first(self):
        commands = []
        for clock, priority in enumerate([1, 2**31 - 1, -1, -(2**31), 0]):
            commands.append(om.Create(clock, om.Policy.RESTART, om.Tie.LOWEST_CAUSE, 1.0))
            commands.append(om.Set(clock, 100 + clock, om.Constant(0.5), 0.0))
            commands.append(om.Reschedule(clock, 0.0, None, priority))
        order = [1, 0, 4, 2, 3]
        scheduled = om.run(commands, [2.0] * 5).breakdown_rows()
        self.assertEqual([row["clock"] for row in scheduled], order)
        self.assertEqual([row["priority"] for row in scheduled], [2**31 - 1, 1, 0, -1, -(2**31)])
        delivered = om.run(commands + [om.Deliver()] * 5, [2.0] * 5)
        self.assertEqual([answer.cause for answer in delivered.answers[-5:]], [100 + clock for clock in order])
        self.assertEqual([row["clock"] for row in delivered.breakdown_rows()], order)

    def test_rows_for_a_table(self):
        commands = row_9() + [om.Deliver(), om.Deliver(), om.Reschedule(0, 5.0, 6.0)]
        outcome = om.run(commands, [2.0])
        rows = outcome.answer_rows()
        self.assertEqual([row["no"] for row in rows], [1, 2, 3, 4, 5, 6])
        self.assertEqual(rows[3]["ticks"], 40)
        self.assertEqual((rows[4]["number"], rows[4]["refusal"], rows[4]["ticks"]), (11, "no event is pending", None))
        self.assertEqual((rows[5]["censored"], rows[5]["cause"]), (True, om.NO_CAUSE))
        breakdowns = outcome.breakdown_rows()
        self.assertEqual([(row["clock"], row["cause"], row["time"], row["state"]) for row in breakdowns],
                         [(0, 1, 4.0, "delivered"), (0, om.NO_CAUSE, 6.0, "scheduled")])
        for table in (rows, breakdowns, outcome.event_rows()):
            self.assertEqual(len({tuple(row) for row in table}), 1, "every row has the same columns")


class Refusals(unittest.TestCase):
    def test_as_values(self):
        commands = [press(), press(), om.Pause(16, 0.0), om.Pause(1, 0.0), set_rate(-1.0), om.Deliver(), om.Remove(0, om.NO_CAUSE)]
        numbers = [answer.number for answer in om.run(commands, []).answers]
        self.assertEqual(numbers, [0, 8, 7, 9, 5, 11, 7])

    def test_thresholds(self):
        for thresholds, number in [([], 15), ([1025.0], 16), ([float("nan")], 16), ([1024.0], 0)]:
            self.assertEqual(om.run([press(), set_rate(0.0)], thresholds).answers[1].number, number)

    def test_no_command_ends_the_run(self):
        for junk, refusal in [(b"\x09\x07", om.Refusal.UNKNOWN_CODE), (b"\x05\x00", om.Refusal.CUT_SHORT)]:
            outcome = om.run(press().to_bytes() + junk, [])
            self.assertEqual((outcome.end, outcome.bytes_read, len(outcome.steps)), (refusal, 33, 2))

    def test_journal(self):
        for length, number in [(32, 14), (33, 0), (2**62, 0)]:
            self.assertEqual(om.run([press()], [], length).answers[0].number, number)
        with self.assertRaises(ValueError):
            om.run([press()], [], -1)

    def test_buffers(self):
        self.assertEqual(om.run([], []).steps, [])
        with self.assertRaises(ValueError):
            om.run([], b"1234567")


class Examples(unittest.TestCase):
    @unittest.skipIf(command_line() is None, "the command line is not built")
    def test_beside_the_command_line(self):
        for name, breakdowns in [("press-shop", 12), ("guide-rails", 3), ("punch-life", 7)]:
            with tempfile.TemporaryDirectory() as folder:
                file = Path(folder) / "example.bytes"
                session = str(ROOT / f"examples/{name}.session")
                subprocess.run([command_line(), "convert", "--to", "bytes", session, file], check=True, stdout=subprocess.DEVNULL)
                outcome = om.load(file).run()
            told = json.loads((ROOT / f"examples/{name}.json").read_text(encoding="utf-8"))
            self.assertEqual(len(told["breakdowns"]), breakdowns)
            self.agree(outcome.answer_rows(), told["answers"])
            self.agree(outcome.event_rows(), told["events"])
            self.agree(outcome.breakdown_rows(), told["breakdowns"])

    def agree(self, rows, told):
        """The columns that the command line has too: machines are our clocks, and it words refusals for planners."""
        self.assertEqual(len(rows), len(told))
        for row, other in zip(rows, told):
            ticks = None if other["ticks"] is None else int(other["ticks"])
            other = {**other, "clock": other["machine"], "ticks": ticks, "refusal": row.get("refusal")}
            shared = [name for name in row if name in other]
            self.assertGreaterEqual(len(shared), 7)
            self.assertIn("piece", shared)
            self.assertEqual({name: row[name] for name in shared}, {name: other[name] for name in shared})

    def test_bytes_that_are_no_session(self):
        for container in [b"", b"OLGAEMU\x02" + bytes(24), b"OLGAEMU\x01" + bytes(23) + b"\x01"]:
            with self.assertRaises(ValueError):
                om.loads(container)


if __name__ == "__main__":
    unittest.main()
