"""Commands to bytes and back."""

import random
import unittest

import olgaemuri as om
from olgaemuri import layout
from tests.sessions import likely_command, press, row_9, set_rate


class Bytes(unittest.TestCase):
    def test_each_command_comes_back(self):
        source = random.Random(1)
        commands = [likely_command(source) for _ in range(2000)] + [om.Undo()]
        commands.append(om.Create(15, om.Policy.RESTART, om.Tie.EXPLICIT_PRIORITY, 60.0, 2**64 - 1, (2**64 - 1, 2**32 - 1)))
        commands.append(om.Reschedule(15, 2.0**40, 0.0, -(2**31)))
        for command in commands:
            self.assertEqual(len(command.to_bytes()), layout.WIDTHS[command.code])
        self.assertEqual(list(om.split(b"".join(command.to_bytes() for command in commands))), commands)

    def test_places_of_row_9(self):
        create, set_, reschedule = (command.to_bytes() for command in row_9())
        self.assertEqual((create[10], create[12:20]), (1, bytes.fromhex("0000000000002440")))
        self.assertEqual((set_[2:6], set_[10], set_[11:19]), (b"\1\0\0\0", 1, bytes.fromhex("000000000000e03f")))
        self.assertEqual(reschedule, bytes([4]) + bytes(22))

    def test_places_of_wear(self):
        bytes_ = om.Set(clock=0, cause=1, hazard=om.Weibull(400.0), now=0.0).to_bytes()
        self.assertEqual((bytes_[10], bytes_[11:19], bytes_[19:]), (4, bytes.fromhex("0000000000007940"), bytes(137)))
        for at, byte in [(10, 5), (27, 1), (28, 1), (155, 0x80)]:
            changed = bytes_[:at] + bytes([byte]) + bytes_[at + 1:]
            self.assertEqual(list(om.split(changed)), [om.Raw(changed)])

    def test_what_does_not_fit_is_an_error(self):
        for command in [om.Pause(256, 0.0), om.Remove(0, -1), om.Reschedule(0, 0.0, None, 2**31), om.Pause(0, 10**400), om.Pause(0, "x")]:
            with self.assertRaises(ValueError):
                command.to_bytes()

    def test_what_is_no_hazard(self):
        for wrong in [7, None, 0.5, om.Constant, om.Weibull]:
            with self.assertRaisesRegex(TypeError, "a hazard is Zero, Constant, Gompertz, PiecewiseConstant or Weibull, not"):
                om.Set(clock=0, cause=1, hazard=wrong, now=0.0)

    def test_bytes_that_no_command_has(self):
        wrong_policy = bytearray(press().to_bytes())
        wrong_policy[10] = 2
        cut = set_rate(0.0).to_bytes()[:-1]
        parts = list(om.split(bytes(wrong_policy) + b"\x07" + cut))
        self.assertEqual(parts, [om.Raw(bytes(wrong_policy)), om.Deliver(), om.Raw(cut)])
        self.assertEqual(list(om.split(b"\x09\x07")), [om.Raw(b"\x09\x07")])


if __name__ == "__main__":
    unittest.main()
