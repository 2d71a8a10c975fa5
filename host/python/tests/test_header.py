"""The module's numbers and functions are the C header's, and its layout the specification's."""

import ctypes
import re
import unittest
from pathlib import Path

import olgaemuri as om
from olgaemuri import layout, library, structs

HEADER = (Path(__file__).parents[2] / "olgaemuri-sys/include/olgaemuri.h").read_text(encoding="utf-8")
NUMBERS = {name: int(number) for name, number in re.findall(r"^    OLGAEMURI_(\w+) = (\d+)", HEADER, re.MULTILINE)}
CODES = ["CREATE", "SET", "REMOVE", "RESCHEDULE", "PAUSE", "RESUME", "DELIVER", "UNDO"]


class Header(unittest.TestCase):
    def test_codes_and_widths(self):
        self.assertEqual(len(layout.WIDTHS), len(CODES))
        for name in CODES:
            code = getattr(layout, name)
            self.assertEqual(code, NUMBERS[name])
            self.assertEqual(layout.WIDTHS[code], NUMBERS[f"{name}_BYTES"])

    def test_limits(self):
        names = {"CLOCKS": om.CLOCKS, "CAUSES": om.MAX_CAUSES, "PAIRS": om.MAX_PAIRS, "ANSWER_BYTES": om.ANSWER_BYTES}
        others = ["RESULT_BYTES", "THRESHOLD_BYTES", "ROW", "STATE_WORD_ROWS", "STATE_FLOAT_ROWS"]
        for name, number in {**names, **{name: getattr(layout, name) for name in others}}.items():
            self.assertEqual(number, NUMBERS[name], name)

    def test_choices_and_refusals(self):
        for choice in [*om.Policy, *om.Tie, *om.Refusal]:
            self.assertEqual(int(choice), NUMBERS[choice.name], choice)
        meanings = {refusal.meaning for refusal in om.Refusal}
        self.assertEqual(len(meanings), len(om.Refusal))
        self.assertEqual([int(refusal) for refusal in om.Refusal], [*range(1, 19), 23, 24])

    def test_functions(self):
        declared = re.findall(r"^(uint8_t|struct \w+) (olgaemuri_\w+)\(", HEADER, re.MULTILINE)
        self.assertEqual([name for _, name in declared], list(library.SYMBOLS))
        for returned, name in declared:
            expected = f"struct {name}" if library.SYMBOLS[name][0] is not ctypes.c_uint8 else "uint8_t"
            self.assertEqual(returned, expected)

    def test_structs(self):
        types = {"bool": ctypes.c_bool, "double": ctypes.c_double}
        for name in ["Counts", "Request", "Clock", "Cause"]:
            body = re.search(rf"^struct olgaemuri_{name.lower()} {{\n(.*?)^}};", HEADER, re.MULTILINE | re.DOTALL)[1]
            declared = []
            for kind, field, length in re.findall(r"^    (\w+) (\w+)(?:\[OLGAEMURI_(\w+)\])?;", body, re.MULTILINE):
                kind = types.get(kind) or getattr(ctypes, "c_" + kind[:-2])
                declared.append((field, kind * NUMBERS[length] if length else kind))
            self.assertEqual(declared, getattr(structs, name)._fields_, name)


if __name__ == "__main__":
    unittest.main()
