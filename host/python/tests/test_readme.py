"""What README.md shows is what the example prints and what its program does."""

import subprocess
import sys
import unittest
from pathlib import Path

FOLDER = Path(__file__).parents[1]
BLOCKS = (FOLDER / "README.md").read_text(encoding="utf-8").split("```")[1::2]


class Readme(unittest.TestCase):
    def test_the_example(self):
        program = [sys.executable, FOLDER / "examples/press_shop.py"]
        printed = subprocess.run(program, check=True, stdout=subprocess.PIPE, universal_newlines=True).stdout
        self.assertEqual("\n" + printed, BLOCKS[1])

    def test_the_program(self):
        names = {}
        exec(BLOCKS[0][len("python\n"):], names)
        self.assertEqual([row["ticks"] for row in names["session"].breakdown_rows()], [40])
        self.assertEqual(len(names["session"].next_redo), 2)


if __name__ == "__main__":
    unittest.main()
