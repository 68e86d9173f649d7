"""Tests of `bench/kinds.py`: which gates a formula has, by its text alone."""
from __future__ import annotations

import sys
import tempfile
import unittest
from pathlib import Path

ROOT = Path(__file__).resolve().parent.parent
sys.path.append(str(ROOT / "bench"))

import kinds  # noqa: E402

# 4 = 1 and 2, 5 = a choice between 4 and 2 by 3, the root not 5, a triangle of 1, 2 and 6, and the false edge 6.
FORMULA = """p cnf 6 12
1 -4 0
2 -4 0
-1 -2 4 0
-3 4 -5 0
-3 -4 5 0
2 3 -5 0
-2 3 5 0
-5 0
-1 -2 6 0
-1 2 -6 0
1 -2 -6 0
-6 0
"""


class Kinds(unittest.TestCase):
    def test_each_kind_is_counted(self) -> None:
        with tempfile.TemporaryDirectory() as folder:
            name = Path(folder) / "kept.cnf"
            name.write_text(FORMULA, encoding="ascii")
            found = kinds.kinds(name)
        self.assertEqual(found["`and`, `or`"], (1, 3))
        self.assertEqual(found["choice"], (1, 4))
        self.assertEqual(found["edges in triangles, and their triangles"], (3, 3))
        self.assertEqual(found["units: the root, and false edges"], (0, 2))
        self.assertEqual(found["other atoms"], (1, 0))
        self.assertEqual([sum(column) for column in zip(*found.values())], [6, 12])


if __name__ == "__main__":
    unittest.main()
