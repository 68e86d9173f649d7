"""Tests of `plot.py`.

    cd tools && python3 -m unittest test_plot
"""
import contextlib
import io
import tempfile
import unittest
import xml.etree.ElementTree as xml
from pathlib import Path

from plot import Point, main, number, read, size

ROWS = """Text.

| design | mode | answer | learned | seconds | MB |
|---|---|---|---|---|---|
| 4 x 4 | plain | correct | 6,820 | 0.25 | 15 |
| 4 x 8 | plain | correct | 17,429 | 1.84 | 37 |
| 8 x 3 | plain | correct | 73,297 | 21.91 | 109 |
| 8 x 3 | diverse | correct | 936 | 0.04 | 18 |
| 4 x 8, turned | plain | correct | 1 | 1 | 1 |
| 8 x 5 | plain | - | - | >600 | - |
"""


class Rows(unittest.TestCase):
    def test_sizes_and_numbers(self) -> None:
        self.assertEqual([size(name) for name in ("4 x 8", "gen 12 0", "gen 12 11", "4 x 8, turned", "dlx")],
                         [(4, 8), (1, 12), None, None, None])
        self.assertEqual([number(cell) for cell in ("6,820", "0.25", ">600", "-", "1.5 (2.0)")],
                         [6820.0, 0.25, None, None, 1.5])

    def test_columns_of_a_mode(self) -> None:
        plain = read(ROWS.splitlines(), "plain")
        self.assertEqual(plain["learned"], [Point(4, 4, 6820), Point(4, 8, 17429), Point(8, 3, 73297)])
        self.assertEqual(set(plain), {"learned", "seconds"})
        self.assertEqual(read(ROWS.splitlines(), "diverse")["seconds"], [Point(8, 3, 0.04)])
        whole = read(["| design | mode | whole | clauses |", "| gen 2 0 | plain | 0.003 | 240 |"], "plain")
        self.assertEqual(whole, {"seconds": [Point(1, 2, 0.003)], "clauses": [Point(1, 2, 240)]})


class Pictures(unittest.TestCase):
    def test_a_picture_for_each_column(self) -> None:
        with tempfile.TemporaryDirectory() as folder:
            rows, output = Path(folder, "rows.md"), Path(folder, "out.svg")
            rows.write_text(ROWS)
            self.assertEqual(main([str(output), str(rows)]), 0)
            drawn = xml.parse(output).getroot()
            name = "{http://www.w3.org/2000/svg}"
            self.assertEqual(len(drawn.findall(f"{name}g")), 2)
            self.assertEqual(len(list(drawn.iter(f"{name}circle"))), 6)
            self.assertEqual(len(list(drawn.iter(f"{name}polyline"))), 4)
            with contextlib.redirect_stderr(io.StringIO()):
                self.assertEqual(main(["--columns", "clauses", str(output), str(rows)]), 1)


if __name__ == "__main__":
    unittest.main()
