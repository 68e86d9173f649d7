"""Tests of `bench/gallery.py`: which answers fit a line of `gallery/verdicts.txt`, and that each pipeline has one."""
from __future__ import annotations

import os
import sys
import unittest
from pathlib import Path
from typing import List

ROOT = Path(__file__).resolve().parent.parent
sys.path.append(str(ROOT / "bench"))

import gallery  # noqa: E402


def fits(said: str, verdict: str, inv: List[str]) -> bool:
    """Whether an answer fits a line with this verdict."""
    return gallery.fits(said, gallery.Design("a.pipe", ["a.pipe", "a.spec"], inv, verdict))


class Gallery(unittest.TestCase):
    def test_which_answers_fit(self) -> None:
        self.assertTrue(fits("correct", "correct", []))
        self.assertTrue(fits("wrong commute", "wrong", []))
        self.assertFalse(fits("wrong commute", "correct", []))
        self.assertFalse(fits("correct", "wrong", []))

    def test_either_condition_may_be_found_where_there_is_an_invariant(self) -> None:
        self.assertTrue(fits("wrong invariant", "wrong", ["an.inv"]))
        self.assertTrue(fits("wrong commute", "wrong", ["an.inv"]))
        self.assertFalse(fits("wrong invariant", "wrong", []))

    def test_each_pipeline_has_one_line(self) -> None:
        there = sorted(path.relative_to(ROOT / "gallery").as_posix() for path in (ROOT / "gallery").glob("*/*.pipe"))
        self.assertEqual(sorted(design.name for design in gallery.listed()), there)

    def test_each_line_names_files_and_a_verdict(self) -> None:
        for pipe, files, inv, verdict in gallery.listed():
            with self.subTest(pipe=pipe):
                self.assertEqual([name for name in [*files, *inv] if not os.path.isfile(name)], [])
                self.assertIn(verdict, ("correct", "wrong", "void"))


if __name__ == "__main__":
    unittest.main()
