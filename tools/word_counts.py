#!/usr/bin/env python3
"""Counts the words of the documents, and says which have more than their budget.

README.md, CONTRIBUTING.md, CHANGELOG.md and all pages of docs/ count; those of the gallery don't. Of a page, what a
script writes doesn't count (between `<!-- NAME: made by SCRIPT -->` and `<!-- NAME: to here -->`), and neither do
solutions: a section `## Solutions`, or a page with SOLUTIONS in its name. Words are what spaces separate, as for `wc
-w`. The status is 1 if a budget is exceeded.
"""
from __future__ import annotations

import argparse
import re
import sys
from pathlib import Path
from typing import Iterable, NamedTuple

ROOT = Path(__file__).resolve().parent.parent
PAGES = ("README.md", "CONTRIBUTING.md", "CHANGELOG.md", "docs/**/*.md")
# Pages that a script writes as a whole.
MADE = ("develop/DEFINITIONS.md",)
MADE_PART = re.compile(r"<!-- ([^\n]*?): made by [^\n]*? -->.*?<!-- \1: to here -->", re.DOTALL)
SOLUTIONS = re.compile(r"^## Solutions$.*?(?=^## |\Z)", re.DOTALL | re.MULTILINE)


class Budget(NamedTuple):
    """The most words that some pages may have together; the pages are named by patterns of their paths."""

    name: str
    most: int
    patterns: tuple[str, ...]

    def has(self, page: Path) -> bool:
        """Whether a page counts towards it."""
        return any(page.match(pattern) for pattern in self.patterns)


BUDGETS = (
    Budget("README", 900, ("README.md",)),
    Budget("CONTRIBUTING", 1_100, ("CONTRIBUTING.md",)),
    Budget("CHANGELOG", 500, ("CHANGELOG.md",)),
    Budget("PROVED", 5_500, ("PROVED.md",)),
    Budget("DECISIONS", 4_000, ("develop/DECISIONS.md",)),
    Budget("TUTORIAL, both parts", 10_000, ("TUTORIAL*.md",)),
    Budget("MAP", 2_500, ("develop/MAP.md",)),
    Budget("GATE", 800, ("develop/GATE.md",)),
    Budget("LANGUAGE", 3_500, ("LANGUAGE.md",)),
    Budget("EXPERIMENTS", 2_500, ("develop/EXPERIMENTS.md",)),
    Budget("BENCH", 3_500, ("BENCH.md",)),
    Budget("COUNTEREXAMPLES", 2_500, ("COUNTEREXAMPLES.md",)),
    Budget("pages of commands", 7_400, ("docs/commands/*.md",)),
    Budget("all", 52_000, ("*.md",)),
)


def words_of(name: str, text: str) -> int:
    """How many words of a page count."""
    if name in MADE or "SOLUTIONS" in name.upper():
        return 0
    return len(SOLUTIONS.sub("", MADE_PART.sub("", text)).split())


def counts_of(root: Path) -> dict[Path, int]:
    """The words of each page below a folder, by its path from there."""
    pages = sorted({path for pattern in PAGES for path in root.glob(pattern)})
    return {page.relative_to(root): words_of(page.name, page.read_text(encoding="utf-8")) for page in pages}


def totals(counts: dict[Path, int], budgets: Iterable[Budget] = BUDGETS) -> list[tuple[Budget, int]]:
    """How many words each budget is charged with."""
    return [(budget, sum(count for page, count in counts.items() if budget.has(page))) for budget in budgets]


def line_of(budget: Budget, words: int) -> str:
    """A line of the table."""
    past = f"  {words - budget.most:,} too many" if words > budget.most else ""
    return f"{budget.name:22}{words:>8,} of {budget.most:>6,}{past}"


def main(words: list[str]) -> int:
    """Prints the table, or only what is past its budget, and gives the status."""
    parser = argparse.ArgumentParser(prog="word_counts.py", description=__doc__,
                                     formatter_class=argparse.RawDescriptionHelpFormatter)
    parser.add_argument("--check", action="store_true", help="prints only what is past its budget")
    parser.add_argument("--pages", action="store_true", help="prints the words of each page too")
    options = parser.parse_args(words)
    counts = counts_of(ROOT)
    if options.pages:
        print(*(f"{count:>8,} {page.as_posix()}" for page, count in counts.items()), sep="\n")
    found = totals(counts)
    past = [line for line in found if line[1] > line[0].most]
    for budget, count in past if options.check else found:
        print(line_of(budget, count))
    return 1 if past else 0


if __name__ == "__main__":
    sys.exit(main(sys.argv[1:]))
