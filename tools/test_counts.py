"""Tests of `word_counts.py`, `file_counts.py` and `changed_files.py`, on small folders of their own."""
from __future__ import annotations

import contextlib
import io
import subprocess
import tempfile
import unittest
from pathlib import Path

import changed_files
import file_counts
import word_counts
from file_counts import Kind, Mark
from word_counts import Budget


class Words(unittest.TestCase):
    def test_solutions_and_what_a_script_writes_do_not_count(self) -> None:
        page = ("# One two\n\n<!-- list: made by tools/x.py -->\nnot these\n<!-- list: to here -->\nthree\n"
                "## Solutions\nnot these\n### Nor\nthese\n## Last\n")
        self.assertEqual(word_counts.words_of("PAGE.md", page), len("# One two three ## Last".split()))

    def test_pages_that_do_not_count(self) -> None:
        self.assertEqual(word_counts.words_of("develop/DEFINITIONS.md", "one"), 0)
        self.assertEqual(word_counts.words_of("TUTORIAL_SOLUTIONS.md", "one"), 0)

    def test_only_the_documents_are_counted(self) -> None:
        with tempfile.TemporaryDirectory() as name:
            root = Path(name)
            for path in ("README.md", "docs/develop/MAP.md", "docs/develop/GATE.md", "gallery/dlx/README.md",
                         "docs/a.pipe"):
                (root / path).parent.mkdir(parents=True, exist_ok=True)
                (root / path).write_text("one two\n", encoding="utf-8")
            counts = {page.as_posix(): count for page, count in word_counts.counts_of(root).items()}
        self.assertEqual(counts, {"README.md": 2, "docs/develop/MAP.md": 2, "docs/develop/GATE.md": 2})

    def test_a_page_counts_for_its_budget_and_for_all(self) -> None:
        counts = {Path("docs/commands/bd_view.md"): 3, Path("docs/develop/MAP.md"): 4, Path("README.md"): 5}
        found = {budget.name: count for budget, count in word_counts.totals(counts)}
        self.assertEqual([found[name] for name in ("pages of commands", "MAP", "README", "GATE", "all")],
                         [3, 4, 5, 0, 12])

    def test_what_is_past_a_budget_is_said(self) -> None:
        budget = Budget("page", 1_000, ("PAGE.md",))
        self.assertNotIn("too many", word_counts.line_of(budget, 1_000))
        self.assertIn("1 too many", word_counts.line_of(budget, 1_001))


class Places(unittest.TestCase):
    KIND = Kind("an option", "why --of", 2, 3, "A new option", (
        Mark("crates/*", r'"of"'), Mark("docs/*", "--of"), Mark("rows/*", "--of", once=True)))
    FILES = {"crates/specs/Words.antt": '"of"', "crates/why.rt": '"of"', "crates/other.rt": "of", "docs/a.md": "--of",
             "docs/b.md": "    $ bd_view why\n    --of\n", "rows/a": "--of", "rows/b": "--of"}
    PAGE = "# x\n\n## A new option\n\n`Words`, `NAME.rt` and a.md\n\n## A new code\n\nb.md\n"

    def count(self, kind: Kind) -> file_counts.Count:
        with tempfile.TemporaryDirectory() as folder:
            for name, text in self.FILES.items():
                path = Path(folder) / name
                path.parent.mkdir(parents=True, exist_ok=True)
                path.write_text(text, encoding="utf-8")
            return file_counts.count_of(Path(folder), sorted(self.FILES), kind)

    def test_files_that_people_wrote_count_once(self) -> None:
        count = self.count(self.KIND)
        self.assertEqual(count.files, (("crates/specs/Words.antt", "crates/why.rt"), ("docs/a.md",),
                                       ("rows/a", "rows/b")))
        self.assertEqual(count.number, 4)
        twice = self.KIND._replace(marks=(*self.KIND.marks, Mark("crates/*", "of")))
        self.assertEqual(self.count(twice).files[-1], ("crates/other.rt",))

    def test_too_many(self) -> None:
        self.assertEqual(len(list(self.count(self.KIND).faults(self.PAGE))), 1)
        self.assertEqual(list(self.count(self.KIND._replace(most=4)).faults(self.PAGE)), [])

    def test_a_mark_that_is_nowhere(self) -> None:
        marks = (*self.KIND.marks, Mark("docs/*", "--gone"))
        self.assertIn("--gone", " ".join(self.count(self.KIND._replace(most=4, marks=marks)).faults(self.PAGE)))

    def test_the_section_names_the_files(self) -> None:
        kind = self.KIND._replace(most=4)
        faults = list(self.count(kind).faults(self.PAGE.replace("NAME.rt", "check.rt").replace("Words", "Wordsy")))
        self.assertEqual([fault.split("name ")[1].split()[0] for fault in faults],
                         ["crates/specs/Words.antt", "crates/why.rt"])
        self.assertEqual(list(self.count(kind._replace(section="")).faults("")), [])
        self.assertTrue(file_counts.is_named("docs/commands/bd_view-why.md", "its command's page", "why --of"))


class Files(unittest.TestCase):
    def setUp(self) -> None:
        made = tempfile.TemporaryDirectory()
        self.addCleanup(made.cleanup)
        self.folder = Path(made.name)
        self.git("init", "-q")
        self.commit("one", "docs/two")
        self.commit("three", "docs/two")

    def git(self, *words: str) -> None:
        who = ["-c", "user.name=x", "-c", "user.email=x@localhost"]
        subprocess.run(["git", "-C", str(self.folder), *who, *words], check=True)

    def commit(self, *names: str) -> None:
        for name in names:
            path = self.folder / name
            path.parent.mkdir(parents=True, exist_ok=True)
            with path.open("a", encoding="ascii") as file:
                file.write("a line\n")
        self.git("add", "-A")
        self.git("commit", "-qm", "x")

    def said(self, *words: str) -> tuple[int, list[str]]:
        with contextlib.redirect_stdout(io.StringIO()) as printed:
            status = changed_files.main(list(words), self.folder)
        return status, printed.getvalue().splitlines()

    def test_the_files_of_a_range(self) -> None:
        self.assertEqual(self.said("HEAD~1..HEAD"), (0, ["docs/two", "three", "2 files"]))
        self.assertEqual(self.said("HEAD~1..HEAD", "--without", "docs/*"), (0, ["three", "1 files"]))

    def test_more_than_are_allowed(self) -> None:
        self.assertEqual(self.said("HEAD~1..HEAD", "--most", "2")[0], 0)
        self.assertEqual(self.said("HEAD~1..HEAD", "--most", "1")[0], 1)

    def test_what_is_not_committed(self) -> None:
        self.assertEqual(self.said(), (0, ["0 files"]))
        (self.folder / "one").write_text("other\n", encoding="ascii")
        (self.folder / "four").write_text("new\n", encoding="ascii")
        self.assertEqual(self.said(), (0, ["four", "one", "2 files"]))

    def test_what_scripts_write(self) -> None:
        page = "# x\n\n`bd_view x {0}`\n\n<!-- list: made by x -->\n{0}\n<!-- list: to here -->\n\n    $ {1}\n    {0}\n"
        for name in ("docs/a.md", "docs/b.md"):
            (self.folder / name).write_text(page.format("old", "old"), encoding="ascii")
        self.commit("four")
        (self.folder / "docs/a.md").write_text(page.format("new", "old"), encoding="ascii")
        (self.folder / "docs/b.md").write_text(page.format("new", "new"), encoding="ascii")
        self.commit("crates/bd_rows/stdout", "crates/bd_rows/args")
        self.assertEqual(self.said("HEAD~1..HEAD", "--by-hand"), (0, ["crates/bd_rows/args", "docs/b.md", "2 files"]))
        (self.folder / "docs/b.md").write_text(page.format("newer", "new"), encoding="ascii")
        self.assertEqual(self.said("--by-hand"), (0, ["0 files"]))


if __name__ == "__main__":
    unittest.main()
