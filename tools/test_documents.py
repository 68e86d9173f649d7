"""Tests of `documents.py`: what follows from the code is up to date, and what it prints of a name."""
import contextlib
import io
import unittest
from typing import Tuple

import antt
import documents


def run(*words: str) -> Tuple[int, str]:
    """The status of the script with these words, and what it prints."""
    out = io.StringIO()
    with contextlib.redirect_stdout(out):
        status = documents.main(list(words))
    return status, out.getvalue()


class Documents(unittest.TestCase):
    def test_nothing_is_stale(self) -> None:
        self.assertEqual(run("--check"), (0, ""))

    def test_a_definition_is_printed_with_its_comment(self) -> None:
        status, text = run("--print", "row_value")
        self.assertEqual(status, 0)
        self.assertTrue(text.startswith("bd_model/specs/Table.antt: "))
        self.assertIn("row_value: the value of the first row with these arguments", text)

    def test_a_call_is_printed_with_its_promises(self) -> None:
        status, text = run("--print", "verify")
        self.assertEqual(status, 0)
        line = next(line for line in text.split("\n") if line.startswith("| `verify` |"))
        self.assertIn("`lawful` | `AllocError` | `correct`", line)

    def test_a_crate_has_its_definitions_and_calls(self) -> None:
        text = run("--print", "bd_goal")[1]
        self.assertIn("bd_goal/specs/Claims.antt", text)
        self.assertIn("| `goal` |", text)
        self.assertNotIn("| `verify` |", text)

    def test_a_name_of_nothing(self) -> None:
        self.assertEqual(run("--print", "no_such_name"), (1, "nothing public has this name\n"))

    def test_each_cited_definition_has_a_line(self) -> None:
        text = documents.definitions_text()
        files = {(crate, name): file for crate in documents.crates()[0] for name, file in antt.modules(crate)}
        for crate, module, name in documents.cited_by_contracts():
            owner = antt.owner_of(files[crate, module].read_text().splitlines(), name)
            self.assertIn(f"- `{owner}`, in `{module}`", text)

    def test_headings_as_links_name_them(self) -> None:
        self.assertEqual(documents.slug("13. A completion function"), "13-a-completion-function")
        self.assertEqual(documents.slug("What `correct` says, from inside"), "what-correct-says-from-inside")


if __name__ == "__main__":
    unittest.main()
