"""Tests of `doc_examples.py`, with the shell alone and without the program.

    cd tools && python3 -m unittest test_doc_examples
"""
import contextlib
import io
import tempfile
import unittest
from pathlib import Path
from typing import List, Tuple
from unittest import mock

from doc_examples import blocks, examples, main, matches, unmarked

EXAMPLES = Path(__file__).resolve().parent.parent / "examples"
DOCUMENT = """Text.

```
$ printf 'a\\nb\\n'
a
b
$ echo c \\
    d
c d
```

    $ echo e > kept; cat kept
    e

- a list

      $ not a block
"""


class Reading(unittest.TestCase):
    def test_blocks_and_their_examples(self) -> None:
        found = [example for block in blocks(DOCUMENT.splitlines()) for example in examples(block)]
        self.assertEqual([example.line for example in found], [4, 8, 12])
        self.assertEqual([example.shown for example in found], [["a", "b"], ["c d"], ["e"]])
        self.assertEqual(found[1].command, "echo c d")

    def test_a_block_that_begins_otherwise_has_none(self) -> None:
        found = list(blocks(["```", "burch_dill check PIPE SPEC", "```"]))
        self.assertEqual(examples(found[0]), [])
        self.assertEqual(unmarked(found[0]), [2])

    def test_cuts(self) -> None:
        self.assertTrue(matches(["a", "...", "d"], ["a", "b", "c", "d"]))
        self.assertTrue(matches(["a", "..."], ["a"]))
        self.assertFalse(matches(["a", "...", "d"], ["a", "b"]))
        self.assertFalse(matches(["a."], ["ab"]))
        self.assertTrue(matches([], []))


class Folder(unittest.TestCase):
    def test_the_program_s_examples_are_among_them(self) -> None:
        """Each design of the program's folder is there too, byte for byte, as a file: the gate refuses links."""
        data = EXAMPLES.parent / "crates" / "burch_dill" / "data"
        for path in data.iterdir():
            self.assertEqual((EXAMPLES / path.name).read_bytes(), path.read_bytes(), path.name)
        self.assertFalse([path.name for path in EXAMPLES.iterdir() if path.is_symlink()])


class Running(unittest.TestCase):
    def run_on(self, text: str, *options: str) -> Tuple[int, str, str]:
        """The status, the report and the document after it."""
        with tempfile.TemporaryDirectory() as folder:
            path, report = Path(folder) / "document.md", io.StringIO()
            path.write_text(text, encoding="utf-8")
            words: List[str] = ["/bin/echo", *options, str(path)]
            with contextlib.redirect_stdout(report):
                status = main(words)
            return status, report.getvalue(), path.read_text(encoding="utf-8")

    def test_what_fits(self) -> None:
        self.assertEqual(self.run_on(DOCUMENT), (0, "3 examples, 0 not run, 0 faults\n", DOCUMENT))

    def test_a_difference_has_its_place(self) -> None:
        status, report, _ = self.run_on(DOCUMENT.replace("c d\n", "d c\n"))
        self.assertEqual(status, 1)
        self.assertIn("document.md:8: echo c d\n", report)
        self.assertIn("-d c\n+c d\n", report)

    def test_write(self) -> None:
        wrong = DOCUMENT.replace("a\nb\n", "b\n").replace("c d\n", "").replace("    e\n", "    f\n")
        self.assertEqual(self.run_on(wrong, "--write")[2], DOCUMENT)

    def test_the_folder_of_examples(self) -> None:
        before = {path: path.read_bytes() for path in EXAMPLES.iterdir()}
        text = "```\n$ cd examples\n$ ls deep.pipe\ndeep.pipe\n$ for f in b deep.pipe; do echo > $f; done\n"
        self.assertEqual(self.run_on(text + "```\n")[0], 0)
        self.assertEqual({path: path.read_bytes() for path in EXAMPLES.iterdir()}, before)

    def test_errors_come_with_the_output(self) -> None:
        self.assertEqual(self.run_on("```\n$ echo e >&2\ne\n```\n")[0], 0)

    def test_a_tool_that_is_not_there(self) -> None:
        text = "```\n$ no-such-tool\ndone\n$ echo after it\nafter it\n```\n"
        with mock.patch("doc_examples.OTHERS", ("no-such-tool",)):
            self.assertEqual(self.run_on(text)[:2], (0, "2 examples, 2 not run, 0 faults\n"))

    def test_a_script_that_asks_a_tool_that_is_not_there(self) -> None:
        text = "```\n$ echo before it\nbefore it\n$ asks-it\ndone\n$ echo after it\nafter it\n```\n"
        with mock.patch("doc_examples.OTHERS", ("sh", "no-such-tool")), \
                mock.patch("doc_examples.ASKS", {"asks-it": ("sh", "no-such-tool")}):
            self.assertEqual(self.run_on(text)[:2], (0, "3 examples, 2 not run, 0 faults\n"))

    def test_usage(self) -> None:
        listed: List[Tuple[List[str], int]] = [([], 2), (["no-such-program"], 2), (["--help"], 0)]
        for words, status in listed:
            with self.subTest(words), contextlib.redirect_stdout(io.StringIO()), \
                    contextlib.redirect_stderr(io.StringIO()), self.assertRaises(SystemExit) as ended:
                main(words)
            self.assertEqual(ended.exception.code, status)


if __name__ == "__main__":
    unittest.main()
