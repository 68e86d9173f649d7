"""Tests of `edits.py`, on lines such as `rt must-fail` prints.

    cd tools && python3 -m unittest test_edits
"""
import contextlib
import io
import tempfile
import unittest
from pathlib import Path

import edits

TELLS = "must-fail bd_gen/flushes_one_cycle_more.edit: refused, as it must be: src/generated.rt:53:1: it isn't proved"
CITED = (
    "must-fail bd_app/always_usage.edit: refused, as it must be (only because a proof file names what the edit took away,"
    " so this says little of the contract: change a value and keep the names): proofs/x.antt:3:1: has no field"
)
PROVED = "must-fail bd_host/writes_twice.edit: NOT REFUSED: the crate is still proved with this edit"


class Edits(unittest.TestCase):
    """What is listed of a log, and what isn't."""

    def test_what_tells_is_not_listed(self) -> None:
        """A refusal at a clause tells something."""
        self.assertEqual(edits.silent([TELLS, "checked bd_gen::generated::design_text, 9 of 9"]), {})

    def test_what_is_silent_is_listed(self) -> None:
        """A refusal by a proof file alone, and none at all, tell nothing."""
        listed = {
            "bd_app/always_usage.edit": "refused by a proof file alone",
            "bd_host/writes_twice.edit": "isn't refused",
        }
        for before in "", "rt: ":
            with self.subTest(before=before):
                lines = [before + line for line in (TELLS, CITED, PROVED)]
                self.assertEqual(edits.silent(lines), listed)

    def test_the_last_line_counts(self) -> None:
        """A wrong body that was mended and tried again is gone."""
        self.assertEqual(edits.silent([CITED, CITED.split(" (only")[0]]), {})

    def test_a_log_gives_a_status(self) -> None:
        """The status says whether some wrong body is listed."""
        with tempfile.TemporaryDirectory() as folder:
            log = Path(folder) / "log"
            for text, status in ((TELLS, 0), (CITED, 1)):
                log.write_text(text + "\n", encoding="utf-8")
                with contextlib.redirect_stdout(io.StringIO()):
                    self.assertEqual(edits.main([str(log)]), status)


class Applies(unittest.TestCase):
    """What wrong bodies edit is there: those that the gate tries, and those that it leaves out."""

    def test_each_line_stands_once(self) -> None:
        """Each text that is replaced stands once in its file."""
        top = Path(__file__).resolve().parent.parent
        every = [*top.glob("crates/*/must-fail/*.edit"), *top.glob("bench/wrong/*/*.edit")]
        self.assertGreater(len(every), 100)
        for edit in every:
            crate = edit.parts[-3] if edit.parent.name == "must-fail" else edit.parent.name
            words = [line.partition(": ")[::2] for line in edit.read_text(encoding="utf-8").splitlines()]
            file = next(value for key, value in words if key == "file")
            text = (top / "crates" / crate / file).read_text(encoding="utf-8")
            for old in [value for key, value in words if key == "old"]:
                with self.subTest(edit=edit.name, old=old):
                    self.assertEqual(text.count(old), 1)


if __name__ == "__main__":
    unittest.main()
