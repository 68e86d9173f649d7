"""Tests of `names.py`, on crates of two lines each and on the repository.

    cd tools && python3 -m unittest test_names
"""
import contextlib
import io
import tempfile
import unittest
from pathlib import Path
from typing import Dict, List, Tuple

import names

LIBRARIES = {
    "low": "pub use place::{Place, place_of};\n",
    "middle": "pub use low::Place;\npub use place::Kept;\n",
    "high": "mod place;\n",
}
MODULES = {
    "low": "pub struct Place {\n}\npub fn place_of() {}\n",
    "middle": "pub enum Kept {\n}\n",
    "high": "struct Kept {\n}\n",
}


def lines(stands_on: Dict[str, List[str]]) -> List[Tuple[str, str, List[str]]]:
    """What is found in those crates."""
    with tempfile.TemporaryDirectory() as folder:
        for crate, text in LIBRARIES.items():
            source = Path(folder) / crate / "src"
            source.mkdir(parents=True)
            (source / "lib.rt").write_text(text, encoding="utf-8")
            (source / "place.rt").write_text(MODULES[crate], encoding="utf-8")
        return list(names.doubled(stands_on, Path(folder)))


class Names(unittest.TestCase):
    """What two types of one name are in one crate's sight, and what they aren't."""

    def test_a_type_beside_an_exported_one(self) -> None:
        """A crate's own type has the name of one that it can import."""
        found = lines({"low": [], "middle": ["low"], "high": ["middle"]})
        self.assertEqual(found, [("high", "Kept", ["high/src/place.rt", "middle/src/place.rt"])])

    def test_one_type_by_two_ways(self) -> None:
        """A type that comes from its own crate and from one that exports it again is one type."""
        self.assertEqual(lines({"low": [], "middle": ["low"], "high": ["low", "middle"]})[0][1], "Kept")

    def test_what_is_out_of_sight(self) -> None:
        """A crate may have a name of one on which it doesn't stand."""
        self.assertEqual(lines({"low": [], "middle": ["low"], "high": ["low"]}), [])

    def test_the_repository(self) -> None:
        """No name is listed here."""
        out = io.StringIO()
        with contextlib.redirect_stdout(out):
            status = names.main()
        self.assertEqual((status, out.getvalue()), (0, ""))


if __name__ == "__main__":
    unittest.main()
