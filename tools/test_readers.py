"""Tests of `antt.py` and `rattle.py`: what they read of files of a few lines.

    cd tools && python3 -m unittest test_readers
"""
import tempfile
import unittest
from pathlib import Path
from typing import List

import antt
import rattle

DEFINITIONS = """-- Of bits, and
-- of words (words: Knuth 1973).
use Rattle.std.specs.Prelude.{Bool, ◌≡◌}
use Rattle.bd_model.specs.Value.{Word as W, Value}
use Rattle.bd_list.specs.Lists as L
pub mod inner

-- one bit
-- and no more
pub data Bit : Type 0 where
  Zero : Bit
  One : W → Bit

own : Bit
own = L.first Value -- Word

abbrev mutual where
  -- what is even
  pub even : Bit
  even = own
  unfoldable pub odd : Bit
pub record Pair : Type 0 where
  left : Bit
"""
SOURCES = """//! Places.
ghost use Rattle.bd_model.specs.Value.{Word as W, is_even};
ghost use Rattle.bd_model.specs.declared.value.Value.{Value};

/// A place.
pub struct Place {
    at: u32,
}

impl Model for Place {
    ghost Seen = { W };
}

pub enum PlaceFault {
    Far(u32),
    Memory,
}

impl Place {
    /// Makes one.
    pub fn new(
        alloc: Global,
        _at: u32,
    ) -> Result<Place, PlaceFault>
        requires small { is_even at }
        // said once
        ensures kept { IfOk result (λ p. is_even p) }
        ensures { true }
    {
        Ok(Place { at })
    }

    fn own(&self) {}
}

pub trait Looks {
    /// Looks.
    fn look(&self, place: &Place) -> Option<u32>
        ensures { result ≡ None };
}

pub fn hidden(at: u32) -> u32 {
    at
}
"""


class InFile(unittest.TestCase):
    """A file of a text."""

    def file(self, text: str) -> Path:
        made = tempfile.TemporaryDirectory()
        self.addCleanup(made.cleanup)
        path = Path(made.name) / "file"
        path.write_text(text, encoding="utf-8")
        return path


class Antt(InFile):
    def module(self) -> antt.Module:
        return antt.Module("bd_low", "Bits", self.file(DEFINITIONS))

    def test_head_and_source(self) -> None:
        head = antt.head_of(DEFINITIONS.splitlines())
        self.assertEqual(head, "Of bits, and of words (words: Knuth 1973).")
        self.assertEqual(antt.source_of(head), "Knuth 1973")
        self.assertEqual(antt.source_of("A list (of words)."), "")

    def test_public_definitions_with_their_comments(self) -> None:
        found = antt.definitions(DEFINITIONS.splitlines())
        self.assertEqual(found, [("Bit", "one bit and no more"), ("even", "what is even"), ("odd", ""), ("Pair", "")])

    def test_what_names_mean(self) -> None:
        module = self.module()
        self.assertEqual(module.imports["W"], ("bd_model", "Value", "Word"))
        self.assertEqual(module.aliases, {"L": ("bd_list", "Lists")})

    def test_what_a_definition_cites(self) -> None:
        module = self.module()
        self.assertEqual(module.order, ["Bit", "own", "even", "odd", "Pair"])
        self.assertEqual(set(module.cited("own")), {("bd_low", "Bits", "Bit"), ("bd_model", "Value", "Value"),
                                                    ("bd_list", "Lists", "first")})
        self.assertEqual(set(module.cited("Bit")), {("bd_model", "Value", "Word")})
        self.assertIn(("bd_low", "Bits", "own"), set(module.cited("even")))

    def test_a_constructor_stands_by_its_type(self) -> None:
        lines = DEFINITIONS.splitlines()
        self.assertEqual([antt.owner_of(lines, name) for name in ("Zero", "even", "nowhere")],
                         ["Bit", "even", "nowhere"])

    def test_what_a_source_takes_from_definitions(self) -> None:
        self.assertEqual(antt.imported(SOURCES), {"W": ("bd_model", "Value", "Word"),
                                                  "is_even": ("bd_model", "Value", "is_even")})


class Rattle(InFile):
    def calls(self, *given: str) -> List[rattle.Call]:
        return rattle.signatures_of(self.file(SOURCES), set(given))

    def test_calls_of_what_is_given_on(self) -> None:
        self.assertEqual([name for name, _ in self.calls("Place", "Looks")], ["Place::new", "Looks::look"])
        self.assertEqual([name for name, _ in self.calls("hidden")], ["hidden"])

    def test_a_contract(self) -> None:
        (_, text), = self.calls("Place")
        needs, promises = rattle.contract(text)
        self.assertEqual([name for name, _ in needs], ["small"])
        self.assertEqual([name for name, _ in promises], ["kept", ""])
        self.assertIn("IfOk result (λ p. is_even p)", promises[0][1])
        self.assertNotIn("said once", text)

    def test_a_signature(self) -> None:
        (_, text), = self.calls("Place")
        self.assertEqual(rattle.shape(text), "new(alloc: Global, at: u32) -> Result<Place, PlaceFault>")
        _, result = rattle.head_and_result(text)
        self.assertEqual(rattle.error_of(result), "PlaceFault")
        self.assertEqual(rattle.error_of("Option<u32>"), None)
        self.assertEqual(rattle.error_of("Ended"), "Ended")

    def test_what_is_said_in_public(self) -> None:
        said = rattle.said_in_public(self.file(SOURCES), {"Place"})
        self.assertEqual(len(said), 2)
        self.assertIn("ghost Seen = { W };", said[1])


if __name__ == "__main__":
    unittest.main()
