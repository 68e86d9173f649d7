"""What this package raises."""
from __future__ import annotations


class BurchDillError(Exception):
    """What this package raises."""


class DesignError(BurchDillError, ValueError):
    """What can't be written: no name, another sort, a number out of range, an item that is missing or one too many."""


class NoFile(BurchDillError, FileNotFoundError):
    """A `str` that looks like a path, of a file that isn't there."""


class NoAnswer(BurchDillError):
    """The program ended without an answer. `status` is its exit status, `line` what it wrote to its error output.

    By status: 2, unrecognized arguments; 5, an I/O error; 6, out of memory; None, no program was found; 0, this
    package doesn't know the answer; and what else an operating system makes of a program that ends early.
    """

    def __init__(self, status: int | None, line: str) -> None:
        super().__init__(line or f"the program ended with status {status}")
        self.status, self.line = status, line


class Fault(BurchDillError):
    """The first fault of a file: its code (`E08`), the code's text, where it is, and in which item.

    `file` is `pipe`, `spec`, `comp`, `inv`, `start`, `case`, `trail` or `proof`, `name` the path that was given, or the
    same word for a text. `line` and `column` count from 1, columns in bytes; `offset` counts bytes from 0, and is None
    where the program names a line and column itself, as it does for lines of proofs. `item` is the item that has the
    fault in it, by its head and its name, as `let rf2`; it is empty where the fault is in none.
    """

    def __init__(self, file: str, name: str, offset: int | None, line: int, column: int,
                 code: str, text: str, item: str = "") -> None:
        super().__init__(f"{name}:{line}:{column}: {code} {text}" + (f", in ({item} ..)" if item else ""))
        self.file, self.name, self.offset = file, name, offset
        self.line, self.column, self.code, self.text, self.item = line, column, code, text, item
