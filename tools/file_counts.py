#!/usr/bin/env python3
"""Counts the files that people wrote in which one example of each kind of thing stands, and says which are too many.

A thing of each kind was chosen that stands only where such a thing has to: an option, a code, an operator, a machine of
the gallery. Its marks say by which words it is known where. So a change that brings another thing of the kind touches
about as many files. `goal` is the number that is wanted, `most` the number that the check allows: what it is today.

Proof files don't count: which are needed is found by proving. Of a document, what scripts write doesn't count, as for
`changed_files.py --by-hand`, which counts the files of a real change. The status is 1 if there are more files than
allowed, if a mark is found nowhere, or if docs/develop/EXTENDING.md doesn't name one of the files in its section.
"""
from __future__ import annotations

import argparse
import re
import sys
from fnmatch import fnmatch
from pathlib import Path
from typing import Iterator, NamedTuple

from changed_files import MADE, git, written

ROOT = Path(__file__).resolve().parent.parent
EXTENDING = "docs/develop/EXTENDING.md"
SOURCES = "crates/*/s*/*"


class Mark(NamedTuple):
    """The words by which a thing is known in the files of a pattern; where one of these is enough, they count once."""

    paths: str
    words: str
    once: bool = False


class Kind(NamedTuple):
    """A kind of thing, the one that is looked for, and the section of EXTENDING.md on it, if there is one."""

    name: str
    example: str
    goal: int
    most: int
    section: str
    marks: tuple[Mark, ...]


KINDS = (
    Kind("an option of bd_view", "why --of", 6, 8, "A new option of the companion", (
        Mark("crates/bd_show/s*", r'"of"|--of\b|\b(options|q)\.value\b|\bpub value\b'),
        Mark("docs/commands/bd_view-why.md", r"--of\b"),
        Mark("python/src/*", r"--of\b"),
        Mark("crates/bd_rows/data/*", r"\bwhy .*--of\b", once=True),
    )),
    Kind("an option of burch_dill", "check --diverse", 8, 8, "A new option", (
        Mark("crates/bd_app/s*", r"\bdiverse\b"),
        Mark("crates/burch_dill/src/*", r"--diverse\b"),
        Mark("docs/commands/burch_dill-*", r"--diverse\b"),
        Mark("python/src/burch_dill/client.py", r"--diverse\b"),
        Mark("crates/bd_rows/data/*", r"\bcheck .*--diverse\b", once=True),
    )),
    Kind("a code", "E18", 6, 7, "A new code", (
        Mark(SOURCES, r"\bNotConstant\b"),
        Mark("docs/LANGUAGE.md", r"\bE18\b"),
        Mark("crates/bd_rows/data/*", r"\bE18\b", once=True),
    )),
    Kind("an operator", "iff", 16, 31, "A new operator", (
        Mark(SOURCES, r'\bIff\b|"iff"|\bfn iff\b'),
        Mark("crates/bd_running_tests/src/cycles.rt", r"\(iff\b"),
        Mark("docs/LANGUAGE.md", r"\biff\b"),
        Mark("python/src/*", r"\bdef iff\b|\bimport .*\biff\b|^RESERVED .*\biff\b"),
        Mark("bench/*.py", r'\bchoice\(.*"iff"|^OPERATORS .*"iff"'),
        Mark("web/*.js", r"\biff\b"),
        Mark("crates/bd_rows/data/*", r"\(iff\b", once=True),
    )),
    Kind("a machine, outside of its folder", "reorder_buffer", 3, 2, "", (
        Mark("gallery/README.md", r"\breorder_buffer\b"),
        Mark("gallery/verdicts.txt", r"\breorder_buffer\b"),
    )),
)


class Count(NamedTuple):
    """Where a kind's example stands: how many files count, and all of them, by the mark that finds them."""

    kind: Kind
    number: int
    files: tuple[tuple[str, ...], ...]

    def faults(self, extending: str) -> Iterator[str]:
        """What is wrong with it, by the text of EXTENDING.md."""
        who = f"{self.kind.name} ({self.kind.example})"
        if self.number > self.kind.most:
            yield f"{who}: {self.number} files, and {self.kind.most} are allowed: --files lists them"
        for mark, files in zip(self.kind.marks, self.files):
            if not files:
                yield f"{who}: nothing in {mark.paths} has {mark.words}"
        section = section_of(extending, self.kind.section)
        for name in self.single() if self.kind.section else ():
            if not is_named(name, section, self.kind.example):
                yield f"{who}: {EXTENDING} doesn't name {name} in its section {self.kind.section!r}"

    def single(self) -> Iterator[str]:
        """The files each of which counts."""
        for mark, files in zip(self.kind.marks, self.files):
            yield from () if mark.once else files


def by_hand(root: Path, name: str) -> str:
    """What people wrote of a file."""
    text = (root / name).read_text(encoding="utf-8", errors="replace")
    return "\n".join(written(text)) if name.endswith(".md") else text


def found(root: Path, names: list[str], mark: Mark) -> tuple[str, ...]:
    """The files in which a mark stands."""
    words = re.compile(mark.words, re.M)
    return tuple(name for name in names if fnmatch(name, mark.paths) and words.search(by_hand(root, name)))


def count_of(root: Path, names: list[str], kind: Kind) -> Count:
    """Where the example of a kind stands, a file at the first mark that finds it."""
    seen: set[str] = set()
    files = []
    for mark in kind.marks:
        files.append(tuple(name for name in found(root, names, mark) if name not in seen))
        seen.update(files[-1])
    number = sum(min(len(of_mark), 1) if mark.once else len(of_mark) for mark, of_mark in zip(kind.marks, files))
    return Count(kind, number, tuple(files))


def section_of(text: str, title: str) -> str:
    """A section of a page, without its title."""
    return text.partition(f"## {title}\n")[2].partition("\n## ")[0]


def is_named(name: str, section: str, example: str) -> bool:
    """Whether a section names a file by its last part, a module of definitions also without its ending, a file of the
    example's command as NAME, and a command's page as that."""
    path = Path(name)
    if name.startswith("docs/commands/"):
        return "command's page" in section
    stem = "NAME" if path.stem.lower() in example.split() else path.stem
    ending = f"({re.escape(path.suffix)})?" if path.suffix == ".antt" else re.escape(path.suffix)
    return re.search(rf"\b{re.escape(stem)}{ending}(?!\w)", section) is not None


def main(words: list[str], root: Path = ROOT) -> int:
    """Prints the counts, and gives the status."""
    parser = argparse.ArgumentParser(prog="file_counts.py", description=__doc__,
                                     formatter_class=argparse.RawDescriptionHelpFormatter)
    parser.add_argument("--check", action="store_true", help="prints only what is wrong")
    parser.add_argument("--files", action="store_true", help="lists the files too")
    options = parser.parse_args(words)
    names = [name for name in git(root, "ls-files") if name not in MADE and (root / name).is_file()]
    counts = [count_of(root, names, kind) for kind in KINDS]
    for kind, number, files in counts if not options.check else ():
        print(f"{f'{kind.name} ({kind.example})':52}{number:>4} files, {kind.most:>2} allowed, {kind.goal:>2} wanted")
        for mark, of_mark in zip(kind.marks, files) if options.files else ():
            print(*(f"    {name}" for name in (of_mark[:1] if mark.once else of_mark)), sep="\n")
    extending = (root / EXTENDING).read_text(encoding="utf-8")
    faults = [fault for count in counts for fault in count.faults(extending)]
    print(*faults, sep="\n", end="\n" if faults else "")
    return 1 if faults else 0


if __name__ == "__main__":
    sys.exit(main(sys.argv[1:]))
