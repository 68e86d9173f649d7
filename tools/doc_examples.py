#!/usr/bin/env python3
"""Runs the commands that documents show, and compares what comes out with what the documents print.

    tools/doc_examples.py PROGRAM .. [FILE.md ..]            says what differs, and exits with 1 if anything does
    tools/doc_examples.py PROGRAM .. --write [FILE.md ..]    puts into the documents what comes out

PROGRAM is a path of `burch_dill` or of `bd_view`, by its name; any other name is taken for `burch_dill`. Without files
it takes README.md and the pages of docs/ and docs/commands/ that have examples.

An example is a block, fenced or indented by four spaces, whose first line begins with `$ `:

    $ burch_dill check crates/burch_dill/data/two_stage.pipe crates/burch_dill/data/two_stage.spec
    correct

- A line that begins with `$ ` is a command for the shell; where it ends with a backslash, it goes on in the next line.
  The lines after it, up to the next command or the end of the block, are its output: standard output and error output
  together, as on a terminal.
- A line `...` in an output stands for any lines, or none. Such an output isn't written by `--write`.
- Blocks that begin otherwise are no examples, such as those of `rt`, which builds and proves. But a command of a
  program without its `$ ` is a fault, so that none is left out by mistake.

The commands of a document run one after the other in one new folder, in which the programs and the folders at the top
of the repository have their names. So paths are those from the top, and a command can save a file that a later one of
the document reads, without a change to the repository. After the example `$ cd examples` they run in a copy of
examples/, and paths are those from there.

Where a tool of OTHERS isn't installed, which a script of ASKS wants too, or a program isn't given, the rest of the
block isn't run, and the last line of the report says so.
"""
from __future__ import annotations

import argparse
import difflib
import os
import re
import shutil
import subprocess
import sys
import tempfile
from pathlib import Path
from typing import Iterator, NamedTuple

ROOT = Path(__file__).resolve().parent.parent
DOCUMENTS = ("README.md", "docs/*.md", "docs/develop/*.md", "docs/commands/*.md", "gallery/riddles/ANSWERS.md")
OTHERS = ("cadical", "parallel")
ASKS = {"tools/prove.py": ("cadical",), "tools/conquer.py": ("cadical", "parallel")}
PROGRAMS = ("burch_dill", "bd_view")
PROMPT = "$ "
DESIGNS = "examples"
ENTERS = f"cd {DESIGNS}"
CUT = "..."
SECONDS = 60


class Block(NamedTuple):
    """A block of code: the number of its first line, from 1, its lines without indentation, and that indentation."""

    start: int
    lines: list[str]
    indent: str


class Example(NamedTuple):
    """A command, the number of its last line, and the lines that the document shows as its output."""

    line: int
    command: str
    shown: list[str]


class Result(NamedTuple):
    """An example and the lines that came out, or None where it wasn't run."""

    example: Example
    printed: list[str] | None

    def differs(self) -> bool:
        return self.printed is not None and not matches(self.example.shown, self.printed)


def goes_on(lines: list[str], at: int) -> bool:
    """Whether an indented block goes on after an empty line: with a line that is no command."""
    after = next((line for line in lines[at:] if line.strip()), "")
    return not lines[at].strip() and after.startswith("    ") and not after[4:].startswith(PROMPT)


def blocks(lines: list[str]) -> Iterator[Block]:
    """The blocks of code of a document, in their order."""
    at = 0
    while at < len(lines):
        start = at
        if lines[at].startswith("```"):
            while at + 1 < len(lines) and not lines[at + 1].startswith("```"):
                at += 1
            yield Block(start + 2, lines[start + 1:at + 1], "")
            at += 2
        elif lines[at].startswith("    ") and not "".join(lines[at - 1:at]).strip():
            while at < len(lines) and (lines[at].startswith("    ") or goes_on(lines, at)):
                at += 1
            yield Block(start + 1, [line[4:] for line in lines[start:at]], "    ")
        else:
            at += 1


def examples(block: Block) -> list[Example]:
    """The examples of a block; none where it begins otherwise."""
    found: list[Example] = []
    if not block.lines or not block.lines[0].startswith(PROMPT):
        return found
    for number, line in enumerate(block.lines, block.start):
        if line.startswith(PROMPT):
            found.append(Example(number, line[len(PROMPT):], []))
        elif found[-1].command.endswith("\\"):
            found[-1] = Example(number, found[-1].command[:-1] + line.strip(), [])
        else:
            found[-1].shown.append(line)
    return found


def unmarked(block: Block) -> list[int]:
    """The numbers of the lines that hold a command of a program without the mark."""
    words = tuple(name + " " for name in PROGRAMS)
    return [number for number, line in enumerate(block.lines, block.start) if line.startswith(words)]


def matches(shown: list[str], printed: list[str]) -> bool:
    """Whether the lines that are shown, cuts among them, are those that were printed."""
    pattern = "".join(r"(?:.*\n)*" if line == CUT else re.escape(line) + r"\n" for line in shown)
    return re.fullmatch(pattern, "".join(line + "\n" for line in printed)) is not None


def prepare(folder: Path, programs: dict[str, Path]) -> dict[str, str]:
    """Fills the folder in which commands run, and gives the environment for them."""
    commands = folder / ".commands"
    commands.mkdir()
    for name, program in programs.items():
        (commands / name).symlink_to(program)
    for path in ROOT.iterdir():
        if path.is_dir() and path.name != DESIGNS and not path.name.startswith("."):
            (folder / path.name).symlink_to(path)
    (folder / DESIGNS).mkdir()
    for path in (ROOT / DESIGNS).iterdir():
        shutil.copy(path, folder / DESIGNS)
    return {**os.environ, "PATH": f"{commands}:{os.environ['PATH']}", "LC_ALL": "C", "PYTHONDONTWRITEBYTECODE": "1"}


def run(command: str, folder: Path, environment: dict[str, str]) -> list[str]:
    """The lines that a command prints; a last line says so where it takes too long."""
    try:
        done = subprocess.run(command, shell=True, cwd=folder, env=environment, stdin=subprocess.DEVNULL,
                              stdout=subprocess.PIPE, stderr=subprocess.STDOUT, timeout=SECONDS, check=False)
    except subprocess.TimeoutExpired as late:
        return (late.stdout or b"").decode("utf-8", "replace").splitlines() + [f"(stopped after {SECONDS} seconds)"]
    return done.stdout.decode("utf-8", "replace").splitlines()


def is_missing(command: str, programs: dict[str, Path]) -> bool:
    """Whether the command is or asks another tool that isn't installed, or begins with a program that isn't given."""
    word = command.split()[0]
    others = [other for other in ASKS.get(word.removeprefix("../"), (word,)) if other in OTHERS]
    return any(shutil.which(other) is None for other in others) or (word in PROGRAMS and word not in programs)


def run_document(document: list[Block], programs: dict[str, Path]) -> list[Result]:
    """Runs the examples of a document."""
    results = []
    with tempfile.TemporaryDirectory() as name:
        folder = Path(name)
        environment = prepare(folder, programs)
        for block in document:
            missing = False
            for example in examples(block):
                if example.command == ENTERS:
                    folder = Path(name) / DESIGNS
                    results.append(Result(example, []))
                    continue
                missing = missing or is_missing(example.command, programs)
                printed = None if missing else run(example.command, folder, environment)
                results.append(Result(example, printed))
    return results


def difference(name: str, result: Result) -> str:
    """The place and the command of an example, and how the lines differ."""
    lines = difflib.unified_diff(result.example.shown, result.printed or [], "shown", "printed", lineterm="")
    return "\n".join([f"{name}:{result.example.line}: {result.example.command}", *lines])


def write(path: Path, document: list[Block], results: list[Result]) -> None:
    """Puts what was printed in the place of what is shown, from the last example to the first; cuts stay."""
    indents = {example.line: block.indent for block in document for example in examples(block)}
    lines = path.read_text(encoding="utf-8").splitlines()
    for example, printed in reversed(results):
        if printed is not None and CUT not in example.shown:
            indent = indents[example.line]
            lines[example.line:example.line + len(example.shown)] = [(indent + line).rstrip() for line in printed]
    path.write_text("\n".join(lines) + "\n", encoding="utf-8")


def name_of(word: str) -> str:
    """The name by which documents call the program of this path."""
    return Path(word).name if Path(word).name in PROGRAMS else PROGRAMS[0]


def asked_for(words: list[str]) -> argparse.Namespace:
    """The words of a call, whose programs can be run."""
    parser = argparse.ArgumentParser(prog="doc_examples.py", description=__doc__,
                                     formatter_class=argparse.RawDescriptionHelpFormatter)
    parser.add_argument("--write", action="store_true", help="put into the documents what comes out")
    parser.add_argument("named", nargs="+", metavar="PROGRAM|FILE.md", help="programs and documents")
    asked = parser.parse_intermixed_args(words)
    for word in asked.named:
        if not word.endswith(".md") and not os.access(word, os.X_OK):
            parser.error(f"{word} can't be run")
    return asked


def main(words: list[str]) -> int:
    """Runs the examples, and gives the status."""
    asked = asked_for(words)
    programs = {name_of(word): Path(word).resolve() for word in asked.named if not word.endswith(".md")}
    named = [Path(word) for word in asked.named if word.endswith(".md")]
    paths = named or [path for pattern in DOCUMENTS for path in sorted(ROOT.glob(pattern))]
    count = left_out = faults = 0
    for path in paths:
        document = list(blocks(path.read_text(encoding="utf-8").splitlines()))
        results = run_document(document, programs)
        name = os.path.relpath(path)
        reports = [f"{name}:{line}: a command without `$ `" for block in document for line in unmarked(block)]
        reports += [difference(name, result) for result in results if result.differs()]
        if reports:
            print("\n".join(reports))
        if asked.write:
            write(path, document, results)
        count += len(results)
        left_out += sum(result.printed is None for result in results)
        faults += len(reports)
    print(f"{count} examples, {left_out} not run, {faults} faults")
    return 1 if faults else 0


if __name__ == "__main__":
    sys.exit(main(sys.argv[1:]))
