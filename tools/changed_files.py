#!/usr/bin/env python3
"""Lists the files that commits change, and counts them: how many places a change touches.

COMMITS is as for `git diff`: two of them as A..B, or one, up to the files as they are. Without it, what isn't committed
is counted, new files too. With --by-hand files don't count in which only that differs which scripts write: made parts,
words of command pages, outputs of examples, counts of rows. With --most the status is 1 if there are more.
"""
from __future__ import annotations

import argparse
import re
import subprocess
import sys
from fnmatch import fnmatch
from pathlib import Path

import doc_examples
from word_counts import MADE_PART

ROOT = Path(__file__).resolve().parent.parent
MADE = ("docs/develop/DEFINITIONS.md", "crates/bd_rows/stdout", "crates/bd_rows/data/usage.txt")
WORDS = re.compile(r"`(?:burch_dill|bd_view) [^`]*`")


def git(folder: Path, *words: str) -> list[str]:
    """The lines that git prints; its own message ends the run if it fails."""
    done = subprocess.run(["git", "-C", str(folder), *words], stdout=subprocess.PIPE, text=True, check=False)
    if done.returncode:
        sys.exit(2)
    return done.stdout.splitlines()


def changed(folder: Path, commits: str | None, left_out: list[str]) -> list[str]:
    """The files that are changed, added, removed or renamed, but those that a pattern leaves out."""
    names = git(folder, "diff", "--name-only", "--no-renames", commits or "HEAD", "--")
    if commits is None:
        names += git(folder, "ls-files", "--others", "--exclude-standard")
    return sorted(name for name in set(names) if not any(fnmatch(name, pattern) for pattern in left_out))


def text_at(folder: Path, revision: str, name: str) -> str:
    """A file's text in a commit, or as it is where none is named; of no file, nothing."""
    if not revision:
        path = folder / name
        return path.read_text(encoding="utf-8", errors="replace") if path.is_file() else ""
    shown = subprocess.run(["git", "-C", str(folder), "show", f"{revision}:{name}"], capture_output=True, check=False)
    return shown.stdout.decode(errors="replace")


def written(text: str) -> list[str]:
    """The lines of a document that people write."""
    lines = MADE_PART.sub("", text).splitlines()
    outputs = {number for block in doc_examples.blocks(lines) for example in doc_examples.examples(block)
               for number in range(example.line, example.line + len(example.shown))}
    return [line for number, line in enumerate(lines) if number not in outputs and not WORDS.fullmatch(line)]


def by_hand(folder: Path, commits: str | None, name: str) -> bool:
    """Whether people wrote what differs in a file."""
    before, _, after = (commits or "HEAD").partition("..")
    if name in MADE or not name.endswith(".md"):
        return name not in MADE
    return written(text_at(folder, before, name)) != written(text_at(folder, after, name))


def main(words: list[str], folder: Path = ROOT) -> int:
    """Prints the files and their number, and gives the status."""
    parser = argparse.ArgumentParser(prog="changed_files.py", description=__doc__,
                                     formatter_class=argparse.RawDescriptionHelpFormatter)
    parser.add_argument("commits", metavar="COMMITS", nargs="?", help="such as HEAD~3..HEAD")
    parser.add_argument("--most", metavar="N", type=int, help="the most files that are allowed")
    parser.add_argument("--without", metavar="PATTERN", action="append", default=[],
                        help="files that don't count, such as 'docs/*', also repeated")
    parser.add_argument("--by-hand", action="store_true", help="leave out what scripts write")
    options = parser.parse_args(words)
    names = changed(folder, options.commits, options.without)
    if options.by_hand:
        names = [name for name in names if by_hand(folder, options.commits, name)]
    print(*names, f"{len(names)} files", sep="\n")
    return 1 if options.most is not None and len(names) > options.most else 0


if __name__ == "__main__":
    sys.exit(main(sys.argv[1:]))
