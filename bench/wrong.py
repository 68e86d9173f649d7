#!/usr/bin/env python3
"""Tries the wrong bodies that the gate leaves out: each of their crates would cost it a second proof.

usage: bench/wrong.py [NAME ..]

`bench/wrong/NAME/` has those of the crate NAME. In a copy of the repository they take the place of the gate's, and
are tried there: those of the crates that are named, or all. Where the kit's `rt ci` takes names it tries them, since
it uses what earlier runs proved; else `rt must-fail` does. The status is that of the one that did.
"""
from __future__ import annotations

import argparse
import shutil
import subprocess
import sys
import tempfile
from collections.abc import Sequence
from pathlib import Path

TOP = Path(__file__).resolve().parent.parent
LEFT_OUT = TOP / "bench" / "wrong"


def command() -> list[str]:
    """The command of this kit that tries the wrong bodies of the crates named after it."""
    told = subprocess.run(["rt", "help"], capture_output=True, text=True, check=False)
    return ["rt", "ci"] if "rt ci NAME" in told.stdout + told.stderr else ["rt", "must-fail"]


def tried(names: Sequence[str]) -> int:
    """The status of trying them on a copy of the repository in which these crates have their wrong bodies alone."""
    with tempfile.TemporaryDirectory(prefix="wrong-") as room:
        copy = Path(room, "repo")
        shutil.copytree(TOP, copy, ignore=shutil.ignore_patterns(".git", "must-fail"))
        for name in names:
            shutil.copytree(LEFT_OUT / name, copy / "crates" / name / "must-fail")
        return subprocess.run([*command(), *names], cwd=copy, check=False).returncode


def main(words: Sequence[str]) -> int:
    """Tries the wrong bodies of the crates that are named, or of all that have some."""
    some = sorted(folder.name for folder in LEFT_OUT.iterdir())
    parser = argparse.ArgumentParser(prog="wrong.py", description=__doc__,
                                     formatter_class=argparse.RawDescriptionHelpFormatter)
    parser.add_argument("names", nargs="*", metavar="NAME", help=f"crates; all are {', '.join(some)}")
    names = parser.parse_args(words).names
    for name in names:
        if name not in some:
            parser.error(f"no wrong bodies are left out of {name}")
    return tried(names or some)


if __name__ == "__main__":
    sys.exit(main(sys.argv[1:]))
