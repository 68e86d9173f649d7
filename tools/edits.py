#!/usr/bin/env python3
"""Lists the wrong bodies that say nothing of a contract.

A wrong body (`crates/NAME/must-fail/*.edit`) tells something where it is refused at the clause in its name. It tells
nothing where only a proof file refuses it, since the edit took away a name that the file cites, where the prover
couldn't read it, or where it isn't refused. LOG is what `rt ci` or `rt must-fail` printed; without one, at the top of
the repository, `rt must-fail` is run. The status is 1 where some wrong body is listed, and 0 where none is.
"""
from __future__ import annotations

import argparse
import re
import subprocess
import sys
from pathlib import Path
from typing import Dict, Iterable, List

TRIED = re.compile(r"^(rt: )?must-fail (?P<edit>\S+?\.edit|\S+): (?P<told>.*)$")
SILENT = (
    ("only because a proof file names what the edit took away", "refused by a proof file alone"),
    ("BAD EDIT", "can't be read"),
    ("NOT REFUSED", "isn't refused"),
    ("NOT TRIED", "wasn't tried"),
)


def silent(lines: Iterable[str]) -> Dict[str, str]:
    """The wrong bodies that tell nothing, each with the reason, in the order of their last lines."""
    found: Dict[str, str] = {}
    for line in lines:
        tried = TRIED.match(line.strip())
        if tried:
            found.pop(tried["edit"], None)
            for words, reason in SILENT:
                if words in tried["told"]:
                    found[tried["edit"]] = reason
                    break
    return found


def lines_of(names: List[Path]) -> List[str]:
    """The lines of these logs, or of a run of `rt must-fail`."""
    if names:
        return [line for name in names for line in name.read_text(encoding="utf-8").splitlines()]
    ran = subprocess.run(["rt", "must-fail"], stdout=subprocess.PIPE, text=True, check=False)
    return ran.stdout.splitlines()


def main(words: List[str]) -> int:
    """Prints what is found, and gives the status."""
    parser = argparse.ArgumentParser(prog="edits.py", description=__doc__,
                                     formatter_class=argparse.RawDescriptionHelpFormatter)
    parser.add_argument("logs", metavar="LOG", type=Path, nargs="*", help="what `rt ci` or `rt must-fail` printed")
    logs = parser.parse_args(words).logs
    for log in logs:
        if not log.is_file():
            parser.error(f"{log} isn't a file")
    found = silent(lines_of(logs))
    for edit, reason in found.items():
        print(f"{edit}: {reason}")
    return 1 if found else 0


if __name__ == "__main__":
    sys.exit(main(sys.argv[1:]))
