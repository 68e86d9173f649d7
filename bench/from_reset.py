#!/usr/bin/env python3
"""In which cycle after reset each wrong twin of the gallery goes wrong first, by `bounded`.

Reset is taken to make each truth value false, and says nothing of words and memories. The pages of the gallery have
the cycle in the last column of their table of twins; a twin that isn't wrong within --cycles has `not within N`. It
says where a page has something else, and exits with 1 if any does; with --write it puts into the pages what it finds.
"""
from __future__ import annotations

import argparse
import os
import re
import subprocess
import sys
import tempfile
from collections.abc import Sequence

from gallery import GALLERY, listed

HEAD = "From reset"


def start(pipe: str) -> str:
    """The start that says that no truth value of the pipeline is true."""
    with open(pipe, encoding="ascii") as file:
        bits = re.findall(r"\(latch ([\w.-]+) bool\)", re.sub(r";[^\n]*", "", file.read()))
    return f"(start (and true true {' '.join(f'(not {bit})' for bit in bits)}))\n"


def first_wrong(program: str, files: Sequence[str], cycles: int, seconds: int, folder: str) -> str:
    """What the page should say of a twin."""
    name = os.path.join(folder, "reset.start")
    with open(name, "w", encoding="ascii") as file:
        file.write(start(files[0]))
    for cycle in range(1, cycles + 1):
        try:
            done = subprocess.run([program, "bounded", *files, name, str(cycle)], capture_output=True, text=True,
                                  timeout=seconds, check=False)
        except subprocess.TimeoutExpired:
            return f"not within {cycle - 1}"
        if done.stdout.startswith("wrong commute"):
            return f"cycle {cycle}"
    return f"not within {cycles}"


def page_of(twin: str) -> str:
    """The page of a twin's machine."""
    return os.path.join(GALLERY, os.path.dirname(twin), "README.md")


def with_column(text: str, twin: str, said: str) -> str:
    """The page with a twin's last cell, whose table gets the column where it hasn't one."""
    lines = text.split("\n")
    for at, line in enumerate(lines):
        if line.startswith("| Twin |") and HEAD not in line:
            lines[at] += f" {HEAD} |"
            lines[at + 1] += "---|"
        if line.startswith(f"| `{os.path.basename(twin)}` "):
            cells = line.strip("|").split("|")[:2]
            lines[at] = "|" + "|".join(cells) + f"| {said} |"
    return "\n".join(lines)


def main() -> int:
    """Compares or writes the columns."""
    parser = argparse.ArgumentParser(description=__doc__, formatter_class=argparse.RawDescriptionHelpFormatter)
    parser.add_argument("program", metavar="PROGRAM", help="burch_dill")
    parser.add_argument("--only", metavar="WORD", default="", help="twins whose name has this in it")
    parser.add_argument("--cycles", metavar="N", type=int, default=6, help="how many at most (6)")
    parser.add_argument("--seconds", metavar="N", type=int, default=100, help="for each run")
    parser.add_argument("--write", action="store_true", help="put into the pages what is found")
    words = parser.parse_args()
    faults = 0
    with tempfile.TemporaryDirectory() as folder:
        for twin, files, _, verdict in listed():
            page = page_of(twin)
            if words.only not in twin or verdict != "wrong" or "riddles" in twin:
                continue
            with open(page, encoding="utf-8") as file:
                text = file.read()
            said = first_wrong(os.path.abspath(words.program), files, words.cycles, words.seconds, folder)
            wanted = with_column(text, twin, said)
            print(f"{twin}: {said}", flush=True)
            if wanted != text and words.write:
                with open(page, "w", encoding="utf-8") as file:
                    file.write(wanted)
            elif wanted != text:
                print(f"  {os.path.relpath(page)} has something else")
                faults += 1
    return 1 if faults else 0


if __name__ == "__main__":
    sys.exit(main())
