#!/usr/bin/env python3
"""Counts for how many wrong twins `bd_view why` tells the bug in a cycle in which it acts, and `show` what differs.

The twins are those of `gallery/verdicts.txt` whose right machine lies beside them, the riddles, and those of
`bench/machines`: there a folder has a right machine, which has to be correct in both modes, and for each twin a file
NAME.edit with a sentence and pairs of lines, `old:` with a text that the machine has once, and `new:` with what stands
there in the twin.

Each twin is checked, and its case goes to `bd_view why`. A let or next value that isn't the right machine's is told
decisively where a line `FILE:LINE:COLUMN: CYCLE: ..` tells it of a cycle in which its value differs from the right
item's (`cycles.py` works both out for the case made small). Twins that differ in no item are counted apart. `bd_view
show` has to show the same differences, with the same values, in the small case as in the whole one.

It prints a line for each twin, with the place of the first line that tells the bug, and the counts: nine of ten
should be told decisively, and eight of ten within the first 24 lines.
"""
from __future__ import annotations

import argparse
import glob
import os
import re
import shutil
import subprocess
import sys
import tempfile
from collections.abc import Iterator, Sequence
from typing import NamedTuple

from cycles import Machine, differing, read_case
from gallery import listed
from shared import HERE, MODES

MACHINES = os.path.join(HERE, "machines")
FIRST = 24  # lines
PLACE = re.compile(r"^(\S+?):(\d+):(\d+): (.+?): ")
EDIT = re.compile(r"^old: (.*)\nnew: (.*)$", re.MULTILINE)
SIDE = re.compile(r"([=#]) (\S+)")


class Twin(NamedTuple):
    """A wrong pipeline: its name, its files, and the text of the right one."""

    name: str
    files: list[str]
    inv: list[str]
    right: str


def text_of(name: str) -> str:
    """The text of a file."""
    with open(name, encoding="ascii") as file:
        return file.read()


def printed(*words: str) -> str:
    """What a program prints."""
    return subprocess.run(words, capture_output=True, text=True, check=False).stdout


def explained(view: str, twin: Twin, case: str) -> str:
    """What `why` prints in a folder that has the files by their bare names, as a designer's has."""
    with tempfile.TemporaryDirectory() as folder:
        given = [*twin.files, case, *twin.inv]
        for name in given:
            shutil.copy(name, folder)
        words = [os.path.abspath(view), "why", *(os.path.basename(name) for name in given)]
        return subprocess.run(words, capture_output=True, text=True, check=False, cwd=folder).stdout


def of_gallery() -> Iterator[Twin]:
    """The wrong pipelines of the gallery that have a right machine beside them."""
    for pipe, files, inv, verdict in listed():
        folder = os.path.dirname(files[1])
        right = os.path.join(folder, os.path.basename(os.path.normpath(folder)) + ".pipe")
        if verdict == "wrong" and os.path.exists(right):
            yield Twin(pipe, files, inv, text_of(right))


def edited(text: str, edit: str) -> str:
    """A text after the edits of a file."""
    for old, new in EDIT.findall(text_of(edit)):
        if text.count(old) != 1:
            sys.exit(f"{edit}: {text.count(old)} times: {old}")
        text = text.replace(old, new)
    return text


def of_machines(program: str, scratch: str) -> Iterator[Twin]:
    """The twins of `bench/machines`, written into a folder."""
    for pipe in sorted(glob.glob(os.path.join(MACHINES, "*", "*.pipe"))):
        folder = os.path.dirname(pipe)
        spec, inv = pipe[:-4] + "spec", glob.glob(os.path.join(folder, "*.inv"))
        for mode in MODES.values():
            verdict = printed(program, "check", pipe, spec, *inv, *mode).partition("\n")[0]
            if verdict != "correct":
                sys.exit(f"{pipe}: {verdict}")
        right = text_of(pipe)
        for edit in sorted(glob.glob(os.path.join(folder, "*.edit"))):
            name = os.path.join(scratch, os.path.basename(edit)[:-4] + "pipe")
            text = edited(right, edit)
            with open(name, "w", encoding="ascii") as file:
                file.write(text)
            shown = os.path.join(os.path.basename(folder), os.path.basename(name))
            yield Twin(shown, [name, spec], inv, right)


def told(output: str, twin: Twin, small: str) -> tuple[str, int]:
    """How the bug is told, and by which line, from 1: for a cycle in which it acts, for another one, or not at all."""
    right, ours = Machine(twin.right), Machine(text_of(twin.files[0]))
    acts = differing(right, ours, read_case(small, ours))
    if not acts or right.others != ours.others:
        return "no item differs", 0
    other = 0
    for place, line in enumerate(output.splitlines(), 1):
        found = PLACE.match(line)
        if found is None or found.group(1) != os.path.basename(twin.files[0]):
            continue
        name = ours.names.get((int(found.group(2)), int(found.group(3))))
        if name in acts:
            if found.group(4) in acts[name]:
                return "decisive", place
            other = other or place
    return ("another cycle", other) if other else ("not told", 0)


def differences(output: str) -> tuple[str, set[tuple[object, ...]]]:
    """The judgement of what `show` prints, and its differences: an entry, a number of steps, and both sides' values."""
    found: set[tuple[object, ...]] = set()
    for row in output.partition("\nflushed ")[2].partition("\n\n")[0].splitlines()[1:]:
        ours, _, theirs = row.partition("|")
        for steps, (sign, value) in enumerate(SIDE.findall(theirs)):
            if sign == "#":
                found.add((*ours.split(), steps, value))
    return output.partition("\n")[0], found


def keeps(view: str, files: Sequence[str], case: str, inv: Sequence[str]) -> bool:
    """Whether a case that is made small shows the same differences. If the invariant is broken, only that is kept."""
    judged, whole = differences(printed(view, "show", *files, case, *inv, "--whole"))
    small = differences(printed(view, "show", *files, case, *inv))
    return small[0] == judged and (judged.startswith("invariant broken") or small[1] == whole != set())


def summed(kind: str, rows: Sequence[tuple[str, int, bool]]) -> bool:
    """Prints the counts, and whether they are what they should be."""
    counted = [row for row in rows if row[0] != "no item differs"]
    decisive = [place for how, place, _ in counted if how == "decisive"]
    near = sum(place <= FIRST for place in decisive)
    kept = sum(row[2] for row in rows)
    print(f"{kind}: {len(decisive)} of {len(counted)} decisive, {near} in the first {FIRST} lines, "
          f"{kept} of {len(rows)} small cases keep what differs")
    enough = len(decisive) * 10 >= len(counted) * 9 and near * 10 >= len(counted) * 8
    return enough and kept == len(rows)


def main() -> None:
    """Prints a line for each twin, and the counts."""
    parser = argparse.ArgumentParser(description=__doc__, formatter_class=argparse.RawDescriptionHelpFormatter)
    parser.add_argument("program", metavar="PROGRAM", help="burch_dill")
    parser.add_argument("view", metavar="VIEW", help="bd_view")
    parser.add_argument("--diverse", action="store_true", help="cases of the other mode")
    parser.add_argument("--only", metavar="WORD", default="", help="twins whose name has this in it")
    parser.add_argument("--show", action="store_true", help="print what is told, too")
    asked = parser.parse_args()
    mode = ["--diverse"] if asked.diverse else []
    right = True
    with tempfile.TemporaryDirectory() as folder:
        case = os.path.join(folder, "case")
        for kind, twins in ("gallery", of_gallery()), ("machines", of_machines(asked.program, folder)):
            rows: list[tuple[str, int, bool]] = []
            for twin in twins:
                if asked.only not in twin.name:
                    continue
                with open(case, "w", encoding="ascii") as file:
                    file.write(printed(asked.program, "check", *twin.files, *twin.inv, *mode))
                output = explained(asked.view, twin, case)
                how, place = told(output, twin, printed(asked.view, "shrink", *twin.files, case, *twin.inv))
                kept = keeps(asked.view, twin.files, case, twin.inv)
                rows.append((how, place, kept))
                where = f"{how}, line {place} of {len(output.splitlines())}" if place else how
                print(f"{twin.name:47} {where}{'' if kept else '; differs otherwise'}")
                if asked.show:
                    print(output)
            right &= summed(kind, rows)
    sys.exit(0 if right else 1)


if __name__ == "__main__":
    main()
