#!/usr/bin/env python3
"""Runs the built program on wrong twins of the machines that the field measures by, and on other ways to write them.

The machines are those of `dlx` and `vliw` of the Python package, asked by `check --diverse`; the right ones are in the
tables of `measure.py`. With --twins the table has all wrong twins of each machine, with --ways some machines written in
other ways: what the program says, its processor seconds, how many clauses it learned, and the size of the formula.

Seconds are medians of --runs runs; what takes more than half a minute runs once. With --counts each thing runs once and
no seconds are printed, which serves where other work is done beside. `>N` didn't end within the limit, of N processor
seconds. With --write the rows are put into FILE too, between the marks of their table, as
`<!-- twins: made by bench/field.py -->` and `<!-- twins: to here -->`; rows that stand there under the same head are
kept where they weren't asked for.
"""
from __future__ import annotations

import argparse
import os
import re
import statistics
import sys
import tempfile
from collections.abc import Callable, Iterator, Sequence

from shared import HERE, added_clauses, formula_size, run

sys.path.append(os.path.join(os.path.dirname(HERE), "python", "src"))

from burch_dill.machines import dlx, vliw  # noqa: E402

MACHINES = ("1xDLX-C", "1xDLX-C-MC-EX-BP", "2xDLX-CA", "2xDLX-CA-MC-EX-BP", "2xDLX-CC", "2xDLX-CC-MC", "2xDLX-CC-EX",
            "2xDLX-CC-BP", "2xDLX-CC-MC-EX-BP", "4VLIW-MC", "4VLIW-MC-BP", "9VLIW-MC", "9VLIW-MC-BP")
WRITTEN = ("1xDLX-C", "1xDLX-C-MC-EX-BP", "2xDLX-CA")
WAYS: dict[str, dict[str, bool]] = {
    "as it is": {}, "decode written without a fetch": {"idle": True}, "fields taken in decode": {"late": True},
    "a memory for data": {"ordered": True}, "all three": {"idle": True, "late": True, "ordered": True}}
LONG = 30  # seconds, from which on nothing runs twice
EVERY = [*dlx.machines(), *vliw.machines()]


Row = tuple[float, int, str, bool]  # a twin: its seconds, what it learns, its name, whether it is found
Rows = Callable[[argparse.Namespace, str], Iterator[list[str]]]


def texts_of(name: str, **ways: object) -> Sequence[str | None]:
    """The texts of a machine."""
    return vliw.design(name, str(ways.get("wrong", ""))) if "VLIW" in name else dlx.design(name, **ways)


class Question:
    """A machine's files in a folder, and those that the program saves of it."""

    def __init__(self, folder: str, name: str, **ways: object) -> None:
        texts = texts_of(name, **ways)
        self.name = name
        self.files: list[str] = []
        self.cnf, self.proof = (os.path.join(folder, part) for part in ("kept.cnf", "proof.lrat"))
        for part, text in zip(("pipe", "spec", "inv"), texts):
            if text is not None:
                self.files.append(os.path.join(folder, part))
                with open(self.files[-1], "w", encoding="ascii") as file:
                    file.write(text)

    def command(self, words: argparse.Namespace, budget: int | None = None) -> list[str]:
        """The words that ask it, within a budget."""
        most = str(words.budget if budget is None else budget)
        return [words.program, "check", *self.files, "--diverse", "--budget", most]


def median(command: Sequence[str], limit: int, runs: int) -> tuple[str, float] | None:
    """The output and the median of the processor seconds of some runs, or None where one takes too long."""
    times, output = [], ""
    for _ in range(runs):
        done = run(command, limit)
        if done is None:
            return None
        output = done.output
        times.append(done.seconds)
        if done.seconds > LONG:
            break
    return output, statistics.median(times)


def sizes(cnf: str) -> list[str]:
    """How many variables and clauses a formula has."""
    return [f"{int(count):,}" for count in formula_size(cnf)]


def own_cells(question: Question, words: argparse.Namespace) -> tuple[str | None, float | None, list[str]]:
    """What the program says, its seconds, and the cells of its row."""
    kept = run([*question.command(words), "--cnf", question.cnf, "--lrat", question.proof], words.limit)
    if kept is None:
        run([*question.command(words, 0), "--cnf", question.cnf], words.limit)
        seconds = [] if words.counts else [f">{words.limit}"]
        return None, words.limit, ["-", *seconds, "-", *sizes(question.cnf)]
    answer = kept.output.split("\n", 1)[0]
    counts = [f"{added_clauses(question.proof):,}", *sizes(question.cnf)]
    if words.counts:
        return answer, None, [answer, *counts]
    timed = median(question.command(words), words.limit, words.runs)
    own = timed[1] if timed else words.limit
    return answer, own, [answer, f"{own:.2f}", *counts]


def by_learned(row: Row) -> int:
    """What a twin learns."""
    return row[1]


def twin_rows(words: argparse.Namespace, folder: str) -> Iterator[list[str]]:
    """The rows of the table of wrong twins."""
    for name in EVERY if words.all else MACHINES:
        if words.only not in name:
            continue
        found: list[Row] = []
        twins = (vliw if "VLIW" in name else dlx).twins(name)
        for twin in twins:
            question = Question(folder, name, wrong=twin)
            answer, own, cells = own_cells(question, words)
            learned = int(cells[-3].replace(",", "")) if answer else words.budget
            found.append((own or 0, learned, twin, bool(answer and answer.startswith("wrong"))))
        missed = [twin for _, _, twin, is_found in found if not is_found]
        slowest = max(found) if not words.counts else max(found, key=by_learned)
        said = ", ".join(missed) if missed else "all"
        seconds = [] if words.counts else [f"{statistics.median(row[0] for row in found):.2f}", f"{slowest[0]:.2f}"]
        yield [name, str(len(twins)), said, *seconds, slowest[2], f"{slowest[1]:,}"]


def way_rows(words: argparse.Namespace, folder: str) -> Iterator[list[str]]:
    """The rows of the table of ways."""
    for name in WRITTEN:
        for way, options in WAYS.items():
            if words.only in f"{name}, {way}":
                yield [name, way, *own_cells(Question(folder, name, **options), words)[2]]


def heads(words: argparse.Namespace) -> tuple[str, Rows, list[str]]:
    """The name of the table, its rows, and its head."""
    own = ["answer", *([] if words.counts else ["s"]), "learned", "variables", "clauses"]
    if words.twins:
        seconds = [] if words.counts else ["median s", "longest s"]
        most = "learns most" if words.counts else "the longest"
        return "twins", twin_rows, ["machine", "wrong twins", "found", *seconds, most, "it learns"]
    return "ways", way_rows, ["machine", "written", *own]


def merged(old: list[str], new: list[str]) -> list[str]:
    """A table's lines with what the new one has of it, or the new one where its head is another."""
    if old[:2] != new[:2]:
        return new
    keys = 2 if " written " in new[0] else 1
    rows = {tuple(line.split(" | ")[:keys]): line for line in [*old[2:], *new[2:]]}
    return [*new[:2], *rows.values()]


def put(name: str, lines: list[str], document: str) -> None:
    """Puts a table between its marks in a document."""
    first, last = f"<!-- {name}: made by bench/field.py -->\n", f"<!-- {name}: to here -->"
    with open(document, encoding="ascii") as file:
        text = file.read()
    found = re.search(re.escape(first) + ".*?" + re.escape(last), text, re.DOTALL)
    if not found:
        raise SystemExit(f"{document} has no marks for {name}")
    old = [line for line in found.group().split("\n") if line.startswith("|")]
    table = "\n".join(merged(old, lines))
    with open(document, "w", encoding="ascii") as file:
        file.write(f"{text[:found.start()]}{first}\n{table}\n\n{last}{text[found.end():]}")


def main() -> None:
    """Prints a table."""
    parser = argparse.ArgumentParser(description=__doc__, formatter_class=argparse.RawDescriptionHelpFormatter)
    parser.add_argument("program", metavar="PROGRAM", help="burch_dill")
    which = parser.add_mutually_exclusive_group(required=True)
    which.add_argument("--twins", action="store_true", help="the table of wrong twins")
    which.add_argument("--ways", action="store_true", help="the table of ways to write a machine")
    parser.add_argument("--all", action="store_true", help="all machines that can be written")
    parser.add_argument("--only", default="", help="rows whose name has this in it")
    parser.add_argument("--runs", type=int, default=3, help="how many runs a median is of")
    parser.add_argument("--limit", type=int, default=300, help="processor seconds for each run")
    parser.add_argument("--budget", type=int, default=200000, help="how many clauses `check` may learn")
    parser.add_argument("--counts", action="store_true", help="one run each, and no seconds")
    parser.add_argument("--write", metavar="FILE", help="put the table into this document too")
    words = parser.parse_args()
    words.program = os.path.abspath(words.program)
    name, rows, head = heads(words)
    lines = ["| " + " | ".join(head) + " |", "|" + "---|" * len(head)]
    print("\n".join(lines))
    with tempfile.TemporaryDirectory() as folder:
        for cells in rows(words, folder):
            lines.append("| " + " | ".join(cells) + " |")
            print(lines[-1], flush=True)
    if words.write:
        put(name, lines, words.write)


if __name__ == "__main__":
    main()
