#!/usr/bin/env python3
"""Runs all designs of the gallery, and compares what the program says with what `gallery/verdicts.txt` does.

Each line there has a pipeline, its specification, its invariant or `-`, and the verdict, which is the same in plain and
in diverse mode. Each printed case is replayed, each proof is checked (`tools/lrat_check.py`), and where they are
installed `z3` and `cvc5` are asked the same (`smtlib.py`), a minute each. It prints a table with processor seconds and
peak memory in MB, names what takes more than 30 s or 2 GiB in the better mode, and ends with status 1 where anything
differs. With --check it asks no other solver, and prints only what differs: that takes half a minute.
"""
from __future__ import annotations

import argparse
import os
import shutil
import subprocess
import sys
import tempfile
from collections.abc import Iterator, Sequence
from typing import NamedTuple

from shared import HERE, MODES, run

sys.path.append(os.path.join(os.path.dirname(HERE), "tools"))

from lrat_check import check  # noqa: E402

GALLERY = os.path.join(os.path.dirname(HERE), "gallery")
PROOFS = {"correct": "accepted, and refutes the formula", "void": "accepted, and refutes the formula"}
LIMIT, SMT_LIMIT = 600, 60  # processor seconds
LONG, LARGE = 30, 2048  # seconds and MB, from which on a design is named


class Design(NamedTuple):
    """A line of verdicts.txt: a pipeline's name, the files of both machines and perhaps an invariant, and a verdict."""

    name: str
    files: list[str]
    inv: list[str]
    verdict: str


def listed() -> Iterator[Design]:
    """The designs of verdicts.txt."""
    with open(os.path.join(GALLERY, "verdicts.txt"), encoding="ascii") as file:
        for line in file:
            if line.strip() and line[0] != ";":
                pipe, spec, inv, verdict = [word.strip() for word in line.split("|")]
                folder = os.path.join(GALLERY, os.path.dirname(pipe))
                files = [os.path.join(GALLERY, pipe), os.path.join(folder, spec)]
                yield Design(pipe, files, [] if inv == "-" else [os.path.join(folder, inv)], verdict)


def replayed(program: str, design: Design, case: str, folder: str) -> str:
    """What a printed case shows."""
    name = os.path.join(folder, "case")
    with open(name, "w", encoding="ascii") as file:
        file.write(case)
    words = [program, "replay", *design.files, name, *design.inv]
    return subprocess.run(words, capture_output=True, text=True, check=False).stdout


def asked(program: str, design: Design, mode: str, folder: str) -> tuple[str, float, float, list[str]]:
    """The verdict, the seconds and MB that it took, and what is wrong with what came with it."""
    cnf, proof = (os.path.join(folder, name) for name in ("kept.cnf", "proof.lrat"))
    words = [program, "check", *design.files, *design.inv, *MODES[mode], "--cnf", cnf, "--lrat", proof]
    done = run(words, LIMIT)
    if done is None:
        return "no answer", LIMIT, 0, []
    output, status, took, memory = done
    verdict, _, case = output.partition("\n")
    faults = []
    if verdict in PROOFS and check(cnf, proof) != PROOFS[verdict]:
        faults.append("its proof isn't accepted")
    if case:
        shown = {"correct": "holds"}.get(verdict, verdict.replace("wrong", "broken"))
        if replayed(program, design, case, folder) != shown + "\n":
            faults.append("its case shows something else")
    return verdict or f"status {status}", took, memory, faults


def other(solver: Sequence[str], question: str) -> tuple[str | None, str]:
    """What another solver says of the question, and its seconds."""
    if shutil.which(solver[0]) is None:
        return None, "-"
    done = run([*solver, question], SMT_LIMIT)
    if done is None:
        return None, f">{SMT_LIMIT}"
    verdict = "correct" if done.output.split()[-1:] == ["unsat"] else "wrong"
    return verdict, f"{done.seconds:.2f}"


def fits(said: str, design: Design) -> bool:
    """Whether an answer is that of the line: a wrong pipeline without an invariant can only break `commute`."""
    conditions = ["commute", "invariant"] if design.inv else ["commute"]
    wrong = [f"wrong {condition}" for condition in conditions]
    return said in (wrong if design.verdict == "wrong" else [design.verdict])


def row(program: str, design: Design, folder: str) -> tuple[list[str], bool, list[str]]:
    """A row of the table, whether the design is long or large in the better mode, and what differs."""
    cells, faults = [design.name], []
    costs: list[tuple[float, float]] = []
    for mode in MODES:
        said, took, memory, wrong = asked(program, design, mode, folder)
        faults += [f"{design.name}, {mode}: {fault}" for fault in wrong]
        if not fits(said, design):
            faults.append(f"{design.name}, {mode}: {said} in place of {design.verdict}")
        cells += [said, f"{took:.2f}", f"{memory:.0f}"]
        costs.append((took, memory))
    took, memory = min(costs)
    return cells, took > LONG or memory > LARGE, faults


def others(design: Design, folder: str) -> tuple[list[str], list[str]]:
    """The cells of the other solvers, and what differs."""
    cells, faults = [], []
    question = os.path.join(folder, "question.smt2")
    with open(question, "w", encoding="ascii") as file:
        words = [sys.executable, os.path.join(HERE, "smtlib.py"), *design.files, *design.inv]
        subprocess.run(words, stdout=file, check=True)
    for solver in (["z3"], ["cvc5", "--incremental"]):
        said, took = other(solver, question)
        cells.append(took)
        if said and said != design.verdict:
            faults.append(f"{design.name}: {solver[0]} says {said}")
    return cells, faults


def compare(program: str, designs: Sequence[Design], folder: str) -> list[str]:
    """What differs, by the program alone."""
    return [fault for design in designs for fault in row(program, design, folder)[2]]


def tabulate(program: str, designs: Sequence[Design], folder: str) -> list[str]:
    """Prints the table, and gives what differs, also by other solvers."""
    named: list[str] = []
    faults: list[str] = []
    print("| Design | Plain | s | MB | Diverse | s | MB | z3 | cvc5 |")
    print("|---|---|---|---|---|---|---|---|---|")
    for design in designs:
        cells, is_long, wrong = row(program, design, folder)
        more, differing = others(design, folder)
        named += [design.name] if is_long else []
        faults += wrong + differing
        print("| " + " | ".join(cells + more) + " |", flush=True)
    print(f"\nMore than {LONG} s or {LARGE} MB in the better mode: {', '.join(named) or 'none'}.")
    return faults


def main() -> int:
    """Compares what the words ask for."""
    parser = argparse.ArgumentParser(description=__doc__, formatter_class=argparse.RawDescriptionHelpFormatter)
    parser.add_argument("program", metavar="PROGRAM", help="burch_dill")
    parser.add_argument("--only", metavar="WORD", default="", help="designs whose name has this in it")
    parser.add_argument("--check", action="store_true", help="no other solvers and no table")
    words = parser.parse_args()
    program = os.path.abspath(words.program)
    if not os.access(program, os.X_OK):
        parser.error(f"{words.program} can't be run")
    designs = [design for design in listed() if words.only in design.name]
    with tempfile.TemporaryDirectory() as folder:
        faults = (compare if words.check else tabulate)(program, designs, folder)
    print(*faults, sep="\n", end="\n" if faults else "", file=sys.stderr)
    print(f"{len(designs)} designs in both modes, {len(faults)} faults")
    return 1 if faults else 0


if __name__ == "__main__":
    sys.exit(main())
