#!/usr/bin/env python3
"""Runs the built program, and others where they are installed, on families of pipelines and formulas.

Each design has a row for each mode of `check`, the second with `--diverse`: what the program says; by `gdb`
(`inside.py`), the time that it takes to read the design, to reduce the question to terms without memories and
functions, to encode these as clauses, and for what comes after, from the solver's start to the answer; its processor
time for all, both texts saved, and its peak memory; how many terms the question has, how many are left, and how many
edges and triangles; the size of the formula that it kept; how many clauses it learned, and the size of the proof that
it wrote; then the processor times of `minisat` and `cadical` on the kept formula, with their conflicts, and of `z3`
and `cvc5` on the question as SMT-LIB, each with how many times the whole time of the row it is. Times are in seconds;
`-` is a program that isn't installed, and `>N` one that didn't end within the limit. It stops where the two modes or
the other programs don't say the same.

usage: bench.py PROGRAM [--limit SECONDS] [--smt SECONDS] [--only WORD] [--long]
"""
from __future__ import annotations

import argparse
import itertools
import os
import re
import shutil
import subprocess
import sys
import tempfile
from collections.abc import Iterator, Sequence
from typing import Optional

from inside import inside
from shared import HERE, MODES, added_clauses, answer_of, formula_size, run

Answers = dict[Optional[str], str]  # who gave each answer

HEAD = ("design", "mode", "answer", "read", "reduce", "encode", "solve", "whole", "MB", "terms", "left", "edges",
        "triangles", "variables", "clauses", "learned", "proof MB", "minisat", "its conflicts", "cadical",
        "its conflicts", "z3", "cvc5")


def timed(words: Sequence[str], limit: int, own: float, answers: Answers) -> tuple[str, str]:
    """The cell of another program: its seconds, and how many times the row's own time that is; and its output."""
    if shutil.which(words[0]) is None:
        return "-", ""
    done = run(words, limit)
    if done is None:
        return f">{limit} (>{limit / own:.0f})", ""
    answers[answer_of(done[0])] = words[0]
    return f"{done[2]:.3f} ({done[2] / own:.1f})", done[0]


def conflicts(text: str) -> str:
    """How many conflicts a solver says it had."""
    found = re.search(r"conflicts\s*:\s*(\d+)", text)
    return found.group(1) if found else "-"


def is_triangle(clauses: Sequence[Sequence[int]]) -> bool:
    """Whether clauses over the same variables are three of three literals, each with another positive one."""
    positive = [[literal for literal in clause if literal > 0] for clause in clauses]
    return (len(clauses) == 3 and all(len(clause) == 3 for clause in clauses)
            and all(len(part) == 1 for part in positive) and len({part[0] for part in positive}) == 3)


def triangles(name: str) -> int:
    """How many triangles of equations a formula in DIMACS has clauses for."""
    with open(name) as file:
        clauses = [[int(word) for word in line.split()[:-1]] for line in file if line[0] != "p"]
    groups = itertools.groupby(clauses, key=lambda clause: sorted(abs(literal) for literal in clause))
    return sum(is_triangle(list(group)) for _, group in groups)


def part_cells(command: Sequence[str], limit: int) -> tuple[list[str], list[str]]:
    """The cells of the parts' times, and of the terms and edges."""
    seen = inside(command, limit)
    times = [f"{seen[part]:.4f}" if part in seen else "-" for part in ("read", "reduce", "encode", "solve")]
    terms = seen.get("terms") or ["-"]
    return times, [str(terms[0]), str(terms[-1]), str(seen.get("edges", "-"))]


def mode_row(program: str, name: str, mode: str, pipe: str, spec: str, limit: int, folder: str,
             answers: Answers) -> tuple[list[str], float]:
    """The cells of a mode, but for those of `z3` and `cvc5`, and the whole time."""
    cnf, proof = (os.path.join(folder, part) for part in ("kept.cnf", "proof.lrat"))
    check = [program, "check", pipe, spec, *MODES[mode]]
    done = run([*check, "--cnf", cnf, "--lrat", proof], limit)
    if done is None:
        return [name, mode, *["-"] * 5, f">{limit}"] + ["-"] * (len(HEAD) - 10), limit
    output, _, time, memory = done
    times, terms = part_cells(check, limit)
    answer = output.split("\n", 1)[0]
    if not answer.startswith("undecided"):
        answers[answer.split()[0]] = mode
    minisat, said = timed(["minisat", cnf], limit, time, answers)
    cadical, also = timed(["cadical", "--plain", "--reduce=0", cnf], limit, time, answers)
    size = os.path.getsize(proof) / 2 ** 20
    return [name, mode, answer, *times, f"{time:.3f}", f"{memory:.0f}", *terms, str(triangles(cnf)),
            *formula_size(cnf), str(added_clauses(proof)), f"{size:.1f}", minisat, conflicts(said), cadical,
            conflicts(also)], time


def rows(program: str, name: str, pipe: str, spec: str, limit: int, smt_limit: int, folder: str) -> Iterator[list[str]]:
    """The rows of a design, one for each mode."""
    answers: Answers = {}
    smt = os.path.join(folder, "question.smt2")
    with open(smt, "w") as file:
        subprocess.run([sys.executable, os.path.join(HERE, "smtlib.py"), pipe, spec], stdout=file, check=True)
    for mode in MODES:
        cells, time = mode_row(program, name, mode, pipe, spec, limit, folder, answers)
        others = [timed([solver, smt], smt_limit, time, answers)[0] if mode == "plain" else ""
                  for solver in ("z3", "cvc5")]
        yield cells + others
    answers.pop(None, None)
    if len(answers) > 1:
        raise SystemExit(f"{name}: they don't say the same: {answers}")


def generated() -> Iterator[tuple[str, list[str]]]:
    """The generated pipelines, each with what writes it."""
    for depth in range(2, 13):
        for drop in (0, depth - 1):
            yield f"gen {depth} {drop}", ["generator.py", str(depth), str(drop)]


def superscalars(long: bool) -> Iterator[tuple[str, list[str]]]:
    """The superscalar pipelines, each with what writes it."""
    sizes = [(2, 3), (2, 5), (4, 3), (4, 4)] + ([(4, 8), (6, 5), (6, 8), (8, 3), (8, 4), (8, 5)] if long else [])
    for width, depth in sizes:
        yield f"{width} x {depth}", ["superscalar.py", str(width), str(depth)]
        yield f"{width} x {depth}, in another order", ["superscalar.py", "--shuffle", "1", str(width), str(depth)]
        yield f"{width} x {depth}, one path missing", ["superscalar.py", "--miss", str(width), str(depth)]


def formulas() -> Iterator[tuple[str, list[str]]]:
    """The formulas, each with what writes it as a design."""
    for numbers in ("pigeons 6", "pigeons 7", "pigeons 8", "random 100 2", "random 150 1", "random 200 1",
                    "random 200 2", "parity 16 1", "parity 24 1", "parity 32 1"):
        yield numbers, ["formula.py", *numbers.split()]


def main() -> None:
    """Prints the table."""
    parser = argparse.ArgumentParser(description="Runs the built program and others on families of pipelines.")
    parser.add_argument("program")
    parser.add_argument("--limit", type=int, default=600, help="processor seconds for each run")
    parser.add_argument("--smt", type=int, default=60, help="the same for `z3` and `cvc5`")
    parser.add_argument("--only", default="", help="rows whose name has this in it")
    parser.add_argument("--long", action="store_true", help="also the largest superscalars")
    words = parser.parse_args()
    print("| " + " | ".join(HEAD) + " |")
    print("|" + "---|" * len(HEAD))
    with tempfile.TemporaryDirectory() as folder:
        pipe, spec = os.path.join(folder, "pipe"), os.path.join(folder, "spec")
        for name, (script, *parts) in [*generated(), *superscalars(words.long), *formulas()]:
            if words.only in name:
                subprocess.run([sys.executable, os.path.join(HERE, script), *parts, pipe, spec], check=True)
                for cells in rows(words.program, name, pipe, spec, words.limit, words.smt, folder):
                    print("| " + " | ".join(cells) + " |", flush=True)


if __name__ == "__main__":
    main()
