#!/usr/bin/env python3
"""Checks a proof in textual LRAT over a formula in DIMACS, apart from the program: each line by its hints.

usage: lrat_check.py FORMULA.cnf PROOF.lrat
"""
from __future__ import annotations

import argparse
from collections.abc import Iterable, Mapping, Sequence
from os import PathLike
from typing import Union

File = Union[str, "PathLike[str]"]


def clauses(name: File) -> dict[int, list[int]]:
    """The clauses of a formula, by their numbers from 1."""
    with open(name, encoding="ascii") as file:
        lines = [line for line in file if line[0] not in "pc"]
    return {number: [int(word) for word in line.split()[:-1]] for number, line in enumerate(lines, 1)}


def is_accepted(clause: Iterable[int], hints: Iterable[int], standing: Mapping[int, Sequence[int]]) -> bool:
    """Whether unit propagation along the hints, from the clause's literals made false, ends in a conflict."""
    true = {-literal for literal in clause}
    for hint in hints:
        left = [literal for literal in standing[hint] if -literal not in true]
        if not left:
            return True
        if len(left) > 1:
            return False
        true.add(left[0])
    return False


def check(formula: File, proof: File) -> str:
    """What is found of a proof: the first line that isn't accepted, or whether it refutes the formula."""
    standing, is_refuted = clauses(formula), False
    with open(proof, encoding="ascii") as file:
        for line in file:
            words = line.split()
            if words[1] == "d":
                for word in words[2:-1]:
                    standing.pop(int(word), None)
                continue
            numbers = [int(word) for word in words]
            end = numbers.index(0, 1)
            clause, hints = numbers[1:end], numbers[end + 1:-1]
            if not is_accepted(clause, hints, standing):
                return f"line {numbers[0]} isn't accepted"
            standing[numbers[0]] = clause
            is_refuted = is_refuted or not clause
    return "accepted, and refutes the formula" if is_refuted else "accepted, without the empty clause"


def main() -> None:
    """Prints what is found of a proof."""
    parser = argparse.ArgumentParser(description=__doc__, formatter_class=argparse.RawDescriptionHelpFormatter)
    parser.add_argument("formula", metavar="FORMULA.cnf", help="the formula, in DIMACS")
    parser.add_argument("proof", metavar="PROOF.lrat", help="the proof, in textual LRAT")
    words = parser.parse_args()
    print(check(words.formula, words.proof))


if __name__ == "__main__":
    main()
