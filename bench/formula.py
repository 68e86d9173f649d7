#!/usr/bin/env python3
"""A formula in conjunctive normal form as a design, to measure the solver by.

It stands in a design of one cycle: latches of truth values, lets for the clauses, and a visible latch that becomes true
where the formula is. The specification keeps that latch, so the design is right exactly where no assignment satisfies
the formula.

  pigeons N           N + 1 pigeons in N holes: right
  random N SEED       random 3-SAT of N variables at 4.26 clauses a variable
  parity N SEED       two chains over N variables whose parities differ: right

With --dimacs the formula itself is written, for solvers of such formulas.

usage: formula.py FAMILY NUMBER .. PIPE SPEC
       formula.py --dimacs FAMILY NUMBER .. FILE
"""
from __future__ import annotations

import argparse
import random
from collections.abc import Callable

Clauses = list[list[int]]


def formula_design(variables: int, clauses: Clauses) -> tuple[str, str]:
    """The texts of the design and of its specification."""
    def literal(number: int) -> str:
        return f"x{number}" if number > 0 else f"(not x{-number})"

    items = ["(latch wrong bool)", "(flush 0)", "(steps 0)"]
    for v in range(1, variables + 1):
        items += [f"(latch x{v} bool)", f"(next x{v} x{v})"]
    for place, clause in enumerate(clauses):
        parts = " ".join(map(literal, clause))
        value = f"(or {parts})" if len(clause) > 1 else parts
        items.append(f"(let c{place} bool {value})")
    names = " ".join(f"c{place}" for place in range(len(clauses)))
    items.append(f"(let formula bool (and true {names}))")
    items.append("(next wrong (or wrong formula))")
    pipe = "(pipeline\n " + "\n ".join(items) + ")\n"
    return pipe, "(specification (latch wrong bool) (next wrong wrong))\n"


def dimacs(variables: int, clauses: Clauses) -> str:
    """The text of the formula in DIMACS."""
    lines = [" ".join(map(str, sorted(clause, key=abs))) + " 0\n" for clause in clauses]
    return f"p cnf {variables} {len(clauses)}\n" + "".join(lines)


def pigeons(holes: int) -> tuple[int, Clauses]:
    """One pigeon more than there are holes."""
    def at(pigeon: int, hole: int) -> int:
        return pigeon * holes + hole + 1

    clauses = [[at(p, h) for h in range(holes)] for p in range(holes + 1)]
    for h in range(holes):
        for p in range(holes + 1):
            clauses += [[-at(q, h), -at(p, h)] for q in range(p)]
    return (holes + 1) * holes, clauses


def random_formula(variables: int, seed: int) -> tuple[int, Clauses]:
    """Clauses of three literals each."""
    source = random.Random(seed)
    clauses: Clauses = []
    for _ in range(round(4.26 * variables)):
        chosen = source.sample(range(1, variables + 1), 3)
        clauses.append([v if source.random() < 0.5 else -v for v in chosen])
    return variables, clauses


def parity(variables: int, seed: int) -> tuple[int, Clauses]:
    """Two chains over the same variables."""
    source = random.Random(seed)
    clauses: Clauses = []
    count = variables

    def chain(order: list[int]) -> int:
        nonlocal count
        sum_of = order[0]
        for v in order[1:]:
            count += 1
            t = count
            clauses.extend([[-t, sum_of, v], [-t, -sum_of, -v], [t, -sum_of, v], [t, sum_of, -v]])
            sum_of = t
        return sum_of

    order = list(range(1, variables + 1))
    one = chain(order)
    source.shuffle(order)
    other = chain(order)
    clauses += [[one], [-other]]
    return count, clauses


Family = Callable[..., tuple[int, Clauses]]
FAMILIES: dict[str, Family] = {"pigeons": pigeons, "random": random_formula, "parity": parity}
COUNTS = {"pigeons": 1, "random": 2, "parity": 2}  # how many numbers each takes


def write(name: str, text: str) -> None:
    """Saves a text."""
    with open(name, "w", encoding="ascii") as file:
        file.write(text)


def main() -> None:
    """Writes the files."""
    parser = argparse.ArgumentParser(description=__doc__, formatter_class=argparse.RawDescriptionHelpFormatter)
    parser.add_argument("--dimacs", action="store_true", help="write the formula itself, to one file")
    parser.add_argument("family", choices=FAMILIES, metavar="FAMILY", help=", ".join(FAMILIES))
    parser.add_argument("rest", nargs="+", metavar="NUMBER|FILE", help="the family's numbers, then the files")
    words = parser.parse_intermixed_args()
    files = 1 if words.dimacs else 2
    numbers, names = words.rest[:-files], words.rest[-files:]
    if len(numbers) != COUNTS[words.family] or not all(number.isdecimal() for number in numbers):
        parser.error(f"{words.family} wants {COUNTS[words.family]} numbers, and {files} files")
    formula = FAMILIES[words.family](*map(int, numbers))
    for name, text in zip(names, [dimacs(*formula)] if words.dimacs else formula_design(*formula)):
        write(name, text)


if __name__ == "__main__":
    main()
