"""A scoreboard of slow units, as texts for `burch_dill check PIPE SPEC INV`.

A fetched instruction waits in one latch until no unit is at work on one that writes a register which it reads or
writes. Then it reads its operands, with the results of this cycle. A quick one is carried out in the next cycle; a slow
one goes to the first free unit, or waits where none is free. Each unit has an input that says whether it ends in this
cycle, so units end in any order. The invariant says that no two instructions at work write the same register. The
specification runs one instruction a step.

    python3 -m burch_dill.machines.scoreboard UNITS PIPE SPEC INV
"""
from __future__ import annotations

import argparse
from collections.abc import Iterable, Iterator
from pathlib import Path

FUNCTIONS = (" (function inc 1) (function fetch 1) (function op 1) (function rs1 1) (function rs2 1) (function rd 1)"
             " (function alu 3) (predicate slow 1)")

SPECIFICATION = f"""(specification
{FUNCTIONS}
 (latch pc word) (memory rf)
 (let i word (fetch pc))
 (next pc (inc pc))
 (next rf (write rf (rd i) (alu (op i) (read rf (rs1 i)) (read rf (rs2 i))))))
"""


def joined(head: str, parts: Iterable[str]) -> str:
    """The parts under a head, or the one part that there is."""
    listed = list(parts)
    return f"({head} {' '.join(listed)})" if len(listed) > 1 else listed[0]


def declarations(units: int) -> Iterator[str]:
    """The latches, the memory and the inputs."""
    yield " (latch pc word) (memory rf)"
    yield " (input stall bool true)"
    yield from (f" (input done{u} bool true)" for u in range(units))
    yield " (latch v2 bool) (latch i2 word)"
    for name in ["f", *(f"_{u}" for u in range(units))]:
        yield f" (latch v{name} bool) " + " ".join(f"(latch {part}{name} word)" for part in "odab")


def endings(units: int) -> Iterator[str]:
    """The registers after the quick instruction and each unit that ends, and which units stay at work."""
    yield " (let m0 memory (ite vf (write rf df (alu of af bf)) rf))"
    for u in range(units):
        write = f"(write m{u} d_{u} (alu o_{u} a_{u} b_{u}))"
        yield f" (let m{u + 1} memory (ite (and v_{u} done{u}) {write} m{u}))"
        yield f" (let y{u} bool (and v_{u} (not done{u})))"


def clash(u: int) -> str:
    """Whether a unit that stays at work writes a register of the instruction that waits."""
    return f"(and y{u} (or (= d_{u} (rs1 i2)) (= d_{u} (rs2 i2)) (= d_{u} (rd i2))))"


def issue(units: int) -> Iterator[str]:
    """Whether the instruction that waits goes, and to which unit."""
    yield f" (let hz bool {joined('or', map(clash, range(units)))})"
    yield f" (let full bool {joined('and', (f'y{u}' for u in range(units)))})"
    yield " (let waits bool (and v2 (or hz (and (slow i2) full))))"
    yield " (let goes bool (and v2 (not waits)))"
    yield " (next pc (ite (or stall waits) pc (inc pc)))"
    yield " (next v2 (ite waits v2 (not stall))) (next i2 (ite waits i2 (fetch pc)))"
    yield f" (let ra word (read m{units} (rs1 i2))) (let rb word (read m{units} (rs2 i2)))"
    yield " (next vf (and goes (not (slow i2)))) (next of (op i2)) (next df (rd i2)) (next af ra) (next bf rb)"
    for u in range(units):
        busy = " ".join(["", *(f"y{older}" for older in range(u))])
        yield f" (next v_{u} (or y{u} (and goes (slow i2) (not y{u}){busy})))"
        for part, given in (("o", "(op i2)"), ("d", "(rd i2)"), ("a", "ra"), ("b", "rb")):
            yield f" (next {part}_{u} (ite y{u} {part}_{u} {given}))"


def pipeline(units: int) -> str:
    """The text of the pipeline."""
    lines = ["(pipeline", FUNCTIONS, *declarations(units), *endings(units), *issue(units)]
    return "\n".join([*lines, f" (next rf m{units})", " (flush 2) (steps 1))"]) + "\n"


def invariant(units: int) -> str:
    """The text of the invariant."""
    quick = (f"(not (and vf v_{u} (= df d_{u})))" for u in range(units))
    slow = (f"(not (and v_{a} v_{b} (= d_{a} d_{b})))" for b in range(units) for a in range(b))
    return f"(invariant {joined('and', [*quick, *slow])})\n"


def design(units: int) -> tuple[str, str, str]:
    """The texts of the pipeline, the specification and the invariant."""
    return pipeline(units), SPECIFICATION, invariant(units)


def main() -> None:
    """Writes the files."""
    parser = argparse.ArgumentParser(prog="python3 -m burch_dill.machines.scoreboard",
                                     description="A scoreboard of slow units, its specification and its invariant.")
    parser.add_argument("units", type=int, choices=range(1, 17), metavar="UNITS", help="how many slow units, 1 to 16")
    parser.add_argument("files", type=Path, nargs=3, metavar=("PIPE", "SPEC", "INV"), help="the files that are written")
    words = parser.parse_args()
    for file, text in zip(words.files, design(words.units)):
        file.write_text(text, encoding="ascii")


if __name__ == "__main__":
    main()
