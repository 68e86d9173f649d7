#!/usr/bin/env python3
"""Random small designs, asked of the built program, in both modes, and of `z3`: all must say the same.

A design has some latches, memories, inputs, functions and predicates, lets, cycles that flush it, steps, and perhaps
distinct constants, an exact item and an invariant; its specification keeps some of its entries. Each case that is
printed is replayed: it must break the condition that the program named, or hold where an invariant came with
`correct`. Each proof that is saved is checked (`tools/lrat_check.py`). It stops at the first design on which they
differ, and leaves its files.
"""
from __future__ import annotations

import argparse
import os
import random
import shutil
import subprocess
import sys
import tempfile
from typing import Callable, Dict, Iterable, Iterator, List, Optional, Sequence, Tuple

from shared import HERE, MODES

sys.path.append(os.path.join(os.path.dirname(HERE), "tools"))

from lrat_check import check  # noqa: E402

REFUTES, ENDS_OPEN = "accepted, and refutes the formula", "accepted, without the empty clause"
PROOFS = {"correct": REFUTES, "void": REFUTES, "wrong": ENDS_OPEN}
Names = Dict[str, str]  # the sort of each name


class Design:
    """A random design: its symbols, entries and inputs."""

    def __init__(self, chance: random.Random) -> None:
        self.chance = chance
        self.functions = {f"f{n}": chance.randint(0, 2) for n in range(chance.randint(1, 2))}
        if chance.random() < 0.3:
            self.functions.update(c0=0, c1=0)
        self.predicates = {f"p{n}": chance.randint(0, 1) for n in range(chance.randint(0, 1))}
        self.words = [f"w{n}" for n in range(chance.randint(1, 3))]
        self.truths = [f"b{n}" for n in range(chance.randint(0, 2))]
        self.memories = [f"m{n}" for n in range(chance.randint(0, 1))]
        self.inputs = {f"i{n}": chance.choice(["word", "bool"]) for n in range(chance.randint(0, 2))}

    def leaf(self, names: Names, sort: str) -> str:
        """A name of a sort."""
        fitting = [name for name, its in names.items() if its == sort]
        return self.chance.choice(fitting or (["true", "false"] if sort == "bool" else ["w0"]))

    def expr(self, names: Names, sort: str, depth: int) -> str:
        """An expression of a sort."""
        if depth == 0 or self.chance.random() < 0.25:
            return self.leaf(names, sort)

        def part(its: str) -> str:
            return self.expr(names, its, depth - 1)

        forms: List[Callable[[], str]] = [lambda: f"(ite {part('bool')} {part(sort)} {part(sort)})"]
        if sort == "word":
            name, arity = self.chance.choice(list(self.functions.items()))
            forms.append(lambda: f"({' '.join([name] + [part('word') for _ in range(arity)])})")
            if "memory" in names.values():
                forms.append(lambda: f"(read {part('memory')} {part('word')})")
        elif sort == "memory":
            forms.append(lambda: f"(write {part('memory')} {part('word')} {part('word')})")
        else:
            forms.append(lambda: f"(= {part('word')} {part('word')})")
            forms.append(lambda: f"(not {part('bool')})")
            operator = self.chance.choice(["and", "or", "implies", "iff"])
            forms.append(lambda: f"({operator} {part('bool')} {part('bool')})")
            for name, arity in self.predicates.items():
                forms.append(lambda: f"({' '.join([name] + [part('word') for _ in range(arity)])})")
        return self.chance.choice(forms)()

    def symbols(self) -> Iterator[str]:
        """The items of the symbols."""
        yield from (f" (function {name} {arity})" for name, arity in self.functions.items())
        yield from (f" (predicate {name} {arity})" for name, arity in self.predicates.items())
        if "c0" in self.functions:
            yield " (distinct c0 c1)"

    def entries(self) -> Names:
        """The entries with their sorts."""
        return {**dict.fromkeys(self.words, "word"), **dict.fromkeys(self.truths, "bool"),
                **dict.fromkeys(self.memories, "memory")}

    def machine(self, head: str, entries: Names, inputs: Names, depth: int, lets: int,
                items: Callable[[Names], Iterable[str]]) -> str:
        """The text of a machine, which ends with some items over its names."""
        names = {**entries, **inputs}
        lines = [f"({head}", *self.symbols()]
        for name, sort in entries.items():
            lines.append(f" (memory {name})" if sort == "memory" else f" (latch {name} {sort})")
        for name, sort in inputs.items():
            lines.append(f" (input {name} {sort} {self.expr(entries, sort, 1)})")
        for n in range(lets):
            sort = self.chance.choice(sorted(set(names.values())))
            lines.append(f" (let x{n} {sort} {self.expr(names, sort, depth)})")
            names[f"x{n}"] = sort
        lines += [f" (next {name} {self.expr(names, sort, depth)})" for name, sort in entries.items()]
        return "\n".join([*lines, *items(names)]) + ")\n"

    def items(self, names: Names) -> Iterator[str]:
        """The items of a pipeline alone."""
        steps = self.chance.randint(0, 2)
        yield f" (flush {self.chance.randint(0, 2)}) (steps {steps})"
        if self.chance.random() < 0.2:
            yield f" (exact {self.chance.randint(0, steps)} {self.expr(names, 'bool', 1)})"

    def texts(self) -> Iterator[str]:
        """The pipeline, the specification, which is often the pipeline's own machine, and perhaps an invariant."""
        entries = self.entries()
        kept = {name: sort for name, sort in entries.items() if name == "w0" or self.chance.random() < 0.6}
        state = self.chance.getstate()
        yield self.machine("pipeline", entries, self.inputs, 2, self.chance.randint(0, 2), self.items)
        if self.chance.random() < 0.4:
            self.chance.setstate(state)
        yield self.machine("specification", kept, {}, 2, 0, lambda names: [])
        if self.chance.random() < 0.3:
            yield f"(invariant {self.expr(entries, 'bool', 2)})\n"


def said(words: Sequence[str]) -> Tuple[str, str]:
    """What a command prints, to both outputs."""
    done = subprocess.run(words, capture_output=True, text=True, timeout=60)
    return done.stdout, done.stderr


def answer(program: str, texts: Sequence[str], folder: str, mode: Sequence[str]) -> str:
    """The first word of the answer, after its proof was checked and its case replayed."""
    case, cnf, proof = (os.path.join(folder, name) for name in ("case", "kept.cnf", "proof.lrat"))
    output, errors = said([program, "check", *texts, *mode, "--cnf", cnf, "--lrat", proof])
    first, _, rest = output.partition("\n")
    word = first.split(" ")[0]
    if word not in PROOFS:
        return first or errors
    if check(cnf, proof) != PROOFS[word]:
        return f"{first}, but of its proof: {check(cnf, proof)}"
    if rest:
        with open(case, "w") as file:
            file.write(rest)
        pipe, spec, *inv = texts
        replayed, errors = said([program, "replay", pipe, spec, case, *inv])
        if replayed.rstrip() != first.replace("wrong", "broken").replace("correct", "holds"):
            return f"{first}, but replayed: {replayed}{errors}"
    return word


def expected(texts: Sequence[str], smt: str) -> Optional[str]:
    """The first word of the answer by `z3`, or nothing where it has none."""
    with open(smt, "w") as file:
        subprocess.run([sys.executable, os.path.join(HERE, "smtlib.py"), *texts], stdout=file, check=True)
    lines = said(["z3", "-T:20", smt])[0].split()
    if len(texts) == 3 and lines[0] == "unsat":
        return "void"
    return {"unsat": "correct", "sat": "wrong"}.get(lines[-1])


def main() -> None:
    """Compares the answers."""
    parser = argparse.ArgumentParser(description=__doc__, formatter_class=argparse.RawDescriptionHelpFormatter)
    parser.add_argument("program", metavar="PROGRAM", help="burch_dill")
    parser.add_argument("count", metavar="COUNT", type=int, help="how many designs")
    parser.add_argument("seed", metavar="SEED", type=int, nargs="?", default=0, help="of the random numbers (0)")
    words = parser.parse_args()
    program = os.path.abspath(words.program)
    for name in (program, "z3"):
        if shutil.which(name) is None:
            parser.error(f"{name} can't be run")
    chance = random.Random(words.seed)
    folder = tempfile.mkdtemp()
    names = [os.path.join(folder, name) for name in ("pipe", "spec", "inv")]
    smt = os.path.join(folder, "question.smt2")
    counts: Dict[Optional[str], int] = {}
    for _ in range(words.count):
        texts = []
        for name, text in zip(names, Design(chance).texts()):
            texts.append(name)
            with open(name, "w") as file:
                file.write(text)
        want = expected(texts, smt)
        answers = {answer(program, texts, folder, mode) for mode in MODES.values()}
        if want is not None and answers != {want}:
            raise SystemExit(f"they differ on {folder}: {answers}, {want}")
        counts[want] = counts.get(want, 0) + 1
    print(counts)


if __name__ == "__main__":
    main()
