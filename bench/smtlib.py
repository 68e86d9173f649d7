#!/usr/bin/env python3
"""The question of `burch_dill check PIPE SPEC [INV]` as SMT-LIB, for general solvers: `unsat` where it is correct.

Words are of a sort of their own, memories are arrays, and two memories are compared at one fresh address each, as the
program does. Each step's terms are defined once, so the text grows with the number of cycles. With an invariant it is
asked first whether any state meets it. The question is printed.
"""
from __future__ import annotations

import argparse
import re
import sys
from typing import Dict, List, Tuple, Union

Tree = Union[str, List["Tree"]]
Names = Dict[str, str]  # what stands for each name: a term
Lets = List[Tuple[str, str, Tree]]

SORTS = {"word": "W", "bool": "Bool", "memory": "(Array W W)"}
OPERATORS = {"implies": "=>", "iff": "=", "read": "select", "write": "store"}


def parse(text: str) -> Tree:
    """The first tree: a list of atoms and lists."""
    tokens = re.findall(r"[()]|[^\s()]+", re.sub(r";[^\n]*", "", text))
    stack: List[List[Tree]] = [[]]
    for token in tokens:
        if token == "(":
            stack.append([])
        elif token == ")":
            done = stack.pop()
            stack[-1].append(done)
        else:
            stack[-1].append(token)
    return stack[0][0]


def word(tree: Tree) -> str:
    """A tree that has to be an atom."""
    if not isinstance(tree, str):
        raise ValueError(f"a list where a word is to stand: {tree}")
    return tree


def parts_of(tree: Tree) -> List[Tree]:
    """The parts of a tree that has to be a list."""
    if isinstance(tree, str):
        raise ValueError(f"a word where a list is to stand: {tree}")
    return tree


class Machine:
    """What the items of a machine say."""

    def __init__(self, tree: Tree) -> None:
        self.entries: Dict[str, str] = {}
        self.inputs: Dict[str, Tuple[str, Tree]] = {}
        self.functions: Dict[str, Tuple[int, str]] = {}
        self.lets: Lets = []
        self.nexts: Dict[str, Tree] = {}
        self.exact: List[Tuple[int, Tree]] = []
        self.distinct: List[List[str]] = []
        self.flush, self.steps = 0, 0
        for item in parts_of(tree)[1:]:
            head, name, *others = parts_of(item)
            self.add(word(head), word(name), others)

    def add(self, head: str, name: str, others: List[Tree]) -> None:
        """Adds an item: its head, the word after it, and what stands there else."""
        if head == "latch":
            self.entries[name] = SORTS[word(others[0])]
        elif head == "memory":
            self.entries[name] = SORTS["memory"]
        elif head == "input":
            self.inputs[name] = (SORTS[word(others[0])], others[1])
        elif head in ("function", "predicate"):
            self.functions[name] = (int(word(others[0])), "W" if head == "function" else "Bool")
        elif head == "let":
            self.lets.append((name, SORTS[word(others[0])], others[1]))
        elif head == "next":
            self.nexts[name] = others[0]
        elif head == "distinct":
            self.distinct.append([name, *map(word, others)])
        elif head == "exact":
            self.exact.append((int(name), others[0]))
        elif head == "flush":
            self.flush = int(name)
        elif head == "steps":
            self.steps = int(name)


class Invariant:
    """What an invariant says of a state."""

    def __init__(self, tree: Tree) -> None:
        _, *lets, self.expr = parts_of(tree)
        self.lets: Lets = [(word(name), SORTS[word(sort)], expr) for _, name, sort, expr in map(parts_of, lets)]

    def holds(self, writer: Writer, state: Names) -> str:
        """That the state of these terms meets it."""
        return written(self.expr, lets_of(self.lets, writer, state))


class Writer:
    """The lines that are written, and the number of names that were made for them."""

    def __init__(self) -> None:
        self.lines, self.count = ["(set-logic ALL)", "(declare-sort W 0)"], 0

    def define(self, sort: str, term: str) -> str:
        """A new name for a term."""
        self.count += 1
        name = f"t{self.count}"
        self.lines.append(f"(define-fun {name} () {sort} {term})")
        return name

    def declare(self, name: str, arguments: int, sort: str) -> str:
        """A symbol that takes so many words."""
        self.lines.append(f"(declare-fun {name} ({' '.join(['W'] * arguments)}) {sort})")
        return name


def written(expr: Tree, names: Names) -> str:
    """An expression as a term."""
    if isinstance(expr, str):
        return names.get(expr, expr)
    head, parts = word(expr[0]), expr[1:]
    if not parts:
        return f"f_{head}"
    inner = " ".join(written(part, names) for part in parts)
    known = ("not", "and", "or", "=", "ite")
    return f"({head if head in known else OPERATORS.get(head, f'f_{head}')} {inner})"


def lets_of(lets: Lets, writer: Writer, names: Names) -> Names:
    """The names with those of the lets."""
    names = dict(names)
    for name, sort, expr in lets:
        names[name] = writer.define(sort, written(expr, names))
    return names


def step(machine: Machine, writer: Writer, state: Names, inputs: Names) -> Names:
    """The state after a cycle."""
    names = lets_of(machine.lets, writer, {**state, **inputs})
    return {entry: writer.define(sort, written(machine.nexts[entry], names)) for entry, sort in machine.entries.items()}


def flushed(machine: Machine, writer: Writer, state: Names) -> Names:
    """The state after the flush cycles."""
    for _ in range(machine.flush):
        # no flush expression uses an input, so any name of its sort will do
        names = lets_of(machine.lets, writer, {**state, **{name: f"i_{name}" for name in machine.inputs}})
        inputs = {name: writer.define(sort, written(expr, names)) for name, (sort, expr) in machine.inputs.items()}
        state = step(machine, writer, state, inputs)
    return state


def equal(spec: Machine, writer: Writer, left: Names, right: Names) -> str:
    """That two states have the same entries."""
    parts = ["true"]
    for entry, sort in spec.entries.items():
        if sort == SORTS["memory"]:
            writer.count += 1
            at = writer.declare(f"address{writer.count}", 0, "W")
            parts.append(f"(= (select {left[entry]} {at}) (select {right[entry]} {at}))")
        else:
            parts.append(f"(= {left[entry]} {right[entry]})")
    return f"(and {' '.join(parts)} true)"


def commutes(pipe: Machine, spec: Machine, writer: Writer, state: Names, inputs: Names, after: Names) -> str:
    """That the flushed pipeline stands where the specification stands after some number of steps that is allowed."""
    names = lets_of(pipe.lets, writer, {**state, **inputs})
    after = flushed(pipe, writer, after)
    before = {name: term for name, term in flushed(pipe, writer, state).items() if name in spec.entries}
    allowed = []
    for count in range(pipe.steps + 1):
        bars = [f"(not {written(when, names)})" for exact, when in pipe.exact if exact != count]
        allowed.append(f"(and true {' '.join(bars)} {equal(spec, writer, after, before)})")
        before = step(spec, writer, before, {})
    return f"(or false {' '.join(allowed)})"


def question(pipe: Machine, spec: Machine, invariant: Invariant | None) -> str:
    """The question, as a text."""
    writer = Writer()
    for name, (arity, sort) in {**pipe.functions, **spec.functions}.items():
        writer.declare(f"f_{name}", arity, sort)
    for constants in pipe.distinct + spec.distinct:
        writer.lines.append(f"(assert (distinct {' '.join(f'f_{name}' for name in constants)}))")
    state = {name: writer.declare(f"s_{name}", 0, sort) for name, sort in pipe.entries.items()}
    inputs = {name: writer.declare(f"i_{name}", 0, sort) for name, (sort, _) in pipe.inputs.items()}
    after = step(pipe, writer, state, inputs)
    right = commutes(pipe, spec, writer, state, inputs, after)
    if invariant:
        right = f"(and {right} {invariant.holds(writer, after)})"
        writer.lines += [f"(assert {invariant.holds(writer, state)})", "(check-sat)"]
    writer.lines += [f"(assert (not {right}))", "(check-sat)"]
    return "\n".join(writer.lines) + "\n"


def tree_in(name: str) -> Tree:
    """The tree that a file has."""
    try:
        with open(name, encoding="ascii") as file:
            return parse(file.read())
    except OSError as error:
        raise argparse.ArgumentTypeError(f"{name}: {error.strerror}") from None


def main() -> None:
    """Prints the question."""
    parser = argparse.ArgumentParser(description=__doc__, formatter_class=argparse.RawDescriptionHelpFormatter)
    parser.add_argument("pipe", metavar="PIPE", type=tree_in, help="a pipeline")
    parser.add_argument("spec", metavar="SPEC", type=tree_in, help="its specification")
    parser.add_argument("inv", metavar="INV", type=tree_in, nargs="?", help="an invariant")
    words = parser.parse_args()
    inv = words.inv and Invariant(words.inv)
    sys.stdout.write(question(Machine(words.pipe), Machine(words.spec), inv))


if __name__ == "__main__":
    main()
