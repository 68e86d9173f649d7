#!/usr/bin/env python3
"""A superscalar pipeline and its instruction set machine, as texts for `burch_dill check`.

Each cycle may fetch up to WIDTH instructions. An operand is read from the registers after the results of all
instructions in flight: every stage and slot forwards to every operand, the youngest first. An instruction that reads
what an earlier one of its group writes waits for the next cycle, with all after it. The specification runs one
instruction a step. With --miss the youngest result of the last stage isn't forwarded, which is wrong. With --turned the
two sides stand the other way round where an operand's register is compared with one that its group writes. With
--shuffle the pipeline's declarations, lets and next values come in another order each, lets after those that they use.

usage: superscalar.py WIDTH DEPTH [--operands N] [--miss] [--turned] [--shuffle SEED] PIPE SPEC
"""
from __future__ import annotations

import argparse
import random
import re
from collections.abc import Iterator, Sequence


def functions(operands: int) -> str:
    """The declarations of the unknown functions."""
    sources = " ".join(f"(function src{n} 1)" for n in range(operands))
    return f" (function inc 1) (function dst 1) (function op 1) {sources} (function alu {operands + 1})"


def specification(operands: int) -> str:
    """The text of the specification."""
    reads = " ".join(f"(read rf (src{n} pc))" for n in range(operands))
    return "\n".join([
        "(specification",
        functions(operands),
        " (latch pc word) (memory rf)",
        " (next pc (inc pc))",
        f" (next rf (write rf (dst pc) (alu (op pc) {reads}))))",
    ]) + "\n"


def latches(width: int, depth: int, operands: int) -> Iterator[str]:
    """The latches of all slots and stages."""
    for slot in range(width):
        yield f" (latch o_{slot} word)"
        yield from (f" (latch a{n}_{slot} word)" for n in range(operands))
        for stage in range(2, depth + 1):
            yield f" (latch v{stage}_{slot} bool) (latch d{stage}_{slot} word)"
        for stage in range(3, depth + 1):
            yield f" (latch x{stage}_{slot} word)"


def results(width: int, depth: int, operands: int) -> Iterator[str]:
    """The result of each instruction in flight: computed in stage 2, carried through the stages after it."""
    for slot in range(width):
        parts = " ".join(f"a{n}_{slot}" for n in range(operands))
        yield f" (let r2_{slot} word (alu o_{slot} {parts}))"
        yield from (f" (let r{stage}_{slot} word x{stage}_{slot})" for stage in range(3, depth + 1))


def fetched(width: int, operands: int, turned: bool) -> Iterator[str]:
    """Where the instructions of the group stand, what they read and write, and which of them go."""
    yield " (let pc_0 word pc)"
    yield from (f" (let pc_{slot + 1} word (inc pc_{slot}))" for slot in range(width))
    for slot in range(width):
        yield f" (let t_{slot} word (dst pc_{slot}))"
        yield from (f" (let s{n}_{slot} word (src{n} pc_{slot}))" for n in range(operands))
    yield " (let go_0 bool (not stall))"
    for slot in range(1, width):
        pairs = ((f"t_{old}", f"s{n}_{slot}") for old in range(slot) for n in range(operands))
        clashes = " ".join(f"(= {read} {written})" if turned else f"(= {written} {read})" for written, read in pairs)
        any_clash = f"(or {clashes})" if slot * operands > 1 else clashes
        yield f" (let go_{slot} bool (and go_{slot - 1} (not {any_clash})))"


def operand(slot: int, n: int, width: int, depth: int, miss: bool) -> Iterator[str]:
    """The youngest result in flight for a source, else what the registers hold."""
    source = f"s{n}_{slot}"
    older = f"q{n}_{slot}_r"
    yield f" (let {older} word (read rf {source}))"
    for stage in range(depth, 1, -1):
        for giver in range(width):
            if miss and stage == depth and giver == width - 1:
                continue
            name = f"q{n}_{slot}_{stage}_{giver}"
            hit = f"(and v{stage}_{giver} (= d{stage}_{giver} {source}))"
            yield f" (let {name} word (ite {hit} r{stage}_{giver} {older}))"
            older = name
    yield f" (let q{n}_{slot} word {older})"


def nexts(width: int, depth: int, operands: int) -> Iterator[str]:
    """The next values."""
    place = "pc"
    for slot in range(width):
        place = f"(ite go_{slot} pc_{slot + 1} {place})"
    yield f" (next pc {place})"
    yield " (let rf_0 memory rf)"
    for slot in range(width):
        write = f"(write rf_{slot} d{depth}_{slot} r{depth}_{slot})"
        yield f" (let rf_{slot + 1} memory (ite v{depth}_{slot} {write} rf_{slot}))"
    yield f" (next rf rf_{width})"
    for slot in range(width):
        yield f" (next o_{slot} (op pc_{slot}))"
        yield from (f" (next a{n}_{slot} q{n}_{slot})" for n in range(operands))
        yield f" (next v2_{slot} go_{slot}) (next d2_{slot} t_{slot})"
        for stage in range(3, depth + 1):
            before = stage - 1
            yield f" (next v{stage}_{slot} v{before}_{slot}) (next d{stage}_{slot} d{before}_{slot})"
            yield f" (next x{stage}_{slot} r{before}_{slot})"


def pipeline(width: int, depth: int, operands: int, miss: bool, turned: bool = False) -> str:
    """The text of the pipeline."""
    lines = ["(pipeline", functions(operands), " (latch pc word) (memory rf)"]
    lines += latches(width, depth, operands)
    lines += [" (input stall bool true)"]
    lines += results(width, depth, operands)
    lines += fetched(width, operands, turned)
    for slot in range(width):
        for n in range(operands):
            lines += operand(slot, n, width, depth, miss)
    lines += nexts(width, depth, operands)
    lines += [f" (flush {depth - 1}) (steps {width}))"]
    return "\n".join(lines) + "\n"


def items_of(text: str) -> Iterator[str]:
    """The items of a pipeline's text."""
    depth, start = 0, 0
    for place, letter in enumerate(text):
        if letter == "(":
            depth += 1
            start = place if depth == 2 else start
        elif letter == ")":
            depth -= 1
            if depth == 1:
                yield text[start:place + 1]


def in_some_order(lets: Sequence[str], rng: random.Random) -> Iterator[str]:
    """Lets in some order in which each comes after those that it uses."""
    names = {item.split()[1] for item in lets}
    waits = {item: set(re.findall(r"[\w.]+", item)[2:]) & names for item in lets}
    while lets:
        ready = [item for item in lets if not waits[item]]
        item = rng.choice(ready)
        lets = [other for other in lets if other != item]
        for other in lets:
            waits[other].discard(item.split()[1])
        yield item


def shuffled(text: str, seed: int) -> str:
    """A pipeline's text in another order."""
    rng = random.Random(seed)
    items = list(items_of(text))
    kinds = {kind: [item for item in items if item.startswith(f"({kind} ")]
             for kind in ("let", "next", "flush", "steps")}
    declared = [item for item in items if not any(item in kind for kind in kinds.values())]
    rng.shuffle(declared)
    rng.shuffle(kinds["next"])
    lines = [*declared, *in_some_order(kinds["let"], rng), *kinds["next"], *kinds["flush"], *kinds["steps"]]
    return "\n ".join(["(pipeline", *lines]) + ")\n"


def main() -> None:
    """Writes the files."""
    parser = argparse.ArgumentParser(description="A superscalar pipeline and its specification.")
    parser.add_argument("width", type=int)
    parser.add_argument("depth", type=int)
    parser.add_argument("--operands", type=int, default=1)
    parser.add_argument("--miss", action="store_true")
    parser.add_argument("--turned", action="store_true")
    parser.add_argument("--shuffle", type=int)
    parser.add_argument("pipe")
    parser.add_argument("spec")
    words = parser.parse_args()
    text = pipeline(words.width, words.depth, words.operands, words.miss, words.turned)
    if words.shuffle is not None:
        text = shuffled(text, words.shuffle)
    with open(words.pipe, "w") as file:
        file.write(text)
    with open(words.spec, "w") as file:
        file.write(specification(words.operands))


if __name__ == "__main__":
    main()
