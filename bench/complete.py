#!/usr/bin/env python3
"""Times the built program by flushing and by completion functions, on generated and superscalar pipelines.

A completion function writes the results of the instructions in flight, the oldest first. A row is a design and what
is asked of it: that it is right by flushing (`check`), that it is right by the function (`complete`), and that the
function agrees with flushing (`complete --agree`). It has the terms and clauses of the question, which are counted
under `gdb`, where that is there, and the processor seconds, peak memory and answer.
"""
from __future__ import annotations

import argparse
import os
import tempfile
from collections.abc import Iterator, Sequence

import generator
import superscalar
from bounded import asked
from inside import inside


def completion(writes: Sequence[tuple[str, str, str]]) -> str:
    """The function that makes these writes of the registers in turn, each by a condition, a place and a value."""
    lines = ["(completion", " (let done_0 memory rf)"]
    for n, (condition, place, value) in enumerate(writes):
        lines.append(f" (let done_{n + 1} memory (ite {condition} (write done_{n} {place} {value}) done_{n}))")
    return "\n".join([*lines, " (abstract pc pc)", f" (abstract rf done_{len(writes)}))"]) + "\n"


def of_generated(depth: int) -> str:
    """That of a generated pipeline."""
    return completion([(f"v{i}", f"d{i}", f"x{i}" if i > 2 else "(alu o a)") for i in range(depth, 1, -1)])


def of_superscalar(width: int, depth: int, operands: int) -> str:
    """That of a superscalar pipeline."""
    def value(stage: int, slot: int) -> str:
        parts = " ".join(f"a{n}_{slot}" for n in range(operands))
        return f"x{stage}_{slot}" if stage > 2 else f"(alu o_{slot} {parts})"
    return completion([(f"v{stage}_{slot}", f"d{stage}_{slot}", value(stage, slot))
                       for stage in range(depth, 1, -1) for slot in range(width)])


def designs(deepest: int) -> Iterator[tuple[str, str, str, str]]:
    """The name, the pipeline, the specification and the completion function of each design."""
    for depth in range(2, deepest + 1):
        yield f"generated, {depth} stages", generator.pipeline(depth, 0), generator.SPECIFICATION, of_generated(depth)
    for width, depth in ((2, 3), (2, 4), (4, 4)):
        yield (f"superscalar, {width} x {depth}", superscalar.pipeline(width, depth, 1, False),
               superscalar.specification(1), of_superscalar(width, depth, 1))


def main() -> None:
    """Prints the table."""
    parser = argparse.ArgumentParser(description=__doc__, formatter_class=argparse.RawDescriptionHelpFormatter)
    parser.add_argument("program", metavar="PROGRAM", help="burch_dill")
    parser.add_argument("--seconds", metavar="N", type=float, default=120, help="for each run (120)")
    parser.add_argument("--deepest", metavar="D", type=int, default=12, help="the most stages (12)")
    options = parser.parse_args()
    print("| Design | Asked | Terms | Clauses | Seconds | MB | Answer |\n|---|---|---|---|---|---|---|")
    with tempfile.TemporaryDirectory() as folder:
        pipe, spec, comp = (os.path.join(folder, name) for name in ("pipe", "spec", "comp"))
        for design, *texts in designs(options.deepest):
            for name, text in zip((pipe, spec, comp), texts):
                with open(name, "w") as file:
                    file.write(text)
            by_function = ["complete", pipe, spec, comp]
            for words in (["check", pipe, spec], by_function, [*by_function, "--agree"]):
                question = " ".join(word for word in words if word not in (pipe, spec, comp))
                found = asked([options.program, *words], options.seconds)
                if found is None:
                    print(f"| {design} | `{question}` | | | more than {options.seconds:g} | | |", flush=True)
                    continue
                line, seconds, memory = found
                seen = inside([options.program, *words], 20 * options.seconds)
                terms, clauses = (seen.get("terms") or [""])[0], seen.get("clauses", "")
                print(f"| {design} | `{question}` | {terms} | {clauses} | {seconds:.2f} | {memory:.0f} | `{line}` |",
                      flush=True)


if __name__ == "__main__":
    main()
