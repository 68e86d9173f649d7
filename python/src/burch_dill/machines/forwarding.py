"""Which forwarding paths does a pipeline need? An example of what the package `burch_dill` is for.

It writes a pipeline of DEPTH stages (3 to 12, 4 where none is given), once with all its paths and once without each,
and asks the program about all of them. Of the first that is wrong it shows what its case says, and asks about a case
that differs in one value. With --text it prints the two files instead.

    python3 -m burch_dill.machines.forwarding [DEPTH] [--text]
"""
from __future__ import annotations

import argparse
import sys
from collections.abc import Iterator
from dataclasses import replace

from .. import TRUE, Bool, Case, Declarations, Group, Pipeline, Specification, Table, Verdict, Word
from .. import check, first_of, ite, replay, run


def machines(depth: int, left_out: int | None = None) -> tuple[Pipeline, Specification]:
    """A pipeline without the path from one stage, and its specification."""
    both = Declarations()
    inc, src, dst, op, alu = both.functions(inc=1, src=1, dst=1, op=1, alu=2)
    pc, rf = both.latch("pc", Word), both.memory("rf")

    spec = Specification(both)
    spec.next(pc, inc(pc))
    spec.next(rf, rf.write(dst(pc), alu(op(pc), rf.read(src(pc)))))

    pipe = Pipeline(both, flush=depth - 1, steps=1)
    pipe.comment("in stage 2 whether there is an instruction, its register, its operation and its operand")
    second = pipe.group(2, v=Bool, d=Word, o=Word, a=Word)
    pipe.comment("in the others its result, in the place of the last two")
    later = pipe.groups(range(3, depth + 1), v=Bool, d=Word, x=Word)
    stall = pipe.input("stall", TRUE)
    stages = {2: second.having(x=pipe.let("x2", alu(second.o, second.a))), **later}

    pipe.comment("the last stage writes, and the register is read after it; a younger result goes first")
    last = stages[depth]
    after = pipe.let("rf2", ite(last.v, rf.write(last.d, last.x), rf))
    wanted = pipe.let("s", src(pc))
    value = first_of([(group.v & group.d.equals(wanted), group.x)
                      for stage, group in stages.items() if stage != left_out], after.read(wanted))

    pipe.next(pc, ite(stall, pc, inc(pc)))
    pipe.next(rf, after)
    pipe.advance(second, Group(v=TRUE, d=dst(pc), o=op(pc), a=pipe.let("q", value)), squash=stall)
    for stage, group in later.items():
        pipe.advance(group, stages[stage - 1])
    return pipe, spec


def verdicts(depth: int) -> Iterator[tuple[int | None, Verdict]]:
    """The verdict with all paths, and without the path from each stage."""
    for left_out in (None, *range(2, depth + 1)):
        yield left_out, check(*machines(depth, left_out))


def source(case: Case) -> tuple[Table, int, int]:
    """The table of sources, the address of the instruction that is fetched, and the register that it reads."""
    table, pc = case.symbols["src"], case.state["pc"]
    assert isinstance(table, Table) and isinstance(pc, int)
    return table, pc, int(table(pc))


def moved(case: Case) -> Case:
    """The case, but the instruction that is fetched reads the register after its own."""
    table, pc, register = source(case)
    return replace(case, symbols={**case.symbols, "src": table.having(register + 1, pc)})


def shown(depth: int, left_out: int, case: Case) -> list[str]:
    """What is in a case that breaks the pipeline without a path."""
    pipe, spec = machines(depth, left_out)
    before, after = run(pipe, spec, case, 1)
    _, pc, register = source(case)
    return [
        f"the instruction at {pc} reads register {register}, and gets {after['a2']}",
        f"stage {left_out} is about to write register {before[f'd{left_out}']}",
        f"this case: {replay(pipe, spec, case).value}",
        f"if it reads the next register: {replay(pipe, spec, moved(case)).value}",
    ]


def main() -> int:
    parser = argparse.ArgumentParser(prog="python3 -m burch_dill.machines.forwarding",
                                     description="Which forwarding paths does a pipeline need?")
    parser.add_argument("depth", type=int, nargs="?", default=4, choices=range(3, 13), metavar="DEPTH")
    parser.add_argument("--text", action="store_true", help="print the two files, and ask nothing")
    words = parser.parse_args()
    if words.text:
        print(*(machine.text() for machine in machines(words.depth)), sep="\n", end="")
        return 0
    lines: list[str] = []
    for left_out, verdict in verdicts(words.depth):
        print(f"{'with all paths' if left_out is None else f'without stage {left_out}':17} {verdict.outcome.value}")
        if not lines and left_out is not None and verdict.case is not None:
            lines = shown(words.depth, left_out, verdict.case)
            print(*(f"  {line}" for line in lines), sep="\n")
    return 0


if __name__ == "__main__":
    sys.exit(main())
