"""A superscalar pipeline by stages and slots, as an example of `burch_dill`'s groups and vectors.

Each cycle may fetch up to WIDTH instructions, and each stage has a slot for each of them. An operand is read after the
results of all instructions in flight: every stage and slot forwards to it, the youngest first. An instruction that
reads what an earlier one of its group writes waits for the next cycle, with all after it. With --miss the youngest
result of the last stage isn't forwarded, which is wrong. It prints the verdict by positive equality; with --text the
two files instead.

    python3 -m burch_dill.machines.superscalar WIDTH DEPTH [--miss] [--text]
"""
from __future__ import annotations

import argparse
import sys

from .. import TRUE, Bool, Declarations, Group, Pipeline, Specification, Word
from .. import any_of, check, first_of, grid, ite

Place = tuple[int, int]


def youngest_first(width: int, depth: int, miss: bool) -> list[Place]:
    """The stages and slots that forward, from the youngest instruction to the oldest."""
    places = [(stage, slot) for stage in range(2, depth + 1) for slot in reversed(range(width))]
    return [place for place in places if not (miss and place == (depth, width - 1))]


def machines(width: int, depth: int, miss: bool = False) -> tuple[Pipeline, Specification]:
    """The pipeline and its specification."""
    both = Declarations()
    inc, dst, op, src, alu = both.functions(inc=1, dst=1, op=1, src=1, alu=2)
    pc, rf = both.latch("pc", Word), both.memory("rf")

    spec = Specification(both)
    spec.next(pc, inc(pc))
    spec.next(rf, rf.write(dst(pc), alu(op(pc), rf.read(src(pc)))))

    pipe, slots = Pipeline(both, flush=depth - 1, steps=width), range(width)
    stall = pipe.input("stall", TRUE)
    pipe.comment("in stage 2 an operation and its operand, and in the others a result")
    first = pipe.groups(grid([2], slots), v=Bool, d=Word, o=Word, a=Word)
    later = pipe.groups(grid(range(3, depth + 1), slots), v=Bool, d=Word, x=Word)
    stages: dict[Place, Group] = {place: Group(v=held.v, d=held.d, x=pipe.let(f"x2_{place[1]}", alu(held.o, held.a)))
                                  for place, held in first.items()}
    stages.update(later)

    pipe.comment("where the instructions of the group stand, and which of them go")
    places = [pc]
    for slot in slots:
        places.append(pipe.let(f"pc_{slot + 1}", inc(places[slot])))
    goes = [pipe.let("go_0", ~stall)]
    for slot in slots[1:]:
        clash = any_of(dst(places[older]).equals(src(places[slot])) for older in range(slot))
        goes.append(pipe.let(f"go_{slot}", goes[slot - 1] & ~clash))

    pipe.comment("the youngest result in flight for a source, else what the registers hold")
    forwards = [stages[place] for place in youngest_first(width, depth, miss)]
    for slot in slots:
        source = pipe.let(f"s_{slot}", src(places[slot]))
        operand = first_of([(group.v & group.d.equals(source), group.x) for group in forwards], rf.read(source))
        fetched = Group(v=goes[slot], d=dst(places[slot]), o=op(places[slot]), a=pipe.let(f"a_{slot}", operand))
        pipe.advance(first[2, slot], fetched)
    for (stage, slot), group in later.items():
        pipe.advance(group, stages[stage - 1, slot])

    after, following = rf, pc
    for slot in slots:
        last = stages[depth, slot]
        after = pipe.let(f"rf_{slot}", ite(last.v, after.write(last.d, last.x), after))
        following = ite(goes[slot], places[slot + 1], following)
    pipe.next(rf, after)
    pipe.next(pc, following)
    return pipe, spec


def main() -> int:
    """Prints the verdict or the files."""
    parser = argparse.ArgumentParser(prog="python3 -m burch_dill.machines.superscalar",
                                     description="A superscalar pipeline by stages and slots.")
    parser.add_argument("width", type=int, choices=range(1, 9), metavar="WIDTH")
    parser.add_argument("depth", type=int, choices=range(2, 17), metavar="DEPTH")
    parser.add_argument("--miss", action="store_true", help="leave one forwarding path out")
    parser.add_argument("--text", action="store_true", help="print the two files, and ask nothing")
    words = parser.parse_args()
    pipe, spec = machines(words.width, words.depth, words.miss)
    if words.text:
        print(pipe.text(), spec.text(), sep="\n", end="")
        return 0
    print(check(pipe, spec, diverse=True).outcome.value)
    return 0


if __name__ == "__main__":
    sys.exit(main())
