#!/usr/bin/env python3
"""The texts of `burch_dill gen DEPTH DROP`, for programs that read a design."""
import argparse

FUNCTIONS = ("(function inc 1)", "(function src 1)", "(function dst 1)", "(function op 1)", "(function alu 2)")

SPECIFICATION = f"""(specification
 {" ".join(FUNCTIONS)}
 (latch pc word) (memory rf)
 (next pc (inc pc))
 (next rf (write rf (dst pc) (alu (op pc) (read rf (src pc))))))
"""


def pipeline(depth: int, drop: int) -> str:
    """The pipeline of so many stages, which doesn't forward from the stage of that number."""
    stages = range(2, depth + 1)
    older = range(3, depth + 1)
    lines = ["(pipeline", *(f" {function}" for function in FUNCTIONS)]
    lines += [" (latch pc word)", " (memory rf)", " (latch o word)", " (latch a word)"]
    lines += [f" (latch v{i} bool)\n (latch d{i} word)" for i in stages]
    lines += [f" (latch x{i} word)" for i in older]
    lines += [" (input stall bool true)", " (let s word (src pc))", " (let r2 word (alu o a))"]
    lines += [f" (let r{i} word x{i})" for i in older]
    lines += [f" (let q{depth + 1} word (read rf s))"]
    for i in reversed(stages):
        hit = f"(ite (and v{i} (= d{i} s)) r{i} q{i + 1})"
        lines += [f" (let q{i} word {f'q{i + 1}' if i == drop + 1 and drop else hit})"]
    lines += [" (next pc (ite stall pc (inc pc)))"]
    lines += [f" (next rf (ite v{depth} (write rf d{depth} r{depth}) rf))"]
    lines += [" (next o (op pc))", " (next a q2)", " (next v2 (not stall))", " (next d2 (dst pc))"]
    lines += [f" (next v{i} v{i - 1})\n (next d{i} d{i - 1})\n (next x{i} r{i - 1})" for i in older]
    lines += [f" (flush {depth - 1})", " (steps 1))"]
    return "\n".join(lines) + "\n"


def main() -> None:
    """Writes both texts."""
    parser = argparse.ArgumentParser(description=__doc__)
    parser.add_argument("depth", metavar="DEPTH", type=int, help="the number of stages")
    parser.add_argument("drop", metavar="DROP", type=int, help="the stage that isn't forwarded from; 0: none")
    parser.add_argument("pipe", metavar="PIPE", help="where the pipeline is written")
    parser.add_argument("spec", metavar="SPEC", help="where the specification is written")
    words = parser.parse_args()
    with open(words.pipe, "w") as file:
        file.write(pipeline(words.depth, words.drop))
    with open(words.spec, "w") as file:
        file.write(SPECIFICATION)


if __name__ == "__main__":
    main()
