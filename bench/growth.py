#!/usr/bin/env python3
"""Asks the built program of texts of one shape, each twice as large as the one before, and prints how its cost grows.

A row is a shape and a command: the largest size that ended within the limits, its processor time and its peak memory;
the exponents of time and memory, from the last three sizes that took long enough to be measured, less what the least
size takes; and what ended the row: the limit of time or of memory, a file of 1 MiB, or the greatest size that the
language allows. An exponent is the slope of a straight line through the logarithms: 1 is in proportion, 2 quadratic.
What takes less than 20 ms, or 2 MB more than the least size, has `-` there.

usage: growth.py PROGRAM [--seconds N] [--memory MB] [--only WORD] [--points]
"""
import argparse
import math
import os
import re
import signal
import subprocess
import sys
import tempfile
from dataclasses import dataclass, field
from typing import Callable, Iterator, Optional

HERE = os.path.dirname(os.path.abspath(__file__))
LONGEST = 2 ** 20
LONGEST_PROOF = 2 ** 26
SHORT_SECONDS = 0.02
FEW_MB = 2.0
ENDINGS = {0: "", 1: "", 3: "a fault", 4: "", 5: "a device", 6: "memory", 7: "", 8: ""}


@dataclass
class Texts:
    """The texts of a design, a case of it, a proof for it, and the lets of a completion function for it."""
    pipe: str
    spec: str
    case: str
    proof: str = ""
    lets: tuple[str, ...] = ()
    files: dict[str, str] = field(init=False)

    def __post_init__(self) -> None:
        self.files = {"pipe": self.pipe, "spec": self.spec, "case": self.case, "proof": self.proof,
                      "start": "(start true)\n", "trail": self.trail(), "comp": self.completion()}

    def trail(self) -> str:
        """The case as a trail of one cycle, in which a function without arguments is a constant."""
        return self.case.replace("(case 1", "(trail 1", 1).replace("(function ", "(constant ")

    def completion(self) -> str:
        """Each visible entry as it stands, or the first one as the last of the lets."""
        names = re.findall(r"\((?:latch|memory) ([^ )]+)", self.spec)
        values = [*names] if not self.lets else [self.lets[-1].split()[1], *names[1:]]
        return machine("completion", *self.lets, *(f"(abstract {name} {value})" for name, value in zip(names, values)))

    def fit(self) -> bool:
        """Whether no file is too long."""
        return all(len(text) <= (LONGEST_PROOF if name == "proof" else LONGEST) for name, text in self.files.items())


@dataclass(frozen=True)
class Point:
    """A size, with processor seconds and peak memory in MB, and what ended it before its answer, if anything."""
    size: int
    seconds: float
    memory: float
    ended: str


@dataclass(frozen=True)
class Shape:
    """How a text of each size is made, what a size counts, the least and the greatest size, and its commands."""
    name: str
    counts: str
    make: Callable[[int], Texts]
    least: int = 8
    most: int = 2 ** 30
    commands: tuple[str, ...] = ("check", "check --diverse", "replay", "run", "recheck", "bounded", "retrace",
                                 "complete")
    longest: str = "1 MiB"


def machine(head: str, *items: str) -> str:
    """A list of that head, an item a line."""
    return f"({head}\n " + "\n ".join(items) + ")\n"


def design(pipe: list[str], spec: list[str], entries: dict[str, str], numbers: str = "(flush 0) (steps 1)",
           values: Optional[list[str]] = None) -> Texts:
    """A design with a case in which every entry is false, or 0, or 0 everywhere. Its proof is empty: a fault."""
    case = [f"(memory {name} 0)" if sort == "memory" else f"(latch {name} {'0' if sort == 'word' else 'false'})"
            for name, sort in entries.items()]
    return Texts(machine("pipeline", *pipe, numbers), machine("specification", *spec),
                 machine("case 1", *(values or []), *case))


def bits(items: list[str], last: str) -> Texts:
    """Latches `a` and `b`; `b` gets the expression, and the specification keeps both."""
    latches = ["(latch a bool)", "(latch b bool)"]
    return design([*latches, *items, "(next a a)", f"(next b {last})"], [*latches, "(next a a)", "(next b b)"],
                  {"a": "bool", "b": "bool"})


def chain(size: int) -> Texts:
    lets = [f"(let l{i} bool (and l{i - 1} {'ab'[i % 2]}))" for i in range(1, size)]
    return bits(["(let l0 bool (not a))", *lets], f"l{size - 1}")


def deep(size: int) -> Texts:
    """Expressions that are nested 180 deep, as many as the size needs."""
    lets, depth = ["(let l0 bool (not a))"], 180
    for i in range(1, math.ceil(size / depth) + 1):
        inner = f"l{i - 1}"
        for level in range(min(depth, size - (i - 1) * depth)):
            inner = f"({'and or'.split()[level % 2]} {inner} {'ab'[level // 2 % 2]})"
        lets.append(f"(let l{i} bool {inner})")
    return bits(lets, f"l{len(lets) - 1}")


def wide(size: int) -> Texts:
    return bits(["(let n bool (not a))"], f"(or {' '.join(('a b n', 'n a b')[i % 2] for i in range(size))})")


def tree(size: int) -> Texts:
    """Lets that name the one before twice, so that the whole expression, written out, has 2^size parts."""
    lets = [f"(let l{i} bool (iff l{i - 1} (and l{i - 1} {'ab'[i % 2]})))" for i in range(1, size)]
    return bits(["(let l0 bool (not a))", *lets], f"l{size - 1}")


def word_trees(equation: str) -> Callable[[int], Texts]:
    """Two chains of `ite` that name each other, and an equation of what they end as."""
    def make(size: int) -> Texts:
        entries = {"a": "bool", "b": "bool", "x": "word", "y": "word"}
        latches = [f"(latch {name} {sort})" for name, sort in entries.items()]
        lets = [f"(let {one}{i} word (ite {control} {one}{i - 1} {other}{i - 1}))" for i in range(1, size)
                for one, other, control in (("u", "w", f"c{i}"), ("w", "u", f"(not c{i})"))]
        inputs = [f"(input c{i} bool false)" for i in range(1, size)]
        nexts = [f"(next {name} {name})" for name in ("a", "x", "y")]
        last = equation.replace("N", str(size - 1))
        return design([*latches, *inputs, "(let u0 word x)", "(let w0 word y)", *lets, *nexts, f"(next b {last})"],
                      [*latches, *nexts, "(next b b)"], entries, values=[f"(input c{i} false)" for i in range(1, size)])
    return make


def latches(size: int) -> Texts:
    entries = {f"x{i}": "bool" for i in range(size)}
    items = [f"(latch {name} bool) (next {name} {name})" for name in entries]
    return design(items, ["(latch x0 bool) (next x0 (not x0))"], entries)


def functions(size: int) -> Texts:
    return design([*(f"(function f{i} 0)" for i in range(size)), "(latch a bool)", "(next a a)"],
                  ["(latch a bool)", "(next a (not a))"], {"a": "bool"})


def distinct(size: int) -> Texts:
    """Constants that are kept apart, each compared with a latch."""
    names = [f"c{i}" for i in range(size)]
    declared = [*(f"(function {name} 0)" for name in names), f"(distinct {' '.join(names)})"]
    entries = {"x": "word", "b": "bool"}
    items = [f"(latch {name} {sort})" for name, sort in entries.items()] + ["(next x x)"]
    tests = " ".join(f"(= x ({name}))" for name in names)
    return design([*declared, *items, f"(next b (or {tests}))"], [*items, "(next b b)"], entries,
                  values=[f"(function {name} {i})" for i, name in enumerate(names)])


def exact(size: int) -> Texts:
    items = [f"(exact 1 (or a {('b', '(not b)', '(and a b)')[i % 3]}))" for i in range(size)]
    return bits(items, "(not b)")


def words(size: int, equations: list[str], extra: Optional[list[str]] = None) -> Texts:
    """Latches x0, x1, ..; `b` says whether all the equations hold."""
    entries = {**{f"x{i}": "word" for i in range(size)}, "b": "bool"}
    kept = [f"(latch x{i} word) (next x{i} x{i})" for i in range(size)]
    return design([*(extra or []), *kept, "(latch b bool)", f"(next b (and true {' '.join(equations)}))"],
                  ["(latch b bool) (next b b)"], entries)


def cycle(size: int) -> Texts:
    return words(size, [f"(= x{i} x{(i + 1) % size})" for i in range(size)])


def clique(size: int) -> Texts:
    """As many equations as the size, all between some latches."""
    count = math.ceil((1 + math.sqrt(1 + 8 * size)) / 2)
    pairs = [f"(= x{i} x{j})" for j in range(count) for i in range(j)]
    return words(count, [f"(or {' '.join(pairs[i::max(1, size // 4)])} b)" for i in range(max(1, size // 4))])


def applications(size: int) -> Texts:
    return words(size, [f"(= (f x{i}) x{(i + 1) % size})" for i in range(size)], ["(function f 1)"])


def nested_applications(size: int) -> Texts:
    lets = [f"(let l{i} word (f l{i - 1}))" for i in range(1, size)]
    return words(2, [f"(= l{size - 1} x1)"], ["(function f 1)", "(let l0 word x0)", *lets])


def writes(flush: int) -> Callable[[int], Texts]:
    """A memory that is written that often in a cycle, each time at another address."""
    def make(size: int) -> Texts:
        inputs = [f"(input i{i} word x)" for i in range(size)]
        lets = [f"(let m{i} memory (write {f'm{i - 1}' if i else 'm'} i{i} x))" for i in range(size)]
        return design(["(memory m) (latch x word)", *inputs, *lets, f"(next m m{size - 1}) (next x x)"],
                      ["(memory m) (latch x word) (next m m) (next x x)"], {"m": "memory", "x": "word"},
                      f"(flush {flush}) (steps 1)", [f"(input i{i} {i})" for i in range(size)])
    return make


TWO_STAGES = """(pipeline
 (function inc 1) (function src 1) (function dst 1) (function op 1) (function alu 2)
 (latch pc word) (memory rf) (latch v bool) (latch d word) (latch o word) (latch a word) (input stall bool true)
 (let rf2 memory (ite v (write rf d (alu o a)) rf))
 (next pc (ite stall pc (inc pc))) (next rf rf2) (next v (not stall)) (next d (dst pc)) (next o (op pc))
 (next a (read rf2 (src pc)))
 (flush {flush}) (steps {steps}))
"""

INSTRUCTIONS = """(specification
 (function inc 1) (function src 1) (function dst 1) (function op 1) (function alu 2)
 (latch pc word) (memory rf) (next pc (inc pc))
 (next rf (write rf (dst pc) (alu (op pc) (read rf (src pc))))))
"""

ROOT = 3

ONE_CASE = """(case 1 (latch pc 0) (memory rf 0) (latch v true) (latch d 3) (latch o 5) (latch a 6) (input stall false))
"""


def flush_cycles(size: int) -> Texts:
    return Texts(TWO_STAGES.format(flush=size, steps=1), INSTRUCTIONS, ONE_CASE)


def steps(size: int) -> Texts:
    return Texts(TWO_STAGES.format(flush=1, steps=size), INSTRUCTIONS, ONE_CASE)


def proof_lines(size: int) -> Texts:
    """Lines that are accepted: each adds the first clause, which is the root's alone, again. The last one isn't."""
    lines = "".join(f"{1000 + i} {ROOT} 0 1 0\n" for i in range(size))
    return Texts(TWO_STAGES.format(flush=1, steps=1), INSTRUCTIONS, ONE_CASE, lines + "x\n")


def completion_lets(size: int) -> Texts:
    """A pipeline that isn't right by a completion function with a chain of lets."""
    lets = ["(let l0 bool a)", *(f"(let l{i} bool (and l{i - 1} a))" for i in range(1, size))]
    keeps = ["(latch a bool) (next a a)"]
    return Texts(machine("pipeline", "(latch a bool) (next a (not a))", "(flush 0) (steps 1)"),
                 machine("specification", *keeps), "(case 1 (latch a false))\n", lets=tuple(lets))


SHAPES = (
    Shape("chain of lets", "lets", chain),
    Shape("deep expressions", "operators", deep),
    Shape("wide expression", "operands, by 3", wide),
    Shape("lets that double", "lets", tree),
    Shape("words that double, one compared", "lets, by 2", word_trees("(= uN x)")),
    Shape("words that double, two compared", "lets, by 2", word_trees("(= uN wN)")),
    Shape("latches", "latches", latches),
    Shape("functions", "functions", functions),
    Shape("distinct constants", "constants", distinct),
    Shape("exact items", "items", exact),
    Shape("equations in a cycle", "equations", cycle),
    Shape("equations in a clique", "equations", clique),
    Shape("one function, many arguments", "applications", applications),
    Shape("one function, applied to itself", "applications", nested_applications),
    Shape("writes in a cycle", "writes", writes(0)),
    Shape("writes, with 64 flush cycles", "writes in a cycle", writes(64)),
    Shape("flush cycles", "cycles", flush_cycles, 1, 64),
    Shape("steps", "steps", steps, 1, 8),
    Shape("proof lines", "lines", proof_lines, commands=("recheck",), longest="64 MiB"),
    Shape("lets of a completion function", "lets", completion_lets, commands=("complete",)),
)

WORDS = {"check": ["check", "pipe", "spec"], "check --diverse": ["check", "pipe", "spec", "--diverse"],
         "replay": ["replay", "pipe", "spec", "case"], "run": ["run", "pipe", "spec", "case", "8"],
         "recheck": ["recheck", "pipe", "spec", "proof"], "bounded": ["bounded", "pipe", "spec", "start", "1"],
         "retrace": ["retrace", "pipe", "spec", "trail", "start"], "complete": ["complete", "pipe", "spec", "comp"]}


class Place:
    """A folder in which the program runs within the limits."""

    def __init__(self, program: str, folder: str, seconds: int, memory: int):
        self.program, self.folder = os.path.abspath(program), folder
        self.measured = [os.path.join(folder, "measured"), str(seconds), str(memory)]
        subprocess.run(["cc", "-O2", os.path.join(HERE, "measured.c"), "-o", self.measured[0]], check=True)

    def put(self, shape: Shape, size: int) -> bool:
        """Writes the files; false where one is too long."""
        texts = shape.make(size)
        for name, text in texts.files.items() if texts.fit() else ():
            with open(os.path.join(self.folder, name), "w", encoding="ascii") as file:
                file.write(text)
        return texts.fit()

    def run(self, size: int, command: str) -> Point:
        """Runs it once."""
        done = subprocess.run([*self.measured, self.program, *WORDS[command]], cwd=self.folder, capture_output=True,
                              text=True, stdin=subprocess.DEVNULL, check=True)
        status, seconds, memory = done.stdout.split()
        ended = ended_by(int(status))
        return Point(size, float(seconds), int(memory) / 1024,
                     "" if ended == "a fault" and command == "recheck" else ended)


def ended_by(status: int) -> str:
    """What ended a run before its answer, of a status that `wait` gave; empty where it answered."""
    if os.WIFSIGNALED(status):
        killed = os.WTERMSIG(status) in (signal.SIGKILL, signal.SIGXCPU)
        return "time" if killed else f"signal {os.WTERMSIG(status)}"
    return ENDINGS.get(os.WEXITSTATUS(status), "another end")


def slope(pairs: list[tuple[float, float]]) -> Optional[float]:
    """The slope of the straight line of least squares through the logarithms of the last three pairs."""
    logs = [(math.log(size), math.log(value)) for size, value in pairs[-3:]]
    if len(logs) < 2:
        return None
    middle, level = (sum(part) / len(logs) for part in zip(*logs))
    rise = sum((x - middle) * (y - level) for x, y in logs)
    return float(rise / sum((x - middle) ** 2 for x, _ in logs))


def exponents(points: list[Point]) -> tuple[Optional[float], Optional[float]]:
    """Those of time and memory."""
    least = points[0]
    times = [(point.size, point.seconds - least.seconds) for point in points]
    memories = [(point.size, point.memory - least.memory) for point in points]
    return (slope([pair for pair in times if pair[1] > SHORT_SECONDS]),
            slope([pair for pair in memories if pair[1] > FEW_MB]))


def points(place: Place, shape: Shape, command: str) -> Iterator[Point]:
    """The sizes, doubled until something ends them; the last point says what."""
    size = shape.least
    while True:
        if size > shape.most or not place.put(shape, size):
            yield Point(size, 0, 0, "the language" if size > shape.most else shape.longest)
            return
        point = place.run(size, command)
        yield point
        if point.ended:
            return
        size *= 2


def cell(value: Optional[float]) -> str:
    return "-" if value is None else f"{value:.1f}"


def main() -> None:
    """Prints the table."""
    parser = argparse.ArgumentParser(description="Measures how costs grow with sizes.")
    parser.add_argument("program")
    parser.add_argument("--seconds", type=int, default=3, help="processor seconds of a run at most")
    parser.add_argument("--memory", type=int, default=1024, help="MB of a run at most")
    parser.add_argument("--only", default="", help="shapes whose name has this in it")
    parser.add_argument("--points", action="store_true", help="print every size to the error output")
    words_given = parser.parse_args()
    print("| Shape | Command | Largest | Seconds | MB | Time | Memory | Ended by |\n|" + "---|" * 8)
    with tempfile.TemporaryDirectory() as folder:
        place = Place(words_given.program, folder, words_given.seconds, words_given.memory)
        for shape in SHAPES:
            for command in shape.commands if words_given.only in shape.name else ():
                found = list(points(place, shape, command))
                whole = [point for point in found if not point.ended] or found[:1]
                if words_given.points:
                    print(shape.name, command, found, file=sys.stderr, flush=True)
                time, memory = exponents(whole)
                last = whole[-1]
                print(f"| {shape.name} | `{command}` | {last.size:,} {shape.counts} | {last.seconds:.2f} | "
                      f"{last.memory:.0f} | {cell(time)} | {cell(memory)} | {found[-1].ended} |", flush=True)


if __name__ == "__main__":
    main()
