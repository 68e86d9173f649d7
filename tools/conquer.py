#!/usr/bin/env python3
"""A proof for a question that is too hard for one solver on one processor: cube and conquer.

The kept formula of a design is split into cubes by variables that look-ahead chooses; each cube is solved by a solver
of yours, and its proof is made LRAT (`elaborate.c`), under GNU parallel, here or on hosts of the same kind that it
reaches. The proofs are joined to one: each line gets the negation of its cube's literals, and at last the cubes are
resolved. Nothing of all this is trusted: what judges the result is a checker of LRAT, as `burch_dill recheck` is, and
for --diverse `bd_view recheck --diverse`.

Each cube is said as it ends, with its time. One that isn't solved in its time is split again.

usage: conquer.py PIPE SPEC [INV] PROOF [--diverse] [--cubes N] [--seconds N] [--jobs N] [--solver COMMAND]
                  [--program FILE] [--hosts FILE]

COMMAND and the program are as in `prove.py`. Each line of a file of hosts is one as GNU parallel takes it
(`--sshloginfile`): `2/name`, a host with two jobs at a time, or `:`, this machine. A host wants `python3`, `rsync` and
the solver.
"""
import argparse
import os
import shlex
import subprocess
import sys
import tempfile
import time
from pathlib import Path
from typing import Dict, IO, Iterable, List, Optional, Tuple

from prove import HERE, MODEL, NO_MODEL, NoProof, add_programs, built_elaborator, elaborated, kept_formula, known_solver

CANDIDATES = 40

Cube = List[int]  # the literals that are taken as true, as in DIMACS


def formula_of(name: Path) -> Tuple[int, List[List[int]]]:
    """The number of variables of a formula, and its clauses."""
    with open(name, encoding="ascii") as file:
        lines = [line for line in file if line[0] != "c"]
    return int(lines[0].split()[2]), [[int(word) for word in line.split()[:-1]] for line in lines[1:]]


class Clauses:
    """Clauses, each watched at its first two literals, and the trail of literals that are true.

    Lists by literal have those of the negative ones at their end.
    """

    def __init__(self, variables: int, given: List[List[int]]) -> None:
        self.clauses = [list(clause) for clause in given]
        self.watches: List[List[List[int]]] = [[] for _ in range(2 * variables + 1)]
        self.value = [0] * (2 * variables + 1)
        self.trail: List[int] = []
        self.passed = 0
        for clause in self.clauses:
            for literal in clause[:2] if len(clause) > 1 else []:
                self.watches[literal].append(clause)
        self.is_refuted = not all(self.follow(clause[0]) for clause in self.clauses if len(clause) == 1)

    def assign(self, literal: int) -> None:
        """Makes a literal true."""
        self.value[literal], self.value[-literal] = 1, -1
        self.trail.append(literal)

    def follow(self, literal: int) -> bool:
        """Makes a literal true with all that follows; False where a clause becomes false."""
        if not self.value[literal]:
            self.assign(literal)
            return self.propagate()
        return self.value[literal] == 1

    def propagate(self) -> bool:
        """Makes true all that follows; False where a clause becomes false."""
        value, watches, trail = self.value, self.watches, self.trail
        while self.passed < len(trail):
            false = -trail[self.passed]
            self.passed += 1
            watching, kept = watches[false], []
            for place, clause in enumerate(watching):
                if clause[0] == false:
                    clause[0], clause[1] = clause[1], false
                first = clause[0]
                if value[first] == 1:
                    kept.append(clause)
                    continue
                for at in range(2, len(clause)):
                    other = clause[at]
                    if value[other] != -1:
                        clause[1], clause[at] = other, false
                        watches[other].append(clause)
                        break
                else:
                    kept.append(clause)
                    if value[first] == -1:
                        kept += watching[place + 1:]
                        watches[false] = kept
                        return False
                    self.assign(first)
            watches[false] = kept
        return True

    def undo(self, length: int) -> None:
        """Takes back what has been made true since the trail was so long."""
        for literal in self.trail[length:]:
            self.value[literal] = self.value[-literal] = 0
        del self.trail[length:]
        self.passed = length


class LookAhead:
    """Which variable splits a formula best: the one whose two signs imply the most."""

    def __init__(self, variables: int, given: List[List[int]]) -> None:
        self.clauses = Clauses(variables, given)
        weight = [0.0] * (variables + 1)
        for clause in given:
            for literal in clause:
                weight[abs(literal)] += 2.0 ** -len(clause)
        self.by_weight = sorted(range(1, variables + 1), key=lambda x: -weight[x])

    def implied(self, literals: Cube) -> Optional[int]:
        """How many literals follow where these are true, or None where they can't all be."""
        start = len(self.clauses.trail)
        possible = all(self.clauses.follow(literal) for literal in literals)
        count = len(self.clauses.trail) - start
        self.clauses.undo(start)
        return count if possible else None

    def split(self, cube: Cube) -> Tuple[Cube, Cube]:
        """The two cubes that a cube is split into."""
        start, best, most = len(self.clauses.trail), None, -1.0
        for literal in cube:
            self.clauses.follow(literal)
        free = (x for x in self.by_weight if not self.clauses.value[x])
        for _, variable in zip(range(CANDIDATES), free):
            signs = [self.implied([literal]) for literal in (variable, -variable)]
            score = float("inf") if None in signs else float((signs[0] or 0) + 1) * ((signs[1] or 0) + 1)
            if score > most:
                best, most = variable, score
        self.clauses.undo(start)
        if best is None:
            raise NoProof(f"{name_of(cube)} has no free variable left")
        return [*cube, best], [*cube, -best]


def cubes_of(look: LookAhead, count: int) -> List[Cube]:
    """So many cubes, those that imply the least split first."""
    cubes: List[Tuple[float, Cube]] = [(0, [])]
    while len(cubes) < count:
        cubes.sort()
        for cube in look.split(cubes.pop(0)[1]):
            implied = look.implied(cube)
            cubes.append((float("inf") if implied is None else implied, cube))
    return [cube for _, cube in cubes]


def name_of(cube: Cube) -> str:
    """The name of a cube's files."""
    return "cube" + "".join(f"_{literal}" for literal in cube)


def solve(formula: str, name: str, solver: str, elaborator: str) -> None:
    """One cube, as its name says: its formula, the solver's proof, and that proof as LRAT, here beside the formula."""
    cube = [int(word) for word in name.split("_")[1:]]
    with open(formula, encoding="ascii") as file:
        head, *rest = file
    variables, count = map(int, head.split()[2:])
    with open(f"{name}.cnf", "w", encoding="ascii") as file:
        file.write(f"p cnf {variables} {count + len(cube)}\n")
        file.writelines(rest)
        file.writelines(f"{literal} 0\n" for literal in cube)
    words = [word.format(cnf=f"{name}.cnf", drat=f"{name}.drat") for word in shlex.split(solver)]
    status = subprocess.run(words, stdout=subprocess.DEVNULL, check=False).returncode
    if status == MODEL:
        raise NoProof(f"{name} has a model: a case breaks a condition, so the design is wrong")
    if status != NO_MODEL:
        raise NoProof(f"{name}: the solver ended with status {status}")
    elaborated(Path(elaborator).resolve(), Path(f"{name}.cnf"), Path(f"{name}.drat"), Path(f"{name}.part"))
    for end in ("cnf", "drat"):
        os.remove(f"{name}.{end}")
    os.replace(f"{name}.part", f"{name}.lrat")


class Runner:
    """Has cubes solved under GNU parallel, in a folder with the formula and the built `elaborate`."""

    def __init__(self, options: argparse.Namespace, folder: Path) -> None:
        self.options, self.folder = options, folder
        self.solver = options.solver or known_solver()

    def words(self) -> List[str]:
        """The command that solves the cubes whose names follow."""
        words = ["parallel", "--will-cite", "--timeout", str(self.options.seconds), "--joblog", "log"]
        if self.options.hosts:
            words += ["--sshloginfile", os.path.abspath(self.options.hosts), "--workdir", str(self.folder)]
            sent = [f"{HERE}/./conquer.py", f"{HERE}/./prove.py", "kept.cnf", "elaborate"]
            words += ["--return", "{}.lrat", "--cleanup", *(word for name in sent for word in ("--basefile", name))]
            words += ["python3", "-B", "conquer.py"]
        else:
            words += ["--jobs", str(self.options.jobs), sys.executable, os.path.abspath(__file__)]
        return [*words, "--cube", "kept.cnf", "{}", shlex.quote(self.solver), "./elaborate", ":::"]

    def is_solved(self, name: str) -> bool:
        """Whether a cube has its proof."""
        return (self.folder / f"{name}.lrat").exists()

    def solved(self, cubes: List[Cube]) -> List[Cube]:
        """Those of the cubes that are solved. Where none is, and one has failed before its time, there is no proof."""
        names, faults = {name_of(cube): cube for cube in cubes}, []
        with subprocess.Popen([*self.words(), *names], cwd=self.folder, stderr=subprocess.PIPE, text=True) as running:
            for line in running.stderr or []:
                if "has a model" in line:
                    running.terminate()
                    raise NoProof(line.strip())
                faults += [] if line.startswith("parallel: Warning") else [line.rstrip()]
        self.show(names)
        done = [cube for name, cube in names.items() if self.is_solved(name)]
        if faults and not done:
            raise NoProof("\n".join(faults))
        return done

    def show(self, names: Iterable[str]) -> None:
        """Says where each cube was, how long it took, and how it ended."""
        for line in (self.folder / "log").read_text(encoding="utf-8").splitlines()[1:]:
            _, host, _, seconds, *_, command = line.split("\t")
            name = next(word for word in command.split() if word in names)
            end = "solved" if self.is_solved(name) else "isn't solved, and is split"
            where = "this machine" if host == ":" else host.split()[-1]
            print(f"{name} on {where}: {float(seconds):.1f} s, {end}", file=sys.stderr)


def conquered(look: LookAhead, cubes: List[Cube], runner: Runner) -> List[Cube]:
    """Has each cube solved, and splits again those that aren't; gives those that were."""
    done: List[Cube] = []
    waiting = cubes
    while waiting:
        print(f"{len(waiting)} cubes, {len(done)} solved", file=sys.stderr)
        now = runner.solved(waiting)
        done += now
        waiting = [half for cube in waiting if cube not in now for half in look.split(cube)]
    return done


class Joined:
    """The lines of all cubes as one proof, each with a number of its own."""

    def __init__(self, count: int, file: IO[str]) -> None:
        self.count, self.next, self.file = count, count + 1, file

    def add(self, literals: Iterable[int], hints: Iterable[int]) -> int:
        """A further line: its number."""
        print(self.next, *literals, 0, *hints, 0, file=self.file)
        self.next += 1
        return self.next - 1

    def cube(self, cube: Cube, name: Path) -> int:
        """The lines of one cube, each with the cube's negation: the number of the last, which is the negation alone."""
        numbers: Dict[int, int] = {}
        negated, last = [-literal for literal in cube], 0
        with open(name, encoding="ascii") as file:
            for line in file:
                words = [int(word) for word in line.split()]
                end = words.index(0, 1)
                number, literals, hints = words[0], words[1:end], words[end + 1:-1]
                if any(literal in cube for literal in literals):
                    continue
                named = [hint if hint <= self.count else numbers.get(hint) for hint in hints]
                clause = list(dict.fromkeys(literals + negated))
                last = numbers[number] = self.add(clause, [hint for hint in named if hint])
        return last

    def resolve(self, ends: Dict[Tuple[int, ...], int]) -> None:
        """Resolves the negations of cubes, which are the leaves of a tree, to the empty clause."""
        while () not in ends:
            longest = max(ends, key=len)
            parent, other = longest[:-1], (*longest[:-1], -longest[-1])
            ends[parent] = self.add([-literal for literal in parent], [ends.pop(longest), ends.pop(other)])


def conquer(options: argparse.Namespace, folder: Path) -> None:
    """Writes a proof of the design's kept formula."""
    files = [options.pipe, options.spec, *([options.inv] if options.inv else [])]
    built_elaborator(folder)
    start = time.time()
    variables, given = formula_of(kept_formula(options.program, files, options.diverse, folder))
    print(f"formula: {variables} variables, {len(given)} clauses, {time.time() - start:.1f} s", file=sys.stderr)
    look = LookAhead(variables, given)
    cubes = cubes_of(look, options.cubes)
    print(f"cubes: {time.time() - start:.1f} s", file=sys.stderr)
    solved = conquered(look, cubes, Runner(options, folder))
    with open(options.proof, "w", encoding="ascii") as file:
        joined = Joined(len(given), file)
        joined.resolve({tuple(cube): joined.cube(cube, folder / f"{name_of(cube)}.lrat") for cube in solved})
    print(f"in all: {time.time() - start:.1f} s", file=sys.stderr)


def options_of(words: List[str]) -> argparse.Namespace:
    """What the words ask for."""
    parser = argparse.ArgumentParser(description="A proof for what is too hard for one solver: cube and conquer.")
    parser.add_argument("pipe")
    parser.add_argument("spec")
    parser.add_argument("inv", nargs="?")
    parser.add_argument("proof")
    parser.add_argument("--cubes", type=int, default=4)
    parser.add_argument("--seconds", type=int, default=600)
    parser.add_argument("--jobs", type=int, default=os.cpu_count())
    parser.add_argument("--hosts")
    add_programs(parser)
    return parser.parse_args(words)


def main(words: List[str]) -> int:
    """Writes a proof, or solves one cube; gives the status."""
    try:
        if words[:1] == ["--cube"]:
            solve(*words[1:])
            return 0
        with tempfile.TemporaryDirectory() as folder:
            conquer(options_of(words), Path(folder))
    except (NoProof, OSError) as why:
        print(why, file=sys.stderr)
        return 1
    return 0


if __name__ == "__main__":
    sys.exit(main(sys.argv[1:]))
