#!/usr/bin/env python3
"""Proves that a pipeline is right by a solver of yours, for what is too hard for the program's own.

In one call: the formula that the program keeps of the design, a solver on it, its proof in DRAT made LRAT
(`elaborate.c`, which is built here by `cc`), and the program's check of that proof over its own formula. The last line
is the answer, the program's own `correct by proof`. Neither the solver nor this script is trusted. Of a pipeline that
the solver finds wrong it says so: `check` shows a case.

usage: prove.py PIPE SPEC [INV] [--diverse] [--proof FILE] [--solver COMMAND] [--program FILE] [--view FILE]

COMMAND gets the formula's name for {cnf} and the proof's for {drat}, and ends with status 20 where there is no model;
where none is given it is that of a known solver on the path. The programs are `burch_dill` and, for --diverse,
`bd_view`: as given, else the environment's BURCH_DILL and BD_VIEW, else those on the path. The status is 0 where the
pipeline is proved right, 1 where it is wrong, 2 for unrecognized arguments, and 3 where there is no answer.
"""
import argparse
import os
import shlex
import shutil
import subprocess
import sys
import tempfile
import time
from contextlib import contextmanager
from pathlib import Path
from typing import Iterator, List, Optional

HERE = Path(__file__).resolve().parent
KNOWN = ("cadical -q {cnf} {drat}", "kissat -q {cnf} {drat}", "picosat -r {drat} {cnf}")
MODEL, NO_MODEL = 10, 20  # how solvers end
BUDGETS = (0, 1_000, 100_000, 1_000_000_000)  # for the state that meets an invariant, which is sought first


class NoProof(Exception):
    """Why there is no proof."""


def known_solver() -> str:
    """The command of the first known solver that is there."""
    for command in KNOWN:
        if shutil.which(command.split()[0]):
            return command
    raise NoProof("no known solver is on the path: give one by --solver")


def built_elaborator(folder: Path) -> Path:
    """The program that makes LRAT of DRAT, built into a folder."""
    program = folder / "elaborate"
    words = ["cc", "-O2", "-o", str(program), str(HERE / "elaborate.c")]
    built = subprocess.run(words, capture_output=True, text=True, check=False)
    if built.returncode:
        raise NoProof(f"elaborate.c isn't built: {built.stderr.strip()}")
    return program


def kept_formula(program: str, files: List[str], diverse: bool, folder: Path) -> Path:
    """Saves the formula of the question whether a case breaks a condition, and gives its name.

    Where a design has an invariant, the program first asks for a state that meets it; so the budget rises until it has.
    """
    name = folder / "kept.cnf"
    for budget in BUDGETS:
        words = [program, "check", *files, "--budget", str(budget), "--cnf", str(name)]
        answer = subprocess.run(words + ["--diverse"] * diverse, capture_output=True, text=True, check=False)
        if answer.returncode not in (0, 1, 4):
            raise NoProof(answer.stderr.strip() or answer.stdout.strip())
        if not answer.stdout.endswith(" meets\n"):
            return name
    raise NoProof("no state was found that meets the invariant")


def solved(command: str, cnf: Path, drat: Path) -> bool:
    """Whether a solver refutes a formula; False where it finds a model."""
    words = [word.format(cnf=cnf, drat=drat) for word in shlex.split(command)]
    status = subprocess.run(words, stdout=subprocess.DEVNULL, check=False).returncode
    if status not in (MODEL, NO_MODEL):
        raise NoProof(f"{words[0]} ended with status {status}")
    return status == NO_MODEL


def elaborated(elaborator: Path, cnf: Path, drat: Path, lrat: Path) -> None:
    """Makes LRAT of a proof in DRAT."""
    ended = subprocess.run([elaborator, cnf, drat, lrat], capture_output=True, text=True, check=False)
    if ended.returncode:
        raise NoProof(ended.stderr.strip())


def rechecked(options: argparse.Namespace, lrat: Path) -> str:
    """What the program says of a proof: `correct by proof`, or else its line."""
    program = options.view if options.diverse else options.program
    words = [program, "recheck", options.pipe, options.spec, str(lrat), *([options.inv] if options.inv else [])]
    answer = subprocess.run(words + ["--diverse"] * options.diverse, capture_output=True, text=True, check=False)
    if answer.returncode:
        raise NoProof(answer.stderr.strip())
    return answer.stdout.strip()


@contextmanager
def timed(what: str) -> Iterator[None]:
    """Says on the error output how long a part took."""
    start = time.time()
    yield
    print(f"{what}: {time.time() - start:.1f} s", file=sys.stderr)


def prove(options: argparse.Namespace, folder: Path) -> Optional[str]:
    """The program's answer to the solver's proof, or None where the solver finds a model."""
    solver = options.solver or known_solver()
    drat, lrat = folder / "proof.drat", Path(options.proof) if options.proof else folder / "proof.lrat"
    files = [options.pipe, options.spec, *([options.inv] if options.inv else [])]
    elaborator = built_elaborator(folder)
    with timed("formula"):
        cnf = kept_formula(options.program, files, options.diverse, folder)
    with timed(shlex.split(solver)[0]):
        if not solved(solver, cnf, drat):
            return None
    with timed("LRAT"):
        elaborated(elaborator, cnf, drat, lrat)
    with timed("recheck"):
        return rechecked(options, lrat)


def add_programs(parser: argparse.ArgumentParser) -> None:
    """The options that name what is run."""
    parser.add_argument("--diverse", action="store_true", help="ask by positive equality")
    parser.add_argument("--solver", help="the command of a solver that writes DRAT, with {cnf} and {drat}")
    parser.add_argument("--program", default=os.environ.get("BURCH_DILL", "burch_dill"), help="the program")
    parser.add_argument("--view", default=os.environ.get("BD_VIEW", "bd_view"), help="the companion, for --diverse")


def options_of(words: List[str]) -> argparse.Namespace:
    """What the words ask for."""
    parser = argparse.ArgumentParser(description="Proves that a pipeline is right by a solver of yours.")
    parser.add_argument("pipe")
    parser.add_argument("spec")
    parser.add_argument("inv", nargs="?")
    parser.add_argument("--proof", help="where the proof in LRAT is kept")
    add_programs(parser)
    return parser.parse_args(words)


def main(words: List[str]) -> int:
    """Prints the answer, and gives the status."""
    options = options_of(words)
    try:
        with tempfile.TemporaryDirectory() as folder:
            answer = prove(options, Path(folder))
    except (NoProof, OSError) as why:
        print(why, file=sys.stderr)
        return 3
    print(answer or "wrong: the solver found a model, of which check gives the case")
    return 0 if answer else 1


if __name__ == "__main__":
    sys.exit(main(sys.argv[1:]))
