"""Tests of `elaborate.c`, `prove.py` and `conquer.py`, which want `cc`, and `lrat_check.py`, which judges their proofs.

    cd tools && python3 -m unittest test_prove

A solver and a program of a few lines stand in for real ones; real ones are asked where they are there, the program by
BURCH_DILL and BD_VIEW.
"""
import contextlib
import io
import itertools
import os
import random
import shutil
import subprocess
import sys
import tempfile
import unittest
from pathlib import Path
from typing import ClassVar, List, Tuple

import conquer
import prove
from lrat_check import check

HERE = Path(__file__).resolve().parent
DATA = HERE.parent / "crates" / "burch_dill" / "data"
REFUTED = "accepted, and refutes the formula"
SQUARE = [[1, 2], [1, -2], [-1, 2], [-1, -2]]
HAS_CC, HAS_PARALLEL, HAS_CADICAL = (shutil.which(name) is not None for name in ("cc", "parallel", "cadical"))
HAS_PROGRAMS = all(shutil.which(os.environ.get(name.upper(), name)) for name in ("burch_dill", "bd_view"))

# A solver that tries all assignments, and shows each prefix that has no model by its two continuations.
SOLVER = '''
import sys
lines = [line.split() for line in open(sys.argv[1])]
clauses, variables = [set(map(int, line[:-1])) for line in lines[1:]], int(lines[0][2])
proof = open(sys.argv[2], "w")

def refute(prefix):
    if not any(all(-literal in prefix for literal in clause) for clause in clauses):
        if len(prefix) == variables:
            sys.exit(10)
        for literal in (len(prefix) + 1, -len(prefix) - 1):
            refute(prefix + [literal])
        for literal in (len(prefix) + 1, -len(prefix) - 1):
            continued = " ".join(str(-each) for each in prefix + [literal])
            kept.append(f"d {continued} 0")
    proof.write(" ".join(str(-literal) for literal in prefix) + " 0\\n")
    while kept:
        proof.write(kept.pop() + "\\n")

kept = []
refute([])
proof.close()
sys.exit(20)
'''

# A program that keeps a formula beside the pipeline, seeks a state for its invariant up to a budget of 1,000, and
# takes each proof that `lrat_check.py` does.
PROGRAM = '''
import shutil, sys
from lrat_check import check
words = sys.argv[1:]
if words[0] == "check":
    shutil.copy(words[1] + ".cnf", words[words.index("--cnf") + 1])
    budget = int(words[words.index("--budget") + 1])
    print(f"undecided {budget} meets" if words[3] == "INV" and budget < 1000 else f"undecided {budget}")
    sys.exit(4)
answer = check(words[1] + ".cnf", words[3])
if answer != "accepted, and refutes the formula":
    print(answer, file=sys.stderr)
    sys.exit(3)
print("correct by proof" + " with --diverse" * ("--diverse" in words))
'''


def written(folder: Path, name: str, clauses: List[List[int]]) -> Path:
    """A formula in DIMACS."""
    variables = max(abs(literal) for clause in clauses for literal in clause)
    lines = [f"p cnf {variables} {len(clauses)}", *(" ".join(map(str, [*clause, 0])) for clause in clauses)]
    (folder / name).write_text("\n".join(lines) + "\n")
    return folder / name


def unsatisfiable(variables: int, seed: int) -> List[List[int]]:
    """Clauses of three literals over so many variables, until no assignment satisfies them."""
    chosen = random.Random(seed)
    left, clauses = list(itertools.product((1, -1), repeat=variables)), []
    while left:
        clause = [x * chosen.choice((1, -1)) for x in chosen.sample(range(1, variables + 1), 3)]
        clauses.append(clause)
        left = [signs for signs in left if any(signs[abs(x) - 1] * x > 0 for x in clause)]
    return clauses


def binary(proof: str) -> bytes:
    """A proof in the binary form of DRAT."""
    found = bytearray()
    for line in proof.splitlines():
        found += b"d" if line[0] == "d" else b"a"
        for literal in map(int, line.lstrip("d").split()):
            number = 2 * abs(literal) + (literal < 0)
            while number > 127:
                found.append(number & 127 | 128)
                number >>= 7
            found.append(number)
    return bytes(found)


@unittest.skipUnless(HAS_CC, "cc isn't there")
class InFolder(unittest.TestCase):
    """What is built once, and a folder for each test."""

    built: ClassVar[tempfile.TemporaryDirectory[str]]
    elaborator: ClassVar[Path]

    @classmethod
    def setUpClass(cls) -> None:
        cls.built = tempfile.TemporaryDirectory()
        cls.elaborator = prove.built_elaborator(Path(cls.built.name))

    @classmethod
    def tearDownClass(cls) -> None:
        cls.built.cleanup()

    def setUp(self) -> None:
        kept = tempfile.TemporaryDirectory()
        self.addCleanup(kept.cleanup)
        self.folder = Path(kept.name)
        self.script("solver", SOLVER)
        self.solver = f"{sys.executable} {self.folder}/solver.py {{cnf}} {{drat}}"

    def script(self, name: str, text: str) -> Path:
        """A program in Python that is run by its name."""
        (self.folder / f"{name}.py").write_text(text)
        program = self.folder / name
        program.write_text(f'#!/bin/sh\nPYTHONPATH={HERE} exec {sys.executable} {self.folder}/{name}.py "$@"\n')
        program.chmod(0o755)
        return program

    def elaborate(self, cnf: Path, proof: bytes) -> Tuple[int, str, Path]:
        """The status and the error output of `elaborate`, and the LRAT."""
        (self.folder / "proof.drat").write_bytes(proof)
        lrat = self.folder / "proof.lrat"
        ended = subprocess.run([self.elaborator, cnf, self.folder / "proof.drat", lrat], capture_output=True, text=True,
                               check=False)
        return ended.returncode, ended.stderr, lrat


class Elaborating(InFolder):
    def accepted(self, clauses: List[List[int]], proof: bytes) -> List[str]:
        """The lines of LRAT that are made of a proof, and accepted."""
        cnf = written(self.folder, "formula.cnf", clauses)
        status, said, lrat = self.elaborate(cnf, proof)
        self.assertEqual((status, said), (0, ""))
        self.assertEqual(check(str(cnf), str(lrat)), REFUTED)
        return lrat.read_text().splitlines()

    def refused(self, clauses: List[List[int]], proof: bytes) -> str:
        """Why a proof is refused, without its name."""
        status, said, _ = self.elaborate(written(self.folder, "formula.cnf", clauses), proof)
        self.assertEqual(status, 1)
        return said.partition(": ")[2].strip()

    def test_only_what_is_needed_is_written(self) -> None:
        lines = self.accepted([*SQUARE, [3, 4]], b"3 1 2 0\n1 0\n0\n")
        self.assertEqual(lines, ["6 1 0 1 2 0", "7 2 0 6 3 0", "8 0 6 7 4 0"])

    def test_a_conflict_in_the_formula_needs_no_step(self) -> None:
        self.assertEqual(self.accepted([[1], [-1, 2], [-2]], b""), ["4 2 0 1 2 0", "5 0 4 3 0"])

    def test_remarks_empty_lines_and_repeated_literals(self) -> None:
        self.assertEqual(len(self.accepted(SQUARE, b"%RUPD32 2 4\nc 9 9\n\n 1\t1 0\r\n0")), 3)

    def test_a_clause_that_always_holds_is_passed_over(self) -> None:
        self.assertEqual(len(self.accepted(SQUARE, b"1 -1 0\n2 0\n")), 3)

    def test_a_reason_is_never_deleted(self) -> None:
        self.assertEqual(len(self.accepted([[1], [-1, 2], [-2, 3], [-3, -1]], b"d 1 0\nd -1 2 0\n0\n")), 3)

    def test_what_is_deleted_is_gone(self) -> None:
        self.assertIn("line 2 doesn't follow", self.refused(SQUARE, b"d 1 2 0\n1 0\n0\n"))

    def test_a_step_that_needs_more_than_propagation_is_named(self) -> None:
        said = self.refused([[1, 2], [1, -2], [-1, 2, 3], [-1, -2, 3], [-3, 4], [-3, -4]], b"c x\n-1 0\n0\n")
        self.assertEqual(said, "line 2 doesn't follow by unit propagation (RAT is refused)")
        self.assertIn("step 2 doesn't follow", self.refused([[1, 2], [1, -2], [-1, 2, 3]], binary("1 0\n-1 0\n")))

    def test_faults_of_text(self) -> None:
        for proof, why in ((b"1 2 0\n", "it ends without the empty clause"),
                           (b"0\n", "line 1, the empty clause, doesn't follow by unit propagation"),
                           (b"1 0\n3 0\n", ""), (b"2 3 0\n", "line 1 has the variable 3, which the formula hasn't"),
                           (b"2 1\nx 0\n", "line 2 isn't a clause that ends with 0"),
                           (b"2 1", "line 1 isn't a clause that ends with 0"),
                           (b"99999999999 0\n", "line 1 has a number that is too large"),
                           (b"a\x04", "step 1 isn't a clause that ends with 0"),
                           (b"a\x04\x00x", "step 2 begins with byte 120, neither a nor d")):
            if why:
                with self.subTest(proof=proof):
                    clauses = [[1, 2], [-1, -2]] if proof[:1] != b"a" else [[1, 2]]
                    self.assertEqual(self.refused(clauses, proof), why)

    def test_proofs_of_many_formulas_as_text_and_binary(self) -> None:
        for seed in range(12):
            with self.subTest(seed=seed):
                cnf = written(self.folder, "formula.cnf", unsatisfiable(7, seed))
                prove.solved(self.solver, cnf, self.folder / "found.drat")
                proof = (self.folder / "found.drat").read_text()
                clauses = unsatisfiable(7, seed)
                self.assertEqual(self.accepted(clauses, proof.encode()), self.accepted(clauses, binary(proof)))

    @unittest.skipUnless(HAS_CADICAL, "cadical isn't there")
    def test_proofs_of_cadical(self) -> None:
        for seed in range(3):
            clauses = unsatisfiable(14, seed)
            cnf = written(self.folder, "formula.cnf", clauses)
            for option in ("--binary", "--no-binary"):
                with self.subTest(seed=seed, option=option):
                    prove.solved(f"cadical -q {option} {{cnf}} {{drat}}", cnf, self.folder / "found.drat")
                    self.accepted(clauses, (self.folder / "found.drat").read_bytes())


class Proving(InFolder):
    def setUp(self) -> None:
        super().setUp()
        self.program = str(self.script("program", PROGRAM))
        self.pipe = str(self.folder / "pipe")

    def answer(self, *words: str) -> Tuple[int, str, str]:
        """The status of `prove.py`, and what it prints."""
        out, err = io.StringIO(), io.StringIO()
        programs = ["--program", self.program, "--view", self.program, "--solver", self.solver]
        with contextlib.redirect_stdout(out), contextlib.redirect_stderr(err):
            status = prove.main([*words, *programs])
        return status, out.getvalue(), err.getvalue()

    def test_a_right_design_and_its_proof(self) -> None:
        cnf = written(self.folder, "pipe.cnf", unsatisfiable(6, 1))
        status, out, err = self.answer(self.pipe, "spec", "--proof", f"{self.folder}/kept.lrat")
        self.assertEqual((status, out), (0, "correct by proof\n"))
        self.assertEqual([line.split(":")[0] for line in err.splitlines()],
                         ["formula", sys.executable, "LRAT", "recheck"])
        self.assertEqual(check(str(cnf), f"{self.folder}/kept.lrat"), REFUTED)

    def test_diverse_with_an_invariant(self) -> None:
        written(self.folder, "pipe.cnf", SQUARE)
        status, out, _ = self.answer(self.pipe, "spec", "INV", "--diverse")
        self.assertEqual((status, out), (0, "correct by proof with --diverse\n"))

    def test_a_wrong_design(self) -> None:
        written(self.folder, "pipe.cnf", SQUARE[:3])
        status, out, _ = self.answer(self.pipe, "spec")
        self.assertEqual((status, out[:6]), (1, "wrong:"))

    def test_what_fails_is_said(self) -> None:
        written(self.folder, "pipe.cnf", SQUARE)
        self.assertEqual(self.answer(str(self.folder / "none"), "spec")[0], 3)
        self.solver = "false {cnf} {drat}"
        self.assertEqual(self.answer(self.pipe, "spec")[::2][0], 3)
        self.solver = "sh -c 'echo \"2 1 0\" > {drat}; exit 20'"
        status, _, err = self.answer(self.pipe, "spec")
        self.assertEqual((status, err.splitlines()[-1].split(": ")[-1]), (3, "it ends without the empty clause"))

    @unittest.skipUnless(HAS_PROGRAMS, "the program isn't there")
    def test_the_program_itself(self) -> None:
        view, self.program = os.environ.get("BD_VIEW", "bd_view"), os.environ.get("BURCH_DILL", "burch_dill")
        files = [str(DATA / "two_stage.pipe"), str(DATA / "two_stage.spec")]
        modes: List[List[str]] = [[], ["--diverse"]]
        for mode in modes:
            with self.subTest(mode=mode), contextlib.redirect_stderr(io.StringIO()):
                kept = [*files, *mode, "--program", self.program, "--view", view]
                self.assertEqual(prove.main(kept if HAS_CADICAL else [*kept, "--solver", self.solver]), 0)


@unittest.skipUnless(HAS_PARALLEL, "GNU parallel isn't there")
class Conquering(InFolder):
    def conquer(self, clauses: List[List[int]], *words: str) -> Tuple[int, str]:
        """The status of `conquer.py`, and its error output, of a design with this formula."""
        program = str(self.script("program", PROGRAM))
        self.cnf = written(self.folder, "pipe.cnf", clauses)
        err = io.StringIO()
        with contextlib.redirect_stderr(err):
            status = conquer.main([str(self.folder / "pipe"), "spec", str(self.folder / "joined.lrat"),
                                   "--program", program, "--solver", self.solver, *words])
        return status, err.getvalue()

    def test_cubes_are_solved_and_joined(self) -> None:
        for count in (1, 4, 5):
            with self.subTest(count=count):
                status, err = self.conquer(unsatisfiable(7, count), "--diverse", "--cubes", str(count))
                self.assertEqual((status, err.count(" s, solved")), (0, count), err)
                self.assertEqual(check(str(self.cnf), str(self.folder / "joined.lrat")), REFUTED)

    def test_a_cube_without_an_end_is_split(self) -> None:
        clauses = unsatisfiable(7, 1)
        slow = f"import sys, time\nif len(list(open(sys.argv[1]))) == {len(clauses) + 2}: time.sleep(60)\n"
        (self.folder / "solver.py").write_text(slow + SOLVER)
        status, err = self.conquer(clauses, "--cubes", "2", "--seconds", "3")
        self.assertEqual((status, err.count("and is split"), err.count(" s, solved")), (0, 2, 4), err)

    def test_a_solver_that_fails_ends_it(self) -> None:
        self.solver = "false {cnf} {drat}"
        status, err = self.conquer(SQUARE, "--cubes", "2")
        self.assertEqual(status, 1)
        self.assertIn("the solver ended with status 1", err)

    def test_a_model_ends_it(self) -> None:
        status, err = self.conquer(unsatisfiable(7, 1)[:-1], "--cubes", "4")
        self.assertEqual(status, 1)
        self.assertIn("has a model: a case breaks a condition", err)

    @unittest.skipUnless(HAS_PROGRAMS and HAS_CADICAL, "the program or cadical isn't there")
    def test_the_program_itself_takes_the_joined_proof(self) -> None:
        program, view = (os.environ.get(name.upper(), name) for name in ("burch_dill", "bd_view"))
        files = [str(DATA / "two_stage.pipe"), str(DATA / "two_stage.spec")]
        modes: List[Tuple[List[str], str]] = [([], program), (["--diverse"], view)]
        for mode, checker in modes:
            with self.subTest(mode=mode), contextlib.redirect_stderr(io.StringIO()):
                joined = str(self.folder / "joined.lrat")
                kept = [*files, joined, *mode, "--cubes", "4", "--program", program]
                self.assertEqual(conquer.main(kept), 0)
                done = subprocess.run([checker, "recheck", *files, joined, *mode], capture_output=True, text=True,
                                      check=False)
                self.assertEqual((done.returncode, done.stdout), (0, "correct by proof\n"))


if __name__ == "__main__":
    unittest.main()
