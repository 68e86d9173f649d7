"""Tests of the package `burch_dill`. What asks the program is left out where there is none.

    PYTHONPATH=python/src BURCH_DILL=PROGRAM BD_VIEW=VIEW python3 -m unittest discover -s python/tests
"""
from __future__ import annotations

import os
import shutil
import tempfile
import unittest
from dataclasses import replace
from pathlib import Path

from burch_dill import FALSE, TRUE, WIDTH, Bool, Case, Client, Completion, Declarations, DesignError, Fault, Function
from burch_dill import Invariant, Judgement, Memory, NoAnswer, Outcome, Pipeline, Predicate, Retraced, Row
from burch_dill import Specification, Start
from burch_dill import Table, Trail, Word, all_of, any_of, bounded, check, complete, iff, implies, ite, line_and_column
from burch_dill import read_trees, recheck, replay, retrace, run
from burch_dill.machines import forwarding

PROGRAM = Path(__file__).resolve().parent.parent.parent / "crates" / "burch_dill"
DATA = PROGRAM / "data"
TWO_STAGE, STALE, SPEC = (DATA / name for name in ("two_stage.pipe", "stale_operand.pipe", "two_stage.spec"))
TWIN, TWIN_INV, NO_STATE = (DATA / name for name in ("twin_valid_bits.pipe", "twin_valid_bits.inv", "no_state.inv"))
NOTHING_PENDING = DATA / "nothing_pending.inv"
PRINTED = (PROGRAM / "stdout").read_text().partition("\n")[2]  # the case that the stale operand gives
IS_THERE = shutil.which(os.environ.get("BURCH_DILL", "burch_dill")) is not None
HAS_COMPANION = shutil.which(os.environ.get("BD_VIEW", "bd_view")) is not None


def functions(both: Declarations) -> dict[str, Function]:
    arities = {"inc": 1, "src": 1, "dst": 1, "op": 1, "alu": 2}
    return {name: both.function(name, arity) for name, arity in arities.items()}


def two_stages() -> Pipeline:
    """The pipeline of `data/two_stage.pipe`."""
    both = Declarations()
    of = functions(both)
    pc, rf = both.latch("pc", Word), both.memory("rf")
    pipe = Pipeline(both, flush=1, steps=1)
    v, (d, o, a) = pipe.latch("v", Bool), (pipe.latch(name, Word) for name in "doa")
    stall = pipe.input("stall", TRUE)
    rf2 = pipe.let("rf2", ite(v, rf.write(d, of["alu"](o, a)), rf))
    pipe.next(pc, ite(stall, pc, of["inc"](pc)))
    pipe.next(rf, rf2)
    pipe.next(v, ~stall)
    pipe.next(d, of["dst"](pc))
    pipe.next(o, of["op"](pc))
    pipe.next(a, rf2.read(of["src"](pc)))
    return pipe


def write_done() -> Completion:
    """The completion function of `data/two_stage.comp`."""
    pc, rf, d, o, a = Word("pc"), Memory("rf"), Word("d"), Word("o"), Word("a")
    comp = Completion()
    comp.abstract(pc, pc)
    comp.abstract(rf, ite(Bool("v"), rf.write(d, Function("alu", 2)(o, a)), rf))
    return comp


def counter(**words: int) -> Pipeline:
    pipe = Pipeline(flush=words.get("flush", 0), steps=words.get("steps", 1))
    pipe.next(pipe.latch("n", Word), pipe.function("inc", 1)(Word("n")))
    return pipe


class Expressions(unittest.TestCase):
    def test_each_form(self) -> None:
        p, q, x, m = Bool("p"), Bool("q"), Word("x"), Memory("m")
        texts = {
            "(not p)": ~p, "(and p q p)": p & q & p, "(or p (and q p))": p | q & p, "(implies p q)": implies(p, q),
            "(iff p q)": iff(p, q), "(= x x)": x.equals(x), "(ite p x x)": ite(p, x, x), "(read m x)": m.read(x),
            "(write m x x)": m.write(x, x), "(f x x)": Function("f", 2)(x, x), "(t)": Predicate("t", 0)(),
            "(and p q)": all_of([p, q]), "q": any_of([q]), "true": all_of([]), "false": any_of([]),
        }
        for text, expression in texts.items():
            self.assertEqual(text, str(expression))
        self.assertEqual((str(TRUE), str(FALSE)), ("true", "false"))

    def test_sorts_are_checked(self) -> None:
        p, x = Bool("p"), Word("x")
        wrong = [lambda: ite(x, x, x), lambda: ite(p, x, p), lambda: ite(True, x, x), lambda: p & x,
                 lambda: x.equals(p), lambda: Function("f", 1)(p), lambda: Function("f", 1)(x, x), lambda: all_of([x])]
        for place, make in enumerate(wrong):
            with self.subTest(place), self.assertRaises(DesignError):
                make()


class Designs(unittest.TestCase):
    def test_two_stages(self) -> None:
        self.assertEqual(read_trees(two_stages().text()), read_trees(TWO_STAGE.read_text()))

    def test_text(self) -> None:
        pipe = counter()
        pipe.comment("the last item")
        self.assertEqual(pipe.text(), "(pipeline\n (latch n word)\n (function inc 1)\n (next n (inc n))\n"
                                      " ; the last item\n (flush 0) (steps 1))\n")
        spec = Specification()
        spec.comment("nothing is visible")
        self.assertEqual(spec.text(), "(specification\n ; nothing is visible\n)\n")

    def test_long_lines_are_broken(self) -> None:
        pipe = Pipeline(flush=2, steps=1)
        latches = pipe.latches("a_latch_with_a_long_name_", range(8), Word)
        chain = latches[0]
        for latch in latches.values():
            chain = ite(any_of(latch.equals(other) for other in list(latches.values())[:4]), latch, chain)
        for latch in latches.values():
            pipe.next(latch, latch)
        pipe.let("chain", chain)
        pipe.comment("word " * 40)
        text = pipe.text()
        self.assertLessEqual(max(map(len, text.split("\n"))), WIDTH)
        self.assertIn(("let", "chain", "word", chain.tree), read_trees(text)[0])

    def test_arrays(self) -> None:
        both = Declarations()
        v = both.latches("v", [(stage, slot) for stage in (2, 3) for slot in (0, 1)], Bool)
        self.assertEqual([str(v[place]) for place in v], ["v2_0", "v2_1", "v3_0", "v3_1"])
        self.assertEqual([str(bank) for bank in both.memories("bank", range(2)).values()], ["bank0", "bank1"])

    def test_shared_declarations(self) -> None:
        both = Declarations()
        zero, one = both.constant("zero"), both.constant("one")
        both.distinct(zero, one)
        pc = both.latch("pc", Word)
        pipe, spec = Pipeline(both, flush=0, steps=2), Specification(both)
        pipe.exact(2, pc.equals(zero))
        pipe.next(pc, one)
        spec.next(pc, one)
        first = " (function zero 0) (function one 0) (distinct zero one)\n (latch pc word)\n"
        self.assertEqual(pipe.text(), f"(pipeline\n{first} (exact 2 (= pc (zero)))\n (next pc (one))\n"
                                      " (flush 0) (steps 2))\n")
        self.assertEqual(spec.text(), f"(specification\n{first} (next pc (one)))\n")

    def test_invariant(self) -> None:
        inv = Invariant(Bool("v"))
        same = inv.let("same", Word("x").equals(Word("y")))
        inv.require(~same)
        self.assertEqual(inv.text(), "(invariant\n (let same bool (= x y))\n (and v (not same)))\n")
        self.assertEqual(Invariant(Bool("v")).text(), "(invariant\n v)\n")
        self.assertEqual(Start(Bool("v")).text(), "(start\n v)\n")

    def test_completion(self) -> None:
        self.assertEqual(read_trees(write_done().text()), read_trees((DATA / "two_stage.comp").read_text()))
        self.assertEqual(Completion().text(), "(completion)\n")
        comp = write_done()
        again = comp.let("again", Word("pc"))
        self.assertIn(" (let again word pc)\n (abstract pc pc)\n", comp.text())
        for entry, value in ((Word("pc"), again), (Word("acc"), TRUE)):
            with self.assertRaises(DesignError):
                comp.abstract(entry, value)

    def test_what_cannot_be_written(self) -> None:
        pipe = counter()
        n = Word("n")
        wrong = [lambda: pipe.latch("1a", Word), lambda: pipe.latch("read", Word), lambda: pipe.latch("n", Bool),
                 lambda: pipe.latch("x" * 65, Word), lambda: pipe.latch("m", Memory), lambda: pipe.let("y", "n"),
                 lambda: pipe.input("i", Memory("m")), lambda: pipe.next(n, n), lambda: pipe.next(Word("k"), n),
                 lambda: pipe.next(Bool("n"), TRUE), lambda: pipe.exact(9, TRUE), lambda: pipe.function("f", 9),
                 lambda: pipe.distinct(n), lambda: pipe.comment("\u00e4"), lambda: counter(flush=65),
                 lambda: counter(steps=9), lambda: Invariant(n), lambda: Invariant().let("read", n)]
        for place, make in enumerate(wrong):
            with self.subTest(place), self.assertRaises(DesignError):
                make()
        pipe.latch("without_next", Word)
        with self.assertRaisesRegex(DesignError, "without_next"):
            pipe.text()


class Cases(unittest.TestCase):
    def test_printed_case_is_written_back(self) -> None:
        case = Case.read(PRINTED)
        self.assertEqual(case.text(), PRINTED)
        self.assertEqual(case.symbols["alu"], Table(0, (Row((2, 10), 12), Row((3, 9), 13), Row((2, 13), 15))))
        self.assertEqual((case.state["v"], case.state["d"], case.inputs), (True, 7, {"stall": False}))

    def test_every_kind(self) -> None:
        text = ("(case 2\n (constant zero 7)\n (predicate taken false (7 true))\n (function f 1 (2 3 4))\n"
                " (latch v true)\n (memory rf 0 (5 7))\n (input stall false))\n")
        case = Case.read(text)
        self.assertEqual(case.text(), text)
        self.assertEqual(case, Case.read(text.replace("\n", " ; a comment\n\t")))
        self.assertEqual(case.symbols, {"zero": 7, "taken": Table(False, (Row((7,), True),)),
                                        "f": Table(1, (Row((2, 3), 4),))})
        self.assertEqual(Case({}, {}, {}).text(), "(case 1)\n")

    def test_trails(self) -> None:
        for text in ("(trail 0\n (latch v true)\n (input stall))\n",
                     "(trail 2\n (constant zero 7)\n (memory rf 0 (5 7))\n (input stall false true))\n"):
            self.assertEqual(Trail.read(text).text(), text)
        trail = Trail.read(text)
        self.assertEqual((trail.cycles, trail.symbols, trail.inputs), (2, {"zero": 7}, {"stall": (False, True)}))
        with self.assertRaises(DesignError):
            replace(trail, cycles=3).text()

    def test_what_is_no_trail(self) -> None:
        for text in ("", "(case 1)", "(trail)", "(trail x)", "(trail 1 (input i))", "(trail 1 (input i 1 2))",
                     "(trail 0 (input i) (latch i 1))"):
            with self.subTest(text), self.assertRaises(ValueError):
                Trail.read(text)

    def test_tables(self) -> None:
        table = Table(0, (Row((1,), 2), Row((1,), 3)))
        self.assertEqual((table(1), table(2), table.having(9, 1)(1), table.having(9, 2)(1)), (2, 0, 9, 2))

    def test_what_is_no_case(self) -> None:
        for text in ("", "(case 1", "(case 1))", "(case 3)", "(case 1 (latch v))", "(case 1 (latch v x))",
                     "(case 1 (latch v 1 2))", "(case 1 (latch v 1) (latch v 2))", "(case 1 (memory m 0 5))"):
            with self.subTest(text), self.assertRaises(ValueError):
                Case.read(text)
        with self.assertRaises(DesignError):
            Case({}, {"n": 2**64}, {}).text()


class Places(unittest.TestCase):
    def test_line_and_column(self) -> None:
        text = b"ab\n\nc\n"
        places = [line_and_column(text, offset) for offset in range(7)]
        self.assertEqual(places, [(1, 1), (1, 2), (1, 3), (2, 1), (3, 1), (3, 2), (4, 1)])


@unittest.skipUnless(IS_THERE, "no program is named by BURCH_DILL")
class Answers(unittest.TestCase):
    def test_correct(self) -> None:
        for pipe in (TWO_STAGE, TWO_STAGE.read_text(), TWO_STAGE.read_bytes(), two_stages()):
            verdict = check(pipe, SPEC)
            self.assertEqual((verdict.outcome, verdict.case, verdict.is_right), (Outcome.CORRECT, None, True))
        self.assertTrue(check(TWO_STAGE, SPEC, diverse=True).is_right)

    def test_wrong(self) -> None:
        verdict = check(STALE, SPEC)
        self.assertEqual((verdict.outcome, verdict.is_right), (Outcome.WRONG_COMMUTE, False))
        assert verdict.case is not None
        self.assertEqual(verdict.case.text(), PRINTED)
        self.assertEqual(verdict, check(STALE, SPEC))
        self.assertEqual(replay(STALE, SPEC, verdict.case), Judgement.BROKEN_COMMUTE)
        self.assertEqual(replay(TWO_STAGE, SPEC, verdict.case), Judgement.HOLDS)

    def test_invariants(self) -> None:
        self.assertEqual(check(TWIN, SPEC).outcome, Outcome.WRONG_COMMUTE)
        for inv in (TWIN_INV, Invariant(iff(Bool("v"), Bool("w")))):
            verdict = check(TWIN, SPEC, inv)
            assert verdict.is_right and verdict.case is not None
            self.assertEqual(replay(TWIN, SPEC, verdict.case, inv), Judgement.HOLDS)
            outside = replace(verdict.case, state={**verdict.case.state, "v": True, "w": False})
            self.assertEqual(replay(TWIN, SPEC, outside, inv), Judgement.OUTSIDE)
        self.assertEqual(check(TWO_STAGE, SPEC, NOTHING_PENDING).outcome, Outcome.WRONG_INVARIANT)
        self.assertEqual(check(TWO_STAGE, SPEC, NO_STATE).outcome, Outcome.VOID)

    def test_budget(self) -> None:
        verdict = check(*forwarding.machines(4), budget=0)
        self.assertEqual((verdict.outcome, verdict.learned, verdict.seeks_state), (Outcome.UNDECIDED, 0, False))

    def test_constants(self) -> None:
        both = Declarations()
        zero, one = both.constant("zero"), both.constant("one")
        both.distinct(zero, one)
        pc = both.latch("pc", Word)
        pipe, spec = Pipeline(both, flush=0, steps=1), Specification(both)
        pipe.exact(1, TRUE)
        pipe.next(pc, zero)
        spec.next(pc, one)
        case = check(pipe, spec).case
        assert case is not None
        self.assertNotEqual(case.symbols["zero"], case.symbols["one"])
        self.assertEqual(replay(pipe, spec, case), Judgement.BROKEN_COMMUTE)
        with self.assertRaisesRegex(Fault, "E19 constants not distinct"):
            replay(pipe, spec, replace(case, symbols={"zero": 1, "one": 1}))

    def test_run(self) -> None:
        case = Case.read(PRINTED)
        states = run(STALE, SPEC, case, 2)
        self.assertEqual(len(states), 3)
        self.assertEqual(states[0], case.state)
        rf, after = states[0]["rf"], states[1]["rf"]
        assert isinstance(rf, Table) and isinstance(after, Table)
        self.assertEqual((rf(7), after(7)), (10, 13))
        self.assertEqual(run(STALE, SPEC, case, 0), states[:1])

    def test_saved_proof_is_read(self) -> None:
        with tempfile.TemporaryDirectory() as folder:
            formula, proof = Path(folder, "kept.cnf"), Path(folder, "proof.lrat")
            self.assertTrue(check(TWO_STAGE, SPEC, formula=formula, proof=proof).is_right)
            self.assertTrue(formula.read_text().startswith("p cnf "))
            verdict = recheck(TWO_STAGE, SPEC, proof)
            self.assertEqual((verdict.outcome, verdict.is_right), (Outcome.PROVED, True))
            with self.assertRaises(Fault) as raised:
                recheck(TWO_STAGE, SPEC, "".join(proof.read_text().splitlines(True)[:-1]))
            self.assertEqual((raised.exception.file, raised.exception.code), ("proof", "E24"))
            with self.assertRaisesRegex(Fault, "^proof:2:") as raised:
                recheck(TWO_STAGE, SPEC, "1 d 1 0\nnothing\n")
            self.assertEqual((raised.exception.offset, raised.exception.line), (None, 2))

    @unittest.skipUnless(HAS_COMPANION, "no companion is named by BD_VIEW")
    def test_saved_proof_by_positive_equality_is_read(self) -> None:
        with tempfile.TemporaryDirectory() as folder:
            proof = Path(folder, "proof.lrat")
            self.assertTrue(check(TWO_STAGE, SPEC, diverse=True, proof=proof).is_right)
            self.assertTrue(recheck(TWO_STAGE, SPEC, proof, diverse=True).is_right)
            with self.assertRaises(Fault) as raised:
                recheck(TWO_STAGE, SPEC, "", diverse=True)
            self.assertEqual((raised.exception.file, raised.exception.code), ("proof", "E24"))

    def test_bounded(self) -> None:
        same = Start(iff(Bool("v"), Bool("w")))
        self.assertEqual(bounded(TWIN, SPEC, same, 3).outcome, Outcome.CORRECT)
        apart = Start(Bool("v") & ~Bool("w"))
        self.assertEqual(bounded(TWIN, SPEC, apart, 0).outcome, Outcome.CORRECT)
        found = bounded(TWIN, SPEC, apart, 2)
        self.assertEqual((found.outcome, found.broken), (Outcome.WRONG_COMMUTE, 1))
        assert found.trail is not None
        self.assertEqual(found.trail.inputs["stall"][0], False)
        self.assertEqual(retrace(TWIN, SPEC, found.trail, apart), Retraced(Judgement.BROKEN_COMMUTE, 1))
        self.assertEqual(retrace(TWIN, SPEC, found.trail, same), Retraced(Judgement.OUTSIDE))
        self.assertEqual(retrace(TWO_STAGE, SPEC, "(trail 0 (latch pc 0) (memory rf 0) (latch v false) (latch d 0) "
                                 "(latch o 0) (latch a 0) (input stall))", Start()), Retraced(Judgement.HOLDS))
        with self.assertRaisesRegex(Fault, "^start:1:8: E08"):
            bounded(TWIN, SPEC, "(start none)", 1)

    def test_complete(self) -> None:
        for comp in (DATA / "two_stage.comp", write_done()):
            self.assertEqual(complete(TWO_STAGE, SPEC, comp).outcome, Outcome.CORRECT)
            self.assertEqual(complete(TWO_STAGE, SPEC, comp, agree=True).outcome, Outcome.AGREES)
        dropped = DATA / "write_dropped.comp"
        self.assertEqual(complete(TWO_STAGE, SPEC, dropped).outcome, Outcome.WRONG_COMMUTE)
        verdict = complete(TWO_STAGE, SPEC, dropped, agree=True)
        assert verdict.case is not None
        self.assertEqual((verdict.outcome, verdict.is_right), (Outcome.DIFFERS, False))
        self.assertEqual(verdict.case.state["v"], True)
        self.assertEqual(complete(TWO_STAGE, SPEC, dropped, Invariant(~Bool("v")), agree=True).outcome, Outcome.AGREES)
        verdict = complete(TWO_STAGE, SPEC, write_done(), budget=0)
        self.assertEqual((verdict.outcome, verdict.learned), (Outcome.UNDECIDED, 0))
        with self.assertRaisesRegex(Fault, "^comp:1:1: E12"):
            complete(TWO_STAGE, SPEC, "(completion (abstract pc pc))")

    def test_forwarding(self) -> None:
        outcomes = {left_out: verdict.outcome for left_out, verdict in forwarding.verdicts(4)}
        wrong, right = Outcome.WRONG_COMMUTE, Outcome.CORRECT
        self.assertEqual(outcomes, {None: right, 2: wrong, 3: wrong, 4: right})


@unittest.skipUnless(IS_THERE, "no program is named by BURCH_DILL")
class Faults(unittest.TestCase):
    def fault(self, *sources: object) -> Fault:
        with self.assertRaises(Fault) as raised:
            check(*sources)  # type: ignore[arg-type]
        return raised.exception

    def test_in_a_file(self) -> None:
        with tempfile.TemporaryDirectory() as folder:
            pipe = Path(folder, "-bad.pipe")
            pipe.write_text(TWO_STAGE.read_text().replace("(read rf2 ", "(read rf3 "))
            fault = self.fault(pipe, SPEC)
            line = next(text for text in pipe.read_text().split("\n") if "rf3" in text)
            self.assertEqual((fault.file, fault.name), ("pipe", str(pipe)))
            self.assertEqual((fault.code, fault.text), ("E08", "unknown name"))
            self.assertEqual(pipe.read_text().split("\n")[fault.line - 1], line)
            self.assertEqual(fault.column, line.index("rf3") + 1)
            self.assertEqual(str(fault), f"{pipe}:{fault.line}:{fault.column}: E08 unknown name, in (next a ..)")

    def test_in_a_text(self) -> None:
        fault = self.fault(TWO_STAGE, "(specification\n (latch pc bit))")
        self.assertEqual((fault.file, fault.name, fault.offset, fault.line, fault.column), ("spec", "spec", 26, 2, 12))
        self.assertEqual(self.fault(TWO_STAGE, SPEC, "(invariant stall)").code, "E17")
        self.assertEqual(self.fault(TWO_STAGE, "; \u00e4").code, "E01")
        self.assertEqual(self.fault(" " * 1048577, SPEC).code, "E00")
        with self.assertRaises(Fault) as raised:
            replay(TWO_STAGE, SPEC, "(case 1)")
        self.assertEqual((raised.exception.file, raised.exception.code), ("case", "E12"))

    def test_no_answer(self) -> None:
        case = Case.read(PRINTED)
        for status, ask in ((2, lambda: run(TWO_STAGE, SPEC, case, 1001)),
                            (2, lambda: check(TWO_STAGE, SPEC, budget=-1)),
                            (2, lambda: bounded(TWO_STAGE, SPEC, Start(), 17)),
                            (5, lambda: check(DATA / "absent.pipe", SPEC)),
                            (0, lambda: Client(shutil.which("true")).check(TWO_STAGE, SPEC)),
                            (None, lambda: Client("/absent/burch_dill").check(TWO_STAGE, SPEC))):
            with self.subTest(status), self.assertRaises(NoAnswer) as raised:
                ask()
            self.assertEqual(raised.exception.status, status)


if __name__ == "__main__":
    unittest.main()
