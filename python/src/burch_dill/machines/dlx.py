"""The pipelines of DLX that the field measures by, and their wrong twins, as texts for `burch_dill check`.

They follow the published descriptions by Velev and Bryant (CHARME 1999, DAC 2000 and 2001): five stages for seven
kinds of instructions, with one pipe (1xDLX-C); with a second pipe for instructions that only compute (2xDLX-CA); with
two whole pipes (2xDLX-CC). Each may have slow units (-MC: fetch, execute and memory take any number of cycles),
exceptions (-EX: of fetch, computing and memory, with a handler and a return), and branch prediction (-BP). Machines
with slow units have an invariant.

A design may be written in other ways, which ask the same question at a higher price: --idle writes the latches of
decode also in cycles without a fetch, --late latches the instruction's word and takes its fields in decode, and
--ordered has a memory that is read after write for data, in place of a device of which nothing is known.

    python3 -m burch_dill.machines.dlx MACHINE [--wrong TWIN] [--idle] [--late] [--ordered] PIPE SPEC [INV]
    python3 -m burch_dill.machines.dlx --list
"""
from __future__ import annotations

import argparse
import re
from collections.abc import Iterator, Sequence
from dataclasses import dataclass, replace
from types import SimpleNamespace
from typing import Any, Callable, NamedTuple

from .. import FALSE, TRUE, Bool, Declarations, Group, Invariant, Memory, Pipeline
from .. import Specification, Word, all_of, any_of, conj, disj, held, ite

NAME = re.compile(r"(1xDLX-C|2xDLX-CA|2xDLX-CC)(-MC)?(-EX)?(-BP)?")

FUNCTIONS = {"imem": 1, "op": 1, "rs1": 1, "rs2": 1, "rd": 1, "imm": 1, "inc": 1, "alu": 3, "target": 2}
PREDICATES = {"takes": 2, "writes": 1, "load": 1, "store": 1, "branch": 1, "jump": 1, "uses_imm": 1}
EXCEPTIONS = {"rfe": 1, "ifault": 1, "afault": 3, "dfault": 2}

# the fields of an instruction: the latches' name, the function, and the sort
FIELDS = (("w", "writes", Bool), ("ui", "uses_imm", Bool), ("ld", "load", Bool), ("st", "store", Bool),
          ("br", "branch", Bool), ("j", "jump", Bool), ("rfe", "rfe", Bool), ("op", "op", Word), ("s", "rs1", Word),
          ("t", "rs2", Word), ("d", "rd", Word), ("imm", "imm", Word))


@dataclass(frozen=True)
class Form:
    """Which machine it is, which wrong twin of it, and how it's written."""

    slots: int
    whole_slots: int
    slow: bool = False
    exceptions: bool = False
    prediction: bool = False
    wrong: str = ""
    idle: bool = False
    late: bool = False
    ordered: bool = False

    def fields(self) -> Iterator[tuple[str, str, Any]]:
        """The fields that an instruction has here."""
        return (field for field in FIELDS if self.exceptions or field[0] != "rfe")


class Twin(NamedTuple):
    """A wrong twin: what its bug is, and which machines can have it."""

    bug: str
    fits: Callable[[Form], bool] = lambda form: True


TWINS: dict[str, Twin] = {
    "path_left_out": Twin("the first operand isn't forwarded from the first instruction in memory"),
    "older_result_first": Twin("where write back and memory both have a result for an operand, the older one is taken"),
    "no_interlock": Twin("no instruction waits for a load"),
    "store_unforwarded": Twin("the word to store isn't forwarded"),
    "decode_not_squashed": Twin("what is in decode goes on after a branch that fetch didn't follow"),
    "fetch_not_squashed": Twin("what is fetched goes on after a branch that fetch didn't follow"),
    "pair_unchecked": Twin("the second of a pair doesn't wait for what the first writes", lambda form: form.slots == 2),
    "pair_not_squashed": Twin("the second of a pair goes on where the first branches", lambda form: form.slots == 2),
    "any_in_second": Twin("loads, stores and branches go into the pipe that only computes",
                          lambda form: form.whole_slots < form.slots),
    "second_load_forgotten": Twin("no instruction waits for a load in the second pipe",
                                  lambda form: form.whole_slots == 2),
    "operand_lost": Twin("while execute waits, a result that leaves write back is lost", lambda form: form.slow),
    "memory_not_awaited": Twin("an instruction ends though memory isn't done, and again later", lambda form: form.slow),
    "faulting_store": Twin("a store that is an exception stores", lambda form: form.exceptions),
    "execute_not_undone": Twin("an exception doesn't undo what is in execute", lambda form: form.exceptions),
    "wrong_epc": Twin("an exception keeps the address of the instruction in execute", lambda form: form.exceptions),
    "second_ends": Twin("the second of a pair ends where the first is an exception",
                        lambda form: form.exceptions and form.slots == 2),
    "target_not_compared": Twin("a branch that was guessed taken may go elsewhere", lambda form: form.prediction),
    "guess_not_undone": Twin("a branch that was guessed taken and isn't goes unnoticed", lambda form: form.prediction),
    "second_after_guess": Twin("the second of a pair is fetched though the first is guessed taken",
                               lambda form: form.prediction and form.slots == 2),
}


def form_of(name: str, **ways: object) -> Form:
    """The form of a machine by its name, as 2xDLX-CC-MC-EX-BP."""
    found = NAME.fullmatch(name)
    if not found:
        raise SystemExit(f"no machine {name}: {', '.join(machines())}")
    slots, whole = {"1xDLX-C": (1, 1), "2xDLX-CA": (2, 1), "2xDLX-CC": (2, 2)}[found[1]]
    form = Form(slots, whole, bool(found[2]), bool(found[3]), bool(found[4]))
    return replace(form, **ways)


def machines() -> list[str]:
    """The names of all machines."""
    return [f"{base}{slow}{exceptions}{prediction}" for base in ("1xDLX-C", "2xDLX-CA", "2xDLX-CC")
            for slow in ("", "-MC") for exceptions in ("", "-EX") for prediction in ("", "-BP")]


def twins(name: str) -> list[str]:
    """The names of a machine's wrong twins."""
    form = form_of(name)
    return [twin for twin, about in TWINS.items() if about.fits(form)]


# ---- what both machines have


def declared(form: Form) -> tuple[Declarations, SimpleNamespace]:
    """What both machines declare, and what is declared by name."""
    both = Declarations()
    names: dict[str, object] = dict(zip(FUNCTIONS, both.functions(**FUNCTIONS)))
    predicates = {**PREDICATES, **(EXCEPTIONS if form.exceptions else {})}
    names.update((name, both.predicate(name, arity)) for name, arity in predicates.items())
    names.update(pc=both.latch("pc", Word), rf=both.memory("rf"))
    if form.ordered:
        names.update(data=both.memory("data"), loaded=Memory.read, stored=Memory.write)
    else:
        loaded, stored = both.functions(dread=2, dwrite=3)
        names.update(data=both.latch("data", Word), loaded=loaded, stored=stored)
    if form.exceptions:
        names.update(handler=both.constant("handler"), epc=both.latch("epc", Word))
    return both, SimpleNamespace(**names)


def specification(form: Form) -> Specification:
    """The instruction set machine: one instruction a step."""
    both, f = declared(form)
    spec = Specification(both)
    i = spec.let("i", f.imem(f.pc))
    a, b = spec.let("a", f.rf.read(f.rs1(i))), spec.let("b", f.rf.read(f.rs2(i)))
    y = spec.let("y", ite(f.uses_imm(i), f.imm(i), b))
    x = spec.let("x", f.alu(f.op(i), a, y))
    taken = spec.let("taken", f.jump(i) | (f.branch(i) & f.takes(f.op(i), a)))
    result = spec.let("r", ite(f.load(i), f.loaded(f.data, x), x))
    after, writes, stores = ite(taken, f.target(f.pc, f.imm(i)), f.inc(f.pc)), f.writes(i), f.store(i)
    if form.exceptions:
        of_memory = (f.load(i) | f.store(i)) & f.dfault(f.op(i), x)
        fault = spec.let("fault", disj(f.ifault(f.pc), f.afault(f.op(i), a, y), of_memory))
        spec.next(f.epc, ite(fault, f.pc, f.epc))
        after = ite(fault, f.handler, ite(f.rfe(i), f.epc, after))
        writes, stores = writes & ~fault, stores & ~fault
    spec.next(f.pc, after)
    spec.next(f.rf, ite(writes, f.rf.write(f.rd(i), result), f.rf))
    spec.next(f.data, ite(stores, f.stored(f.data, x, b), f.data))
    return spec


# ---- the pipeline


def unless(*bars: Bool) -> list[Bool]:
    """That none of these is true; what is never true isn't written."""
    return [~bar for bar in bars if bar is not FALSE]


class Parts:
    """A pipeline while it is written: its form, names and latches by stage and slot, and what stages tell others."""

    def __init__(self, form: Form) -> None:
        both, self.f = declared(form)
        self.form, self.slots, self.f.hist = form, range(form.slots), None
        if form.prediction:
            self.f.ptaken = both.predicate("ptaken", 2)
            self.f.ptarget, self.f.learn = both.functions(ptarget=2, learn=2)
            self.f.hist = both.latch("hist", Word)
        self.pipe = Pipeline(both, flush=5 if form.slots == 1 else 7, steps=form.slots)
        self.stall = self.pipe.input("stall", TRUE)
        slow = ["imem_done", "mem_done", *(f"alu_done{slot}" for slot in self.slots)] if form.slow else []
        self.done = {name: self.pipe.input(name, TRUE) for name in slow}
        self.latches: dict[int, list[Group]] = {}
        for stage, name in ((2, "decode"), (3, "execute"), (4, "memory"), (5, "write back")):
            self.pipe.comment(f"in {name}")
            self.latches[stage] = [self.pipe.group(f"{stage}_{slot}", **sorts(form, stage, slot))
                                   for slot in self.slots]
        self.mem_hold = self.ex_hold = self.excepted = self.redirects = self.squash = FALSE
        self.kept: list[dict[str, Word]] = []  # of each slot in execute, where it waits
        self.after: list[tuple[Bool, Word]] = []  # whether fetch went elsewhere, and where it should have gone
        self.leave: list[Bool] = []  # whether the instruction of each slot leaves decode

    def has(self, wrong: str) -> bool:
        """Whether this is that wrong twin."""
        return self.form.wrong == wrong

    def is_whole(self, slot: int) -> bool:
        """Whether a slot's pipe carries out every instruction."""
        return slot < self.form.whole_slots

    def whole(self, groups: Sequence[Group]) -> Sequence[Group]:
        """Those of the slots whose pipes carry out every instruction."""
        return groups[:self.form.whole_slots]

    def waits(self, name: str) -> Bool:
        """That a slow unit isn't done; false where there are none."""
        return ~self.done[name] if self.form.slow else FALSE


def sorts(form: Form, stage: int, slot: int) -> dict[str, Any]:
    """The latches that a slot has before a stage, with their sorts."""
    whole = slot < form.whole_slots
    words = {2: "pc", 3: "op s t d a b imm pc", 4: "x d", 5: "x d"}[stage]
    bools = {2: "v", 3: "v w ui", 4: "v w", 5: "v"}[stage]
    if stage == 3 and whole:
        bools += " ld st br j"
    if stage == 4 and whole:
        words, bools = words + " b", bools + " ld st"
    if form.exceptions and stage < 5:
        bools += " f" + (" rfe" if stage == 3 and whole else "")
        words += (" pc" if stage == 4 else "") + (" op" if stage == 4 and whole else "")
    if form.prediction and (stage == 2 or (stage == 3 and whole)):
        words, bools = words + " pg", bools + " pt"
    found: dict[str, Any] = {**dict.fromkeys(bools.split(), Bool), **dict.fromkeys(words.split(), Word)}
    if stage == 2:
        found.update([("i", Word)] if form.late else [(name, sort) for name, _, sort in form.fields()])
    return found


def pipeline(form: Form) -> Pipeline:
    """The pipeline, stage by stage, the last first."""
    parts = Parts(form)
    registers = write_back(parts)
    memory(parts)
    execute(parts)
    decode(parts, registers)
    fetch(parts)
    return parts.pipe


def write_back(parts: Parts) -> Memory:
    """The registers with the results of write back, which are next."""
    parts.pipe.comment("write back")
    after: Memory = parts.f.rf
    for slot, held_back in enumerate(parts.latches[5]):
        after = parts.pipe.let(f"rf5_{slot}", ite(held_back.v, after.write(held_back.d, held_back.x), after))
    parts.pipe.next(parts.f.rf, after)
    return after


def memory(parts: Parts) -> None:
    """Loads and stores in the order of the slots, and exceptions."""
    parts.pipe.comment("memory")
    f, let, stage = parts.f, parts.pipe.let, parts.latches[4]
    asks = any_of(slot.v & (slot.ld | slot.st) for slot in parts.whole(stage))
    parts.mem_hold = let("mem_hold", parts.waits("mem_done") & asks) if parts.form.slow else FALSE
    excepts = [let(f"exc_{slot}", exception(parts, slot)) for slot in parts.slots] if parts.form.exceptions else []
    data = f.data
    for slot, here in enumerate(stage):
        bars = [] if parts.has("second_ends") and slot else excepts[:slot]
        waits = FALSE if parts.has("memory_not_awaited") else parts.mem_hold
        own = excepts[slot:slot + 1]
        done = let(f"done4_{slot}", all_of([here.v, *unless(*own, *bars, waits)]))
        result = here.x
        if parts.is_whole(slot):
            result = ite(here.ld, f.loaded(data, here.x), here.x)
            stores = all_of([here.v, *unless(*bars, waits)]) if parts.has("faulting_store") else done
            data = let(f"data_{slot}", ite(stores & here.st, f.stored(data, here.x, here.b), data))
        parts.pipe.advance(parts.latches[5][slot], Group(v=done & here.w, d=here.d, x=result))
    parts.pipe.next(f.data, data)
    if excepts:
        parts.excepted = let("excepted", all_of([any_of(excepts), *unless(parts.mem_hold)]))
        kept = stage[-1].pc if len(stage) == 1 else ite(excepts[0], stage[0].pc, stage[1].pc)
        kept = parts.latches[3][0].pc if parts.has("wrong_epc") else kept
        parts.pipe.next(f.epc, ite(parts.excepted, kept, f.epc))


def exception(parts: Parts, slot: int) -> Bool:
    """Whether the instruction of a slot in memory is an exception."""
    here = parts.latches[4][slot]
    faults: Bool = here.f
    if parts.is_whole(slot):
        faults |= (here.ld | here.st) & parts.f.dfault(here.op, here.x)
    valid: Bool = here.v
    return valid & faults


def operands(parts: Parts, slot: int, letter: str, register: Word) -> tuple[Word, Word]:
    """An operand in execute with the results of write back, and with those of memory too."""
    let, here = parts.pipe.let, parts.latches[3][slot]
    kept: Any = here[letter]
    back = [(f"5{giver}", group.v & group.d.equals(register), group.x) for giver, group in enumerate(parts.latches[5])]
    front = [(f"4{giver}", conj(group.v, group.w, group.d.equals(register)), group.x)
             for giver, group in enumerate(parts.latches[4])]
    if parts.has("path_left_out") and letter == "a":
        del front[0]
    if parts.has("older_result_first"):
        back, front = front, back
    for name, hits, result in back:
        kept = let(f"{letter}_{slot}_{name}", ite(hits, result, kept))
    whole = kept
    for name, hits, result in front:
        whole = let(f"{letter}_{slot}_{name}", ite(hits, result, whole))
    return kept, whole


def misses(parts: Parts, slot: int, a: Word) -> tuple[Bool, Word]:
    """Whether fetch didn't go on where the instruction of a slot in execute leads, and where that is."""
    f, let, here = parts.f, parts.pipe.let, parts.latches[3][slot]
    taken = let(f"taken_{slot}", here.j | (here.br & f.takes(here.op, a)))
    to = let(f"to_{slot}", f.target(here.pc, here.imm))
    causes = [taken]
    if parts.form.prediction:
        causes = [taken & ~here.pt, ~taken & here.pt, conj(taken, here.pt, ~to.equals(here.pg))]
        causes = [cause for cause, wrong in zip(causes, ("", "guess_not_undone", "target_not_compared"))
                  if not parts.has(wrong) or not wrong]
    after = ite(taken, to, f.inc(here.pc))
    if parts.form.exceptions:
        causes, after = [*causes, here.rfe], ite(here.rfe, f.epc, after)
    return let(f"mis_{slot}", here.v & any_of(causes)), after


def execute(parts: Parts) -> None:
    """Operands, results and branches; what the second of a pair does goes with a branch of the first."""
    parts.pipe.comment("execute")
    f, let = parts.f, parts.pipe.let
    stage, form = parts.latches[3], parts.form
    busy = [here.v & parts.waits(f"alu_done{slot}") for slot, here in enumerate(stage)] if form.slow else []
    parts.ex_hold = let("ex_hold", any_of([parts.mem_hold, *busy])) if form.slow else FALSE
    missed: list[Bool] = []
    for slot, here in enumerate(stage):
        (a5, a), (b5, b) = operands(parts, slot, "a", here.s), operands(parts, slot, "b", here.t)
        y = let(f"y_{slot}", ite(here.ui, here.imm, b))
        x = let(f"x_{slot}", f.alu(here.op, a, y))
        older = [] if parts.has("pair_not_squashed") else list(missed)
        goes = all_of([here.v, *unless(*older, parts.ex_hold, *undone(parts))])
        fault = here.f | f.afault(here.op, a, y) if form.exceptions else FALSE
        given = {**here, "v": goes, "x": x, "b": here.b if parts.has("store_unforwarded") else b, "f": fault}
        parts.pipe.advance(parts.latches[4][slot], given, hold=parts.mem_hold)
        parts.kept.append({"a": here.a, "b": here.b} if parts.has("operand_lost") else {"a": a5, "b": b5})
        if parts.is_whole(slot):
            mis, after = misses(parts, slot, a)
            missed.append(mis)
            parts.after.append((mis, after))
    parts.redirects = let("redirects", all_of([any_of(missed), *unless(parts.ex_hold)]))
    parts.squash = let("squash", parts.redirects | parts.excepted) if form.exceptions else parts.redirects


def undone(parts: Parts) -> list[Bool]:
    """What undoes the instructions in execute."""
    return [] if parts.has("execute_not_undone") else [parts.excepted]


def reads(instruction: Group, register: Word) -> Bool:
    """Whether an instruction reads a register."""
    return register.equals(instruction.s) | register.equals(instruction.t)


def leaving(parts: Parts, decoded: Sequence[Group]) -> list[Bool]:
    """Whether the instruction of each slot leaves decode: the second only with the first."""
    leave: list[Bool] = []
    for slot, here in enumerate(decoded):
        loads = [conj(load.v, load.ld, reads(here, load.d)) for load in parts.whole(parts.latches[3])]
        loads = loads[:1] if parts.has("second_load_forgotten") else [] if parts.has("no_interlock") else loads
        pair = [conj(first.v, first.w, reads(here, first.d)) for first in decoded[:slot]]
        causes = [*loads, *([] if parts.has("pair_unchecked") else pair)]
        if not (parts.is_whole(slot) or parts.has("any_in_second")):
            causes.append(any_of(getattr(here, name) for name in ("ld", "st", "br", "j", "rfe") if name in here))
        stays = [here.v & any_of(causes)] if causes else []
        go = all_of([*unless(*stays, parts.ex_hold), *leave[-1:]])
        leave.append(parts.pipe.let(f"leave_{slot}", go))
    return leave


def decode(parts: Parts, registers: Memory) -> None:
    """Instructions leave with their operands, or wait; an exception undoes them, and a branch that went elsewhere."""
    parts.pipe.comment("decode: an instruction waits for a load in execute; the second also for the first of its pair")
    form = parts.form
    decoded = [fields(parts, here, here.i) if form.late else here for here in parts.latches[2]]
    parts.leave = leaving(parts, decoded)
    squash = parts.excepted if parts.has("decode_not_squashed") else parts.squash
    for slot, (here, given) in enumerate(zip(parts.latches[3], decoded)):
        goes = all_of([given.v, parts.leave[slot], *unless(squash)])
        given = given.having(v=goes, a=registers.read(given.s), b=registers.read(given.t))
        kept = here.having(v=all_of([here.v, *unless(*undone(parts))]), **parts.kept[slot])
        parts.pipe.next(here, held(parts.ex_hold, kept, Group(**{name: given[name] for name in here})))


def fields(parts: Parts, group: Group, i: Word) -> Group:
    """A group with the fields of an instruction too."""
    return group.having(**{name: getattr(parts.f, function)(i) for name, function, _ in parts.form.fields()})


def fetched(parts: Parts, go: Bool) -> tuple[list[Group], list[Word]]:
    """What is fetched for each slot, and where fetch goes on after each."""
    f, form, let, place = parts.f, parts.form, parts.pipe.let, parts.f.pc
    groups: list[Group] = []
    after: list[Word] = []
    for slot in parts.slots:
        i = let(f"f_i{slot}", f.imem(place))
        group, following = Group(v=go, pc=place), f.inc(place)
        if form.prediction:
            taken = let(f"f_pt{slot}", (f.branch(i) | f.jump(i)) & f.ptaken(f.hist, place))
            to = let(f"f_pg{slot}", f.ptarget(f.hist, place))
            group, following = group.having(pt=taken, pg=to), ite(taken, to, following)
        if form.exceptions:
            group = group.having(f=f.ifault(place))
        groups.append(group.having(i=i) if form.late else fields(parts, group, i))
        after.append(let(f"f_on{slot}", following))
        place = let(f"f_pc{slot + 1}", f.inc(place))
    return groups, after


def fetch(parts: Parts) -> None:
    """As many instructions are fetched as leave decode; the second of a pair moves up where only the first leaves."""
    parts.pipe.comment("fetch")
    f, let, latches, leave = parts.f, parts.pipe.let, parts.latches[2], parts.leave
    go = let("go", all_of([~parts.stall, *([parts.done["imem_done"]] if parts.form.slow else [])]))
    groups, after = fetched(parts, go)
    new = [leave[slot] & go if not parts.form.idle else leave[slot] for slot in parts.slots]
    if len(latches) == 1:
        choices = [[(new[0], leave[0], groups[0])]]
        following = ite(go & leave[0], after[0], f.pc)
    else:
        guessed = parts.form.prediction and not parts.has("second_after_guess")
        second = groups[1].having(v=go & ~groups[0].pt) if guessed else groups[1]
        both = ite(groups[0].pt, groups[0].pg, after[1]) if parts.form.prediction else after[1]
        choices = [[(new[1], leave[1], groups[0]), (leave[0], leave[0], latches[1])],
                   [(new[1], leave[1], second), (new[0], leave[0], groups[0])]]
        following = ite(go & leave[1], let("f_on", both), ite(go & leave[0], after[0], f.pc))
    squash = parts.excepted if parts.has("fetch_not_squashed") else parts.squash
    for here, given in zip(latches, choices):
        taken, valid = here, here.v
        for condition, leaves, group in reversed(given):
            taken = ite(condition, Group(**{name: group[name] for name in here}), taken)
            valid = ite(leaves, group.v, valid)
        parts.pipe.next(here, taken.having(v=all_of([valid, *unless(squash)])))
    parts.pipe.next(f.pc, followed(parts, following))
    if parts.form.prediction:
        parts.pipe.next(f.hist, f.learn(f.hist, parts.latches[3][0].pc))


def followed(parts: Parts, following: Word) -> Word:
    """Where fetch goes on after exceptions and branches that went elsewhere, if there are any."""
    *first, (_, restart) = parts.after
    for mis, after in reversed(first):
        restart = ite(mis, after, restart)
    following = ite(parts.redirects, restart, following)
    if not parts.form.exceptions:
        return following
    handler: Word = parts.f.handler
    return ite(parts.excepted, handler, following)


def invariant(form: Form) -> Invariant | None:
    """No instruction in execute reads what a load in memory writes. Where nothing waits there, it needn't be said."""
    if not form.slow:
        return None
    stages = Parts(form).latches
    return Invariant(*(~conj(here.v, load.v, load.ld, load.w, reads(here, load.d))
                       for here in stages[3] for load in stages[4][:form.whole_slots]))


# ---- the words


def design(name: str, **ways: object) -> tuple[str, str, str | None]:
    """The texts of a machine: its pipeline, its specification, and its invariant where it has one."""
    form = form_of(name, **ways)
    inv = invariant(form)
    return pipeline(form).text(), specification(form).text(), None if inv is None else inv.text()


def main() -> None:
    """Writes the files, or lists the machines and their wrong twins."""
    parser = argparse.ArgumentParser(prog="python3 -m burch_dill.machines.dlx",
                                     description="The pipelines of DLX that the field measures by.")
    parser.add_argument("--list", action="store_true", help="name the machines and their wrong twins")
    parser.add_argument("--wrong", default="", metavar="TWIN", help="write this wrong twin")
    for way in ("idle", "late", "ordered"):
        parser.add_argument(f"--{way}", action="store_true", help="write it in this other way")
    parser.add_argument("names", nargs="*", metavar="MACHINE PIPE SPEC [INV]")
    words = parser.parse_intermixed_args()
    if words.list:
        print("\n".join([*machines(), "", *(f"{name}: {twin.bug}" for name, twin in TWINS.items())]))
        return
    if not words.names:
        parser.error("a machine and its files are wanted")
    machine, *names = words.names
    if words.wrong and words.wrong not in twins(machine):
        raise SystemExit(f"no wrong twin {words.wrong} of {machine}: {', '.join(twins(machine))}")
    texts = design(machine, wrong=words.wrong, idle=words.idle, late=words.late, ordered=words.ordered)
    written = [text for text in texts if text is not None]
    if len(names) != len(written):
        raise SystemExit(f"{machine} has {len(written)} files")
    for name, text in zip(names, written):
        with open(name, "w", encoding="ascii") as file:
            file.write(text)


if __name__ == "__main__":
    main()
