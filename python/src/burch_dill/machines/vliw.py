"""VLIW machines with predicated instructions, and their wrong twins, as texts for `burch_dill check`.

They follow the published descriptions by Velev and Bryant (CAV and DAC 2000) of a machine that is like the Itanium: a
packet has WIDTH instructions, which read what stood before it. Each has a predicate register that enables it. Integer
and floating-point registers are renamed by the current frame marker, which branches with a call change. Some of the
integer slots load and store; a load may be ahead of its time, and a check of the table of such loads goes to a
recovery where a store came between. Fetch, the integer and floating-point units and memory take any number of cycles.
Four stages: fetch, registers, execute, write back. With -BP branches are predicted. The fields of a packet are
functions of its address.

    python3 -m burch_dill.machines.vliw MACHINE [--wrong TWIN] PIPE SPEC
    python3 -m burch_dill.machines.vliw --list

MACHINE is 4VLIW-MC to 9VLIW-MC, with -BP or without.
"""
from __future__ import annotations

import argparse
import re
from collections.abc import Iterator, Sequence
from dataclasses import dataclass
from types import SimpleNamespace
from typing import Any, Callable

from .. import FALSE, TRUE, Bool, Declarations, Group, Memory, Pipeline, Specification, Word
from .. import any_of, conj, first_of, held, ite

Let = Callable[[str, Any], Any]

NAME = re.compile(r"([4-9])VLIW-MC(-BP)?")

FUNCTIONS = {"ialu": 3, "falu": 3, "compare": 3, "tobr": 2, "remap": 2, "fremap": 2, "inc": 1, "newcfm": 2, "dread": 2,
             "dwrite": 3, "fconv": 1, "ains": 3, "arem": 2}
FILES = ("irf", "frf", "prf", "brf")

# the fields of a slot by its kind: words, then truth values
COMPUTES = ("qp op s t d pd bd", "wi wp wb")
KINDS = {"memory": (COMPUTES[0] + " rec", COMPUTES[1] + " ld ldf st adv chk"), "integer": COMPUTES,
         "floating": ("qp op s t d", "wf"), "branch": ("qp bs fr", "br call")}

# what a slot writes: the register file's letter, and the latches that say whether, where and what
WRITES = {"memory": "ifpb", "integer": "ipb", "floating": "f", "branch": ""}

TWINS = {
    "path_left_out": "the last result of the integer registers isn't forwarded to operands",
    "predicate_left_out": "the last predicate isn't forwarded to the slots",
    "older_result_first": "where two instructions of a packet write one register, the first one's is forwarded",
    "predicate_ignored": "stores are carried out whatever their predicate",
    "not_renamed": "the integer registers that are written aren't renamed",
    "squash_forgotten": "the packet in registers goes on after a branch that fetch didn't follow",
    "operand_lost": "while execute waits, a result that leaves write back is lost",
    "unit_not_awaited": "a packet goes on though the floating-point units aren't done, and stays",
}
# those of machines with branch prediction; in others a new frame comes with a squash
GUESSING_TWINS = {
    "frame_of_before": "renaming doesn't see the frame that the packet in execute makes",
    "target_not_compared": "a packet that was guessed to branch may go elsewhere",
    "guess_not_undone": "a packet that was guessed to branch and doesn't goes unnoticed",
}


@dataclass(frozen=True)
class Form:
    """How many slots a packet has, whether branches are predicted, and which wrong twin it is."""

    width: int
    prediction: bool
    wrong: str = ""

    def kinds(self) -> list[str]:
        """What each slot does: a third branches, a quarter floating-point, the rest integers, half of them memory."""
        branches, floating = self.width // 3, self.width // 4
        integers = self.width - branches - floating
        memories = integers // 2
        return (["memory"] * memories + ["integer"] * (integers - memories) + ["floating"] * floating
                + ["branch"] * branches)


def form_of(name: str, wrong: str = "") -> Form:
    """The form of a machine by its name, as 9VLIW-MC-BP."""
    found = NAME.fullmatch(name)
    if not found:
        raise SystemExit(f"no machine {name}: {', '.join(machines())}")
    return Form(int(found[1]), bool(found[2]), wrong)


def machines() -> list[str]:
    """The names of all machines."""
    return [f"{width}VLIW-MC{prediction}" for width in range(4, 10) for prediction in ("", "-BP")]


def twins(name: str) -> list[str]:
    """The names of a machine's wrong twins."""
    return [*TWINS, *(GUESSING_TWINS if form_of(name).prediction else ())]


# ---- what both machines have


class Parts:
    """A machine while it is written: its names, and for each slot its number, its kind and its fields of a packet."""

    def __init__(self, form: Form) -> None:
        self.form, self.kinds, self.both = form, form.kinds(), Declarations()
        self.fields = [{**self.declared(slot, kind, 0), **self.declared(slot, kind, 1)}
                       for slot, kind in enumerate(self.kinds)]
        names: dict[str, Any] = dict(zip(FUNCTIONS, self.both.functions(**FUNCTIONS)))
        names.update(isset=self.both.predicate("isset", 1), ahit=self.both.predicate("ahit", 2))
        names.update((name, self.both.latch(name, Word)) for name in ("pc", "cfm", "alat", "data"))
        names.update((name, self.both.memory(name)) for name in FILES)
        self.f = SimpleNamespace(**names)

    def declared(self, slot: int, kind: str, sort: int) -> dict[str, Any]:
        """The functions or predicates that give a slot's fields."""
        declare = (self.both.function, self.both.predicate)[sort]
        return {field: declare(f"{field}_{slot}", 1) for field in KINDS[kind][sort].split()}

    def packet(self, slot: int) -> Group:
        """The fields of a slot of the packet at pc."""
        return Group(**{name: field(self.f.pc) for name, field in self.fields[slot].items()})

    def of_kind(self, *kinds: str) -> list[int]:
        """The slots of these kinds."""
        return [slot for slot, kind in enumerate(self.kinds) if kind in kinds]


def results(parts: Parts, let: Let, slots: Sequence[Group], wrong: str = "") -> tuple[list[Group], SimpleNamespace]:
    """What a packet does whose slots have operands: each slot's results, and what becomes of data, frame and pc."""
    f, data, alat, done = parts.f, parts.f.data, parts.f.alat, []
    on = [let(f"en_{slot}", f.isset(here.p)) for slot, here in enumerate(slots)]
    for slot, (kind, here) in enumerate(zip(parts.kinds, slots)):
        out = Group()
        if kind == "memory":
            got = let(f"got_{slot}", f.dread(data, here.a))
            stores = here.st if wrong == "predicate_ignored" else on[slot] & here.st
            out = Group(i=let(f"ri_{slot}", ite(here.ld, got, f.ialu(here.op, here.a, here.b))), f=f.fconv(got))
            data = let(f"data_{slot}", ite(stores, f.dwrite(data, here.a, here.b), data))
            ahead = ite(conj(on[slot], here.ld, here.adv), f.ains(alat, here.d, here.a), alat)
            alat = let(f"alat_{slot}", ite(on[slot] & here.st, f.arem(alat, here.a), ahead))
        if kind == "integer":
            out = Group(i=let(f"ri_{slot}", f.ialu(here.op, here.a, here.b)))
        if kind == "floating":
            out = Group(f=let(f"rf_{slot}", f.falu(here.op, here.a, here.b)))
        if kind in ("memory", "integer"):
            out = out.having(p=let(f"rp_{slot}", f.compare(here.op, here.a, here.b)),
                             b=let(f"rb_{slot}", f.tobr(here.op, here.a)))
        done.append(out)
    return done, SimpleNamespace(on=on, data=data, alat=alat, **branches(parts, let, slots, on))


def branches(parts: Parts, let: Let, slots: Sequence[Group], on: Sequence[Bool]) -> dict[str, object]:
    """Whether a packet branches and where, and its frame: a check that fails comes first, then the first branch."""
    f = parts.f
    fails = [conj(on[slot], slots[slot].chk, ~f.ahit(f.alat, slots[slot].d)) for slot in parts.of_kind("memory")]
    goes = [on[slot] & slots[slot].br for slot in parts.of_kind("branch")]
    last = slots[-1]
    targets = [*zip(fails, (slots[slot].rec for slot in parts.of_kind("memory"))),
               *zip(goes, (slots[slot].to for slot in parts.of_kind("branch")))]
    frames = [*((fail, f.cfm) for fail in fails),
              *((go, ite(slots[slot].call, f.newcfm(f.cfm, slots[slot].fr), f.cfm))
                for go, slot in zip(goes, parts.of_kind("branch")))]
    return {"taken": let("taken", any_of([*goes, *fails])), "target": let("target", first_of(targets[:-1], last.to)),
            "frame": let("cfm_on", first_of(frames, f.cfm))}


def writers(parts: Parts, letter: str) -> Iterator[int]:
    """The slots that may write a register file."""
    return (slot for slot, kind in enumerate(parts.kinds) if letter in WRITES[kind])


def writes(kind: str, letter: str, here: Group) -> Bool:
    """Whether a slot writes a register file, its predicate apart."""
    if letter == "i" and kind == "memory":
        either: Bool = here.wi | here.ld
        return either
    bit: Bool = getattr(here, "ldf" if letter == "f" and kind == "memory" else f"w{letter}")
    return bit


def destination(kind: str, letter: str, here: Any) -> Word:
    """The register of a register file that a slot writes, renamed."""
    floats = {"memory": "fd"}.get(kind, "d")
    register: Word = getattr(here, {"i": "d", "f": floats, "p": "pd", "b": "bd"}[letter])
    return register


def renamed(parts: Parts, kind: str, here: Group, frame: Word) -> Group:
    """A slot's registers, renamed by a frame."""
    if kind == "branch":
        return here
    by = parts.f.fremap if kind == "floating" else parts.f.remap
    fields = {name: by(frame, here[name]) for name in ("s", "t", "d")}
    if kind == "memory":
        fields["fd"] = parts.f.fremap(frame, here.d)
    return here.having(**fields)


def operands(parts: Parts, kind: str, here: Group, files: dict[str, Memory]) -> Group:
    """A slot with what its registers hold."""
    here = here.having(p=files["prf"].read(here.qp))
    if kind == "branch":
        return here.having(to=files["brf"].read(here.bs))
    registers = files["frf" if kind == "floating" else "irf"]
    return here.having(a=registers.read(here.s), b=registers.read(here.t))


def specification(form: Form) -> Specification:
    """The instruction set machine: one packet a step."""
    parts = Parts(form)
    spec, f = Specification(parts.both), parts.f
    files = {name: getattr(f, name) for name in FILES}
    slots = [operands(parts, kind, renamed(parts, kind, parts.packet(slot), f.cfm), files)
             for slot, kind in enumerate(parts.kinds)]
    done, state = results(parts, spec.let, slots)
    for name, after in files.items():
        letter = name[0]
        for slot in writers(parts, letter):
            here, kind = slots[slot], parts.kinds[slot]
            written = after.write(destination(kind, letter, here), done[slot][letter])
            after = spec.let(f"{name}_{slot}", ite(state.on[slot] & writes(kind, letter, here), written, after))
        spec.next(files[name], after)
    spec.next(f.pc, ite(state.taken, state.target, f.inc(f.pc)))
    for name, after in (("cfm", state.frame), ("data", state.data), ("alat", state.alat)):
        spec.next(getattr(f, name), after)
    return spec


# ---- the pipeline


def sorts(words: str, bools: str) -> dict[str, type]:
    """Fields with their sorts."""
    return {**dict.fromkeys(words.split(), Word), **dict.fromkeys(bools.split(), Bool)}


class Pipe(Parts):
    """A pipeline while it is written: its latches by stage and slot, and what stages tell others."""

    def __init__(self, form: Form) -> None:
        super().__init__(form)
        if form.prediction:
            self.f.ptaken = self.both.predicate("ptaken", 2)
            self.f.ptarget, self.f.learn = self.both.functions(ptarget=2, learn=2)
            self.f.hist = self.both.latch("hist", Word)
        self.pipe = Pipeline(self.both, flush=3, steps=1)
        self.let, self.stall = self.pipe.let, self.pipe.input("stall", TRUE)
        self.hold = FALSE
        self.done = {name: self.pipe.input(f"{name}_done", TRUE) for name in ("imem", "int", "fp", "mem")}
        whole = sorts("pc" + " pg" * form.prediction, "v" + " pt" * form.prediction)
        self.packets: dict[int, Group] = {}
        self.latches: dict[int, list[Group]] = {}
        for stage, name in ((2, "registers"), (3, "execute")):
            self.pipe.comment(f"in {name}")
            self.packets[stage] = self.pipe.group(stage, **whole)
            self.latches[stage] = [self.pipe.group(f"{stage}_{slot}", **self.held_by(stage, kind))
                                   for slot, kind in enumerate(self.kinds)]
        self.pipe.comment("in write back: whether each slot writes a register file, where and what")
        self.back = {letter: {slot: self.pipe.group(f"4_{slot}", **{f"{letter}v": Bool, f"{letter}d": Word,
                                                                    f"{letter}x": Word})
                              for slot in writers(self, letter)} for letter in "ifpb"}

    def held_by(self, stage: int, kind: str) -> dict[str, type]:
        """The latches that a slot has before a stage: before execute its operands too."""
        fields = sorts(*KINDS[kind])
        if stage == 3:
            fields.update(sorts("p to" if kind == "branch" else "p a b fd" if kind == "memory" else "p a b", ""))
        return fields

    def has(self, wrong: str) -> bool:
        """Whether this is that wrong twin."""
        return self.form.wrong == wrong


def pipeline(form: Form) -> Pipeline:
    """The pipeline, stage by stage, the last first."""
    parts = Pipe(form)
    files = write_back(parts)
    kept, squash, state = execute(parts)
    frame = parts.let("cfm_now", ite(state.ends, state.frame, parts.f.cfm))
    parts.pipe.next(parts.f.cfm, frame)
    registers(parts, files, kept, squash, parts.f.cfm if parts.has("frame_of_before") else frame)
    fetch(parts, squash, state)
    return parts.pipe


def of_back(latches: Group) -> tuple[Any, Any, Any]:
    """Whether a slot of write back writes a register file, where and what."""
    valid, at, word = latches.values()
    return valid, at, word


def write_back(parts: Pipe) -> dict[str, Memory]:
    """The register files with the results of write back, which are next."""
    parts.pipe.comment("write back")
    files = {}
    for name in FILES:
        after, letter = getattr(parts.f, name), name[0]
        for slot, latches in parts.back[letter].items():
            valid, at, word = of_back(latches)
            after = parts.let(f"{name}_{slot}", ite(valid, after.write(at, word), after))
        parts.pipe.next(getattr(parts.f, name), after)
        files[name] = after
    return files


def forwarded(parts: Pipe, letter: str, register: Word, kept: Word) -> Word:
    """What a register holds in execute: the results of write back, the last of the packet first, or what was read."""
    paths = list(parts.back[letter].values())
    if parts.has("older_result_first"):
        paths.reverse()
    if letter == {"path_left_out": "i", "predicate_left_out": "p"}.get(parts.form.wrong):
        paths.pop()
    for latches in paths:
        valid, at, word = of_back(latches)
        kept = ite(valid & at.equals(register), word, kept)
    return kept


def seen(parts: Pipe, slot: int, kind: str, here: Group) -> Group:
    """The operands of a slot in execute, by name."""
    found = {"p": forwarded(parts, "p", here.qp, here.p)}
    if kind == "branch":
        found["to"] = forwarded(parts, "b", here.bs, here.to)
    else:
        letter = "f" if kind == "floating" else "i"
        found.update(a=forwarded(parts, letter, here.s, here.a), b=forwarded(parts, letter, here.t, here.b))
    return parts.let(f"w_{slot}", Group(**found))


def execute(parts: Pipe) -> tuple[list[Group], Bool, SimpleNamespace]:
    """What each slot keeps while a unit isn't done, whether fetch went elsewhere, and the packet's results."""
    parts.pipe.comment("execute")
    f, let, packet = parts.f, parts.let, parts.packets[3]
    operand = [seen(parts, slot, kind, here) for slot, (kind, here) in enumerate(zip(parts.kinds, parts.latches[3]))]
    slots = [here.having(**found) for here, found in zip(parts.latches[3], operand)]
    done, state = results(parts, let, slots, parts.form.wrong)
    waited = [parts.done[name] for name in ("int", "fp", "mem")]
    parts.hold = let("hold", packet.v & ~conj(*waited))
    holds = packet.v & ~conj(waited[0], waited[2]) if parts.has("unit_not_awaited") else parts.hold
    state.ends = let("ends", packet.v & ~holds)
    for letter, latches in parts.back.items():
        for slot, back in latches.items():
            kind, here = parts.kinds[slot], slots[slot]
            valid = state.ends & (state.on[slot] & writes(kind, letter, here))
            given = (valid, destination(kind, letter, here), done[slot][letter])
            parts.pipe.next(back, Group(**dict(zip(back, given))))
    squash = let("squash", state.ends & missed(parts, state))
    for name, after in (("data", state.data), ("alat", state.alat)):
        parts.pipe.next(getattr(f, name), ite(state.ends, after, getattr(f, name)))
    kept = [here if parts.has("operand_lost") else full for here, full in zip(parts.latches[3], slots)]
    return kept, squash, state


def missed(parts: Pipe, state: SimpleNamespace) -> Bool:
    """Whether fetch didn't go on where the packet in execute leads."""
    taken: Bool = state.taken
    if not parts.form.prediction:
        return taken
    packet = parts.packets[3]
    causes = {"": taken & ~packet.pt, "guess_not_undone": ~taken & packet.pt,
              "target_not_compared": conj(taken, packet.pt, ~state.target.equals(packet.pg))}
    return any_of(cause for wrong, cause in causes.items() if not wrong or not parts.has(wrong))


def registers(parts: Pipe, files: dict[str, Memory], kept: Sequence[Group], squash: Bool, frame: Word) -> None:
    """Registers are renamed and read; what waits in execute keeps what is forwarded to it."""
    parts.pipe.comment("registers")
    goes = parts.packets[2].v if parts.has("squash_forgotten") else parts.packets[2].v & ~squash
    parts.pipe.advance(parts.packets[3], parts.packets[2].having(v=goes), hold=parts.hold)
    for slot, kind in enumerate(parts.kinds):
        before, here = parts.latches[2][slot], parts.latches[3][slot]
        given = operands(parts, kind, renamed(parts, kind, before, frame), files)
        if parts.has("not_renamed") and kind in ("memory", "integer"):
            given = given.having(d=before.d)
        chosen = held(parts.hold, kept[slot], given)
        parts.pipe.next(here, Group(**{name: chosen[name] for name in here}))


def fetch(parts: Pipe, squash: Bool, state: SimpleNamespace) -> None:
    """A packet is fetched where the one in registers moves on."""
    parts.pipe.comment("fetch")
    f, let, packet = parts.f, parts.let, parts.packets[2]
    fetches = let("fetches", conj(~parts.stall, parts.done["imem"], ~parts.hold))
    following, restart, given = f.inc(f.pc), state.target, {"pc": f.pc}
    if parts.form.prediction:
        given.update(pt=let("f_pt", f.ptaken(f.hist, f.pc)), pg=let("f_pg", f.ptarget(f.hist, f.pc)))
        following = ite(given["pt"], given["pg"], following)
        restart = ite(state.taken, state.target, f.inc(parts.packets[3].pc))
        parts.pipe.next(f.hist, f.learn(f.hist, parts.packets[3].pc))
    parts.pipe.next(f.pc, ite(squash, restart, ite(fetches, following, f.pc)))
    for name, latch in packet.items():
        if name == "v":
            parts.pipe.next(latch, (fetches | (parts.hold & packet.v)) & ~squash)
        else:
            parts.pipe.next(latch, ite(fetches, given[name], latch))
    for slot, here in enumerate(parts.latches[2]):
        parts.pipe.next(here, ite(fetches, parts.packet(slot), here))


# ---- the words


def design(name: str, wrong: str = "") -> tuple[str, str]:
    """The texts of a machine: its pipeline and its specification; it needs no invariant."""
    form = form_of(name, wrong)
    return pipeline(form).text(), specification(form).text()


def main() -> None:
    """Writes the files, or lists the machines and their wrong twins."""
    parser = argparse.ArgumentParser(prog="python3 -m burch_dill.machines.vliw",
                                     description="VLIW machines with predicated instructions.")
    parser.add_argument("--list", action="store_true", help="name the machines and their wrong twins")
    parser.add_argument("--wrong", default="", metavar="TWIN", help="write this wrong twin")
    parser.add_argument("names", nargs="*", metavar="MACHINE PIPE SPEC")
    words = parser.parse_intermixed_args()
    if words.list:
        print("\n".join([*machines(), "", *(f"{name}: {bug}" for name, bug in {**TWINS, **GUESSING_TWINS}.items())]))
        return
    if len(words.names) != 3:
        parser.error("a machine and two files are wanted")
    machine, *names = words.names
    if words.wrong and words.wrong not in twins(machine):
        raise SystemExit(f"no wrong twin {words.wrong} of {machine}: {', '.join(twins(machine))}")
    for name, text in zip(names, design(machine, words.wrong)):
        with open(name, "w", encoding="ascii") as file:
            file.write(text)


if __name__ == "__main__":
    main()
