"""The files that say what is asked: machines, invariants, starts and completion functions."""
from __future__ import annotations

import re
import textwrap
from collections.abc import Iterable, Iterator, Mapping, Sequence
from contextlib import contextmanager
from typing import Any, Callable, ClassVar, TypeVar, Union

from .errors import DesignError
from .expressions import FALSE, RESERVED, TRUE, AnyBundle, Bool, Expression, Function, Group, Memory, Predicate
from .expressions import Scalar, Sorted, Vector, Word, all_of, held, tree_of
from .trees import WIDTH, Tree, laid_out, written

NAME = re.compile(r"[A-Za-z_][A-Za-z0-9_.-]{0,63}")

Index = TypeVar("Index", bound=Union[int, str, tuple[int, ...]])


def grid(stages: Iterable[int], slots: Iterable[int]) -> list[tuple[int, int]]:
    """The pairs of a stage and a slot, stage by stage: indices for `latches` and `groups`."""
    listed = list(slots)
    return [(stage, slot) for stage in stages for slot in listed]


def _in_range(what: str, number: int, most: int) -> str:
    if not 0 <= number <= most:
        raise DesignError(f"{what} is a number from 0 to {most}, and not {number}")
    return str(number)


def _new_name(name: str, names: set[str]) -> str:
    """The name, which is put among the others."""
    if not NAME.fullmatch(name) or name in RESERVED:
        raise DesignError(f"{name!r} isn't a name")
    if name in names:
        raise DesignError(f"{name} is declared twice")
    names.add(name)
    return name


def _scalar(sort: type[Expression]) -> str:
    if sort not in (Word, Bool):
        raise DesignError(f"a latch or an input is a Word or a Bool, and not {sort!r}")
    return sort.sort


def _indexed(name: str, index: int | str | tuple[int, ...]) -> str:
    return name + ("_".join(map(str, index)) if isinstance(index, tuple) else str(index))


def _constant_name(constant: Word) -> Tree:
    tree = tree_of(constant, Word)
    if isinstance(tree, str) or len(tree) != 1:
        raise DesignError(f"{constant} isn't a constant")
    return tree[0]


@contextmanager
def _within(item: str) -> Iterator[None]:
    """Names the item that is being defined in what is raised meanwhile."""
    try:
        yield
    except DesignError as error:
        raise DesignError(f"in ({item} ..): {error}") from error


class Declarations:
    """Functions, predicates, latches and memories, in the order of the calls. Each name is declared once."""

    def __init__(self) -> None:
        self._items: list[Tree] = []  # an atom is a comment
        self._names: set[str] = set()
        self._entries: dict[str, type[Expression]] = {}

    def function(self, name: str, arity: int) -> Function:
        """An unknown function of 0 to 8 words to a word."""
        self._declare("function", name, _in_range("an arity", arity, 8))
        return Function(name, arity)

    def functions(self, **arities: int) -> tuple[Function, ...]:
        """Unknown functions by name, each with its number of words: `inc, alu = both.functions(inc=1, alu=2)`."""
        return tuple(self.function(name, arity) for name, arity in arities.items())

    def predicate(self, name: str, arity: int) -> Predicate:
        """An unknown function of 0 to 8 words to a truth value."""
        self._declare("predicate", name, _in_range("an arity", arity, 8))
        return Predicate(name, arity)

    def constant(self, name: str) -> Word:
        """An unknown word that stays the same: a function of no argument, applied."""
        return self.function(name, 0)()

    def distinct(self, *constants: Word) -> None:
        """Keeps constants apart: no two of them have one value."""
        self._items.append(("distinct", *(_constant_name(constant) for constant in constants)))

    def latch(self, name: str, sort: type[Scalar]) -> Scalar:
        """A register, of sort `Word` or `Bool`."""
        self._declare("latch", name, _scalar(sort))
        self._entries[name] = sort
        return sort(name)

    def memory(self, name: str) -> Memory:
        """A memory from words to words."""
        self._declare("memory", name)
        self._entries[name] = Memory
        return Memory(name)

    def latches(self, name: str, indices: Iterable[Index], sort: type[Scalar]) -> dict[Index, Scalar]:
        """An array of latches, named by the name and the index: `v2`, `v3`; `v2_0` where the index is `(2, 0)`."""
        return {index: self.latch(_indexed(name, index), sort) for index in indices}

    def memories(self, name: str, indices: Iterable[Index]) -> dict[Index, Memory]:
        """An array of memories, named like latches."""
        return {index: self.memory(_indexed(name, index)) for index in indices}

    def vector(self, name: str, length: int, sort: type[Scalar]) -> Vector[Scalar]:
        """A vector of so many latches, named by the name and the place, from 0."""
        return Vector(self.latch(_indexed(name, place), sort) for place in range(length))

    def group(self, index: int | str | tuple[int, ...] = "", **sorts: type[Expression]) -> Group:
        """A group of latches, each with its sort, named by the field and the index: `group(2, v=Bool)` has `v2`."""
        return Group(**{name: self.latch(_indexed(name, index), sort) for name, sort in sorts.items()})  # type: ignore

    def groups(self, indices: Iterable[Index], **sorts: type[Expression]) -> dict[Index, Group]:
        """A group for each stage, or for each stage and slot (`grid`): `groups(range(2, 5), v=Bool, d=Word)`."""
        return {index: self.group(index, **sorts) for index in indices}

    def comment(self, text: str) -> None:
        """A comment before the items that follow: printable ASCII, in lines that are broken where they're too long."""
        if re.search(r"[^\n -~]", text):
            raise DesignError(f"not all of this is printable ASCII: {text!r}")
        self._items += [f"; {line}" for part in text.split("\n") for line in textwrap.wrap(part, WIDTH - 3)]

    def _declare(self, head: str, name: str, *parts: Tree) -> None:
        self._items.append((head, _new_name(name, self._names), *parts))


def _unless(squash: Bool, valid: Expression) -> Bool:
    """What a valid bit becomes where a squash makes it false."""
    return ~squash if valid is TRUE else ~squash & Bool(tree_of(valid, Bool))


def _lets(add: Callable[[str, Expression], None], name: str, value: Any) -> Any:
    """Adds a let for an expression, or one for each part of a bundle, and gives what names them."""
    with _within(f"let {name}"):
        given = value() if callable(value) else value
        if isinstance(given, Vector):
            return Vector(_lets(add, _indexed(name, place), part) for place, part in enumerate(given))
        if isinstance(given, Group):
            return Group(**{field: _lets(add, f"{name}_{field}", part) for field, part in given.items()})
        tree_of(given, Expression)
        add(name, given)
        return type(given)(name)


class Machine(Declarations):
    """What pipelines and specifications share. It begins with these declarations, as they stand when it's made."""

    head: ClassVar[str]

    def __init__(self, shared: Declarations | None = None) -> None:
        super().__init__()
        self._nexts: set[str] = set()
        if shared is not None:
            self._items += shared._items
            self._names |= shared._names
            self._entries.update(shared._entries)

    def let(self, name: str, value: AnyBundle | Callable[[], AnyBundle]) -> AnyBundle:
        """A name for a value, which is written once: a value that is used often should have one.

        A vector or a group has a let for each part: `name0`, or `name_field`. The value may be a function of no
        argument; then what is raised while it is made names the let too.
        """
        named: AnyBundle = _lets(lambda part, given: self._declare("let", part, given.sort, given.tree), name, value)
        return named

    def next(self, entry: AnyBundle, value: AnyBundle) -> None:
        """The value of a latch or memory after the cycle; each has one. Of a vector or a group part by part."""
        if isinstance(entry, (Vector, Group)):
            entry.mapped(self._next, value)  # type: ignore[arg-type]
        else:
            self._next(entry, value)

    def _next(self, entry: Sorted, value: Sorted) -> Sorted:
        name = str(entry)
        with _within(f"next {name}"):
            if self._entries.get(name) is not type(entry):
                raise DesignError(f"{name} is no latch or memory of this machine")
            if name in self._nexts:
                raise DesignError(f"{name} has a next value already")
            tree = tree_of(value, type(entry))
        self._nexts.add(name)
        self._items.append(("next", name, tree))
        return entry

    def advance(self, latches: Group, given: Mapping[str, Expression], *, hold: Bool = FALSE, squash: Bool = FALSE,
                valid: str = "v") -> None:
        """The next values of a group of latches: what is given by the same names, which may have more.

        Where `hold` is true all of them keep what they have. Where `squash` is true the field `valid` becomes false,
        held or not, and the others do what they would do.
        """
        taken = held(hold, latches, Group(**{name: given[name] for name in latches if name in given}))
        if squash is not FALSE:
            taken = taken.having(**{valid: _unless(squash, taken[valid])})
        self.next(latches, taken)

    def text(self) -> str:
        """The file. Raises `DesignError` where a latch or memory has no next value."""
        missing = [name for name in self._entries if name not in self._nexts]
        if missing:
            raise DesignError(f"no next value: {', '.join(missing)}")
        return _file_text(self.head, [*self._items, *self._ending()])

    def _ending(self) -> list[Tree]:
        return []


class Pipeline(Machine):
    """A pipeline that so many cycles flush (0 to 64), each cycle of which stands for at most so many steps (0 to 8)."""

    head = "pipeline"

    def __init__(self, shared: Declarations | None = None, *, flush: int, steps: int) -> None:
        super().__init__(shared)
        self._flush, self._steps = _in_range("flush", flush, 64), _in_range("steps", steps, 8)

    def input(self, name: str, idle: Scalar) -> Scalar:
        """An input of the sort of its value in flush cycles, which uses no input."""
        with _within(f"input {name}"):
            self._declare("input", name, _scalar(type(idle)), tree_of(idle, type(idle)))
        return type(idle)(name)

    def exact(self, count: int, condition: Bool) -> None:
        """Where the condition is true, a cycle stands for just so many steps."""
        with _within(f"exact {count}"):
            self._items.append(("exact", _in_range("a number of steps", count, 8), tree_of(condition, Bool)))

    def _ending(self) -> list[Tree]:
        return [("flush", self._flush), ("steps", self._steps)]


class Specification(Machine):
    """The instruction set machine; its latches and memories are those of the pipeline that are visible."""

    head = "specification"


class OfStates:
    """A file on states: its expressions may use the pipeline's latches and memories, functions and its own lets."""

    head: ClassVar[str]

    def __init__(self) -> None:
        self._lets: list[Tree] = []
        self._names: set[str] = set()

    def let(self, name: str, value: AnyBundle | Callable[[], AnyBundle]) -> AnyBundle:
        """A name for a value, which is written once; of a vector or a group for each part."""
        named: AnyBundle = _lets(self._let, name, value)
        return named

    def _let(self, name: str, value: Expression) -> None:
        self._lets.append(("let", _new_name(name, self._names), value.sort, value.tree))

    def text(self) -> str:
        """The file."""
        raise NotImplementedError


class Premise(OfStates):
    """What is assumed of a state: that all these claims are true."""

    def __init__(self, *claims: Bool) -> None:
        super().__init__()
        self._claims: list[Bool] = []
        for claim in claims:
            self.require(claim)

    def require(self, claim: Bool) -> None:
        """One more claim."""
        self._claims.append(Bool(tree_of(claim, Bool)))

    def text(self) -> str:
        """The file."""
        return _file_text(self.head, [*self._lets, all_of(self._claims).tree])


class Invariant(Premise):
    """What is assumed of the state before a cycle, and has to hold after it."""

    head = "invariant"


class Start(Premise):
    """What is assumed of the first state of a run, and of no state after it."""

    head = "start"


class Completion(OfStates):
    """What a state of the pipeline stands for: a value of each latch and memory of the specification."""

    head = "completion"

    def __init__(self) -> None:
        super().__init__()
        self._values: dict[str, Tree] = {}

    def abstract(self, entry: Sorted, value: Sorted) -> None:
        """The value of a latch or memory of the specification; each has one."""
        with _within(f"abstract {entry}"):
            if str(entry) in self._values:
                raise DesignError(f"{entry} has a value already")
            self._values[str(entry)] = tree_of(value, type(entry))

    def text(self) -> str:
        """The file."""
        abstracts: list[Tree] = [("abstract", name, value) for name, value in self._values.items()]
        return _file_text(self.head, [*self._lets, *abstracts])


# heads of items that share lines with their like
TOGETHER = {"function": "symbols", "predicate": "symbols", "distinct": "symbols", "latch": "entries",
            "memory": "entries", "flush": "ending", "steps": "ending"}


def _file_text(head: str, items: Sequence[Tree]) -> str:
    lines, last = [f"({head}"], ""
    for item in items:
        kind = "" if isinstance(item, str) else TOGETHER.get(str(item[0]), "")
        if kind and kind == last and len(lines[-1]) + len(written(item)) + 2 <= WIDTH:
            lines[-1] += " " + written(item)
        else:
            lines += laid_out(item, 1, 1)
        last = kind
    return "\n".join(lines) + ("\n)\n" if lines[-1].startswith(" ;") else ")\n")
