"""Expressions of the language's three sorts, and bundles of them that are handled together.

`Word`, `Bool` and `Memory` are the sorts. A `Vector` has expressions of one sort by index, a `Group` expressions by the
names of its fields; `ite`, `equal`, `held` and the calls of machines take them as they take one expression.
"""
from __future__ import annotations

from collections.abc import Iterable, Iterator, Mapping, Sequence
from dataclasses import dataclass
from typing import Any, Callable, ClassVar, Generic, NoReturn, TypeVar, Union, overload

from .errors import DesignError
from .trees import Tree, written

# The words of expressions, which are no names.
RESERVED = frozenset("true false not and or implies iff ite read write let".split())


@dataclass(frozen=True, eq=False)
class Expression:
    """An expression of one of the three sorts. Python's `==`, `and`, `or`, `not` and `if` don't take one."""

    tree: Tree
    sort: ClassVar[str] = "value"

    def __str__(self) -> str:
        return written(self.tree)

    def __bool__(self) -> NoReturn:
        raise DesignError(f"{self} has no value while the design is written: `and` is conj(p, q) or p & q, "
                          "`or` is disj(p, q) or p | q, `not` is ~p, `if` is ite(p, x, y)")

    def __eq__(self, other: object) -> NoReturn:
        raise DesignError(f"`==` and `in` don't compare {self}: the equation of two words is x.equals(y), "
                          "of two bools iff(p, q), and texts are compared by str(x) == str(y)")

    def __ne__(self, other: object) -> NoReturn:
        raise DesignError(f"`!=` doesn't compare {self}: for two words write ~x.equals(y), for two bools xor(p, q)")

    __hash__ = object.__hash__


class Bool(Expression):
    """A truth value: `p & q`, `p | q`, `p ^ q` and `~p` are expressions too."""

    sort = "bool"

    def __and__(self, other: Bool) -> Bool:
        return Bool((*_joined("and", self), tree_of(other, Bool)))

    def __or__(self, other: Bool) -> Bool:
        return Bool((*_joined("or", self), tree_of(other, Bool)))

    def __xor__(self, other: Bool) -> Bool:
        return xor(self, other)

    def __invert__(self) -> Bool:
        return Bool(("not", self.tree))


class Word(Expression):
    """A word."""

    sort = "word"

    def equals(self, other: Word) -> Bool:
        """That the two words are the same."""
        return Bool(("=", self.tree, tree_of(other, Word)))


class Memory(Expression):
    """A memory from words to words."""

    sort = "memory"

    def read(self, address: Word) -> Word:
        """The word at an address."""
        return Word(("read", self.tree, tree_of(address, Word)))

    def write(self, address: Word, value: Word) -> Memory:
        """The memory with a value at an address."""
        return Memory(("write", self.tree, tree_of(address, Word), tree_of(value, Word)))


Sorted = TypeVar("Sorted", bound=Expression)
Scalar = TypeVar("Scalar", Word, Bool)

TRUE, FALSE = Bool("true"), Bool("false")


def tree_of(part: Expression, sort: type[Expression]) -> Tree:
    """The tree of a part that has to be of this sort."""
    if not isinstance(part, sort):
        found = f"a {part.sort}" if isinstance(part, Expression) else "no expression"
        hint = ": write TRUE or FALSE" if isinstance(part, bool) else ""
        raise DesignError(f"{part} is {found}, where a {sort.sort} is wanted{hint}")
    return part.tree


def _joined(operator: str, left: Bool) -> tuple[Tree, ...]:
    """The operator with its parts so far: `p & q & r` is `(and p q r)`."""
    return left.tree if isinstance(left.tree, tuple) and left.tree[0] == operator else (operator, left.tree)


# ---- bundles


class Vector(Generic[Sorted], Sequence[Sorted]):
    """Expressions of one sort, by index from 0. `~`, `&`, `|` and `^` work place by place on bools."""

    def __init__(self, parts: Iterable[Sorted]) -> None:
        self._parts = tuple(parts)
        if len({type(part) for part in self._parts}) > 1:
            raise DesignError("a vector has expressions of one sort")

    def __len__(self) -> int:
        return len(self._parts)

    @overload
    def __getitem__(self, index: int) -> Sorted: ...

    @overload
    def __getitem__(self, index: slice) -> Vector[Sorted]: ...

    def __getitem__(self, index: int | slice) -> Sorted | Vector[Sorted]:
        return Vector(self._parts[index]) if isinstance(index, slice) else self._parts[index]

    def __str__(self) -> str:
        return f"[{', '.join(map(str, self._parts))}]"

    def __eq__(self, other: object) -> NoReturn:
        raise DesignError("`==` doesn't compare vectors: write equal(x, y)")

    __hash__ = object.__hash__

    def mapped(self, function: Callable[..., Other], *others: Sequence[Any]) -> Vector[Other]:
        """The function of each part, and of the parts of other vectors at the same place."""
        for other in others:
            if not isinstance(other, Sequence) or len(other) != len(self):
                raise DesignError(f"{other} isn't a vector of {len(self)} parts")
        return Vector(function(*parts) for parts in zip(self, *others))

    def __and__(self, other: Vector[Bool]) -> Vector[Bool]:
        return self.mapped(conj, other)

    def __or__(self, other: Vector[Bool]) -> Vector[Bool]:
        return self.mapped(disj, other)

    def __xor__(self, other: Vector[Bool]) -> Vector[Bool]:
        return self.mapped(xor, other)

    def __invert__(self) -> Vector[Bool]:
        return self.mapped(_negated)


class Group(Mapping[str, Expression]):
    """Expressions by the names of its fields, in their order: what a stage or a slot holds. `group.d` is a field."""

    def __init__(self, **fields: Expression) -> None:
        for part in fields.values():
            tree_of(part, Expression)
        self._fields = dict(fields)

    def __getitem__(self, name: str) -> Expression:
        if name not in self._fields:
            raise DesignError(f"no field {name} among {', '.join(self._fields)}")
        return self._fields[name]

    def __getattr__(self, name: str) -> Any:
        if name.startswith("_") or name not in self._fields:
            raise AttributeError(f"no field {name} among {', '.join(self.__dict__.get('_fields', ()))}")
        return self._fields[name]

    def __contains__(self, name: object) -> bool:
        return name in self._fields

    def __iter__(self) -> Iterator[str]:
        return iter(self._fields)

    def __len__(self) -> int:
        return len(self._fields)

    def __str__(self) -> str:
        return f"{{{', '.join(f'{name}: {part}' for name, part in self._fields.items())}}}"

    def __eq__(self, other: object) -> NoReturn:
        raise DesignError("`==` doesn't compare groups: write equal(x, y)")

    __hash__ = object.__hash__

    def having(self, **fields: Expression) -> Group:
        """The group with other values of these fields, or with these fields too."""
        return Group(**{**self._fields, **fields})

    def mapped(self, function: Callable[..., Expression], *others: Mapping[str, Any]) -> Group:
        """The function of each field, and of the fields of that name of others, which may have more of them."""
        return Group(**{name: function(part, *(_field(other, name) for other in others))
                        for name, part in self._fields.items()})


def _field(group: Mapping[str, Any], name: str) -> Any:
    if not isinstance(group, Mapping):
        raise DesignError(f"{group} isn't a group")
    if name not in group:
        raise DesignError(f"no field {name} among {', '.join(group)}")
    return group[name]


Other = TypeVar("Other", bound=Expression)
Bundle = Union[Expression, Vector[Any], Group]
AnyBundle = TypeVar("AnyBundle", Word, Bool, Memory, Vector[Word], Vector[Bool], Vector[Memory], Group)


# ---- calls


def ite(condition: Bool, then: AnyBundle, otherwise: AnyBundle) -> AnyBundle:
    """The second part where the first is true, else the third, which has the same sort; part by part of bundles."""
    chosen: AnyBundle = _ite(tree_of(condition, Bool), then, otherwise)
    return chosen


def _ite(condition: Tree, then: Any, otherwise: Any) -> Any:
    def chosen(one: Any, other: Any) -> Any:
        return _ite(condition, one, other)
    if isinstance(then, (Vector, Group)):
        return then.mapped(chosen, otherwise)
    tree_of(then, Expression)
    return type(then)(("ite", condition, then.tree, tree_of(otherwise, type(then))))


def equal(left: AnyBundle, right: AnyBundle) -> Bool:
    """That two words or two bools are the same, or all parts of two vectors or groups."""
    return Bool(_equal(left, right).tree)


def _equal(left: Any, right: Any) -> Bool:
    if isinstance(left, Vector):
        return Bool(all_of(left.mapped(_equal, right)).tree)
    if isinstance(left, Group):
        return all_of(left.mapped(_equal, right).values())  # type: ignore[arg-type]
    return left.equals(right) if isinstance(left, Word) else iff(left, right)


def held(condition: Bool, latches: AnyBundle, given: AnyBundle) -> AnyBundle:
    """What latches keep where the condition is true, and what is given else."""
    return given if condition is FALSE else ite(condition, latches, given)


def implies(premise: Bool, conclusion: Bool) -> Bool:
    """That the conclusion is true where the premise is."""
    return Bool(("implies", tree_of(premise, Bool), tree_of(conclusion, Bool)))


def iff(left: Bool, right: Bool) -> Bool:
    """That both are true or both are false."""
    return Bool(("iff", tree_of(left, Bool), tree_of(right, Bool)))


def xor(left: Bool, right: Bool) -> Bool:
    """That one is true and the other false."""
    return ~iff(left, right)


def conj(*parts: Bool) -> Bool:
    """That all are true; `TRUE` where there is none."""
    return all_of(parts)


def disj(*parts: Bool) -> Bool:
    """That some are true; `FALSE` where there is none."""
    return any_of(parts)


def all_of(parts: Iterable[Bool]) -> Bool:
    """That all are true; `TRUE` where there is none."""
    return _many("and", TRUE, parts)


def any_of(parts: Iterable[Bool]) -> Bool:
    """That some are true; `FALSE` where there is none."""
    return _many("or", FALSE, parts)


def _negated(part: Bool) -> Bool:
    return ~part


def _many(operator: str, none: Bool, parts: Iterable[Bool]) -> Bool:
    listed = [tree_of(part, Bool) for part in parts]
    return Bool((operator, *listed)) if len(listed) > 1 else Bool(listed[0]) if listed else none


def first_of(choices: Iterable[tuple[Bool, AnyBundle]], otherwise: AnyBundle) -> AnyBundle:
    """The value of the first choice whose condition is true, else the last argument."""
    value = otherwise
    for condition, choice in reversed(list(choices)):
        value = ite(condition, choice, value)
    return value


@dataclass(frozen=True)
class Function:
    """An unknown function of words to a word, applied by a call."""

    name: str
    arity: int

    def __call__(self, *arguments: Word) -> Word:
        return Word(_applied(self.name, self.arity, arguments))


@dataclass(frozen=True)
class Predicate:
    """An unknown function of words to a truth value, applied by a call."""

    name: str
    arity: int

    def __call__(self, *arguments: Word) -> Bool:
        return Bool(_applied(self.name, self.arity, arguments))


def _applied(name: str, arity: int, arguments: Sequence[Word]) -> Tree:
    if len(arguments) != arity:
        raise DesignError(f"{name} takes {arity} words, and {len(arguments)} are given")
    return (name, *(tree_of(argument, Word) for argument in arguments))
