"""Cases and trails as data: what each symbol, latch, memory and input is."""
from __future__ import annotations

from collections.abc import Mapping, Sequence
from dataclasses import dataclass
from typing import NamedTuple, Union

from .errors import DesignError
from .trees import Tree, read_trees, written

GREATEST_WORD = 2**64 - 1

Value = Union[int, bool]


class Row(NamedTuple):
    """A row of a table: a value at these arguments."""

    arguments: tuple[int, ...]
    value: Value


@dataclass(frozen=True)
class Table:
    """A function, a predicate (whose values are `bool`) or a memory.

    A call gives the value at arguments, `table(3, 10)`: that of the first row that matches, else the default.
    """

    default: Value
    rows: tuple[Row, ...] = ()

    def __call__(self, *arguments: int) -> Value:
        return next((value for at, value in self.rows if at == arguments), self.default)

    def having(self, value: Value, *arguments: int) -> Table:
        """The table with another value at these arguments."""
        kept = tuple(row for row in self.rows if row.arguments != arguments)
        return Table(self.default, (Row(arguments, value), *kept))


Content = Union[int, bool, Table]
State = dict[str, Content]


@dataclass(frozen=True)
class Case:
    """A case: what each symbol, latch, memory and input is, by name, in the order in which they're printed.

    Of `symbols`, a table is a function or a predicate by the kind of its default, and a number is a constant that the
    design keeps apart. Of `state`, a table is a memory, and a value a latch. `dataclasses.replace` makes others of it.
    """

    symbols: Mapping[str, int | Table]
    state: Mapping[str, Content]
    inputs: Mapping[str, Value]

    def __str__(self) -> str:
        return self.text()

    def text(self) -> str:
        """The text, as the program prints it: version 2 where there are constants.

        Raises `DesignError` where a number isn't a word of 64 bits.
        """
        version = 1 if all(isinstance(content, Table) for content in self.symbols.values()) else 2
        return _content_text(f"case {version}", self.symbols, self.state,
                             {name: (value,) for name, value in self.inputs.items()})

    @staticmethod
    def read(text: str) -> Case:
        """The case of a text. Raises `ValueError` where it isn't one; whether it fits a design, the program says."""
        trees = read_trees(text)
        if len(trees) != 1 or trees[0][:2] not in (("case", "1"), ("case", "2")):
            raise ValueError("no case")
        symbols, state, inputs = _contents(trees[0][2:], 1)
        return Case(symbols, state, {name: values[0] for name, values in inputs.items()})


@dataclass(frozen=True)
class Trail:
    """A run of a pipeline over a few cycles: the symbols and the first state as in a case, and the inputs' values.

    Each input has a value for each of the `cycles`.
    """

    symbols: Mapping[str, int | Table]
    state: Mapping[str, Content]
    inputs: Mapping[str, tuple[Value, ...]]
    cycles: int

    def __str__(self) -> str:
        return self.text()

    def text(self) -> str:
        """The text, as the program prints it.

        Raises `DesignError` where a number isn't a word of 64 bits, or an input has not so many values.
        """
        for name, values in self.inputs.items():
            if len(values) != self.cycles:
                raise DesignError(f"{name} has {len(values)} values for {self.cycles} cycles")
        return _content_text(f"trail {self.cycles}", self.symbols, self.state, self.inputs)

    @staticmethod
    def read(text: str) -> Trail:
        """The trail of a text. Raises `ValueError` where it isn't one; whether it fits a design, the program says."""
        trees = read_trees(text)
        count = trees[0][1] if len(trees) == 1 and trees[0][:1] == ("trail",) and len(trees[0]) > 1 else ""
        if not isinstance(count, str) or not count.isdecimal():
            raise ValueError("no trail")
        return Trail(*_contents(trees[0][2:], int(count)), int(count))


def _content_text(head: str, symbols: Mapping[str, int | Table], state: Mapping[str, Content],
                  inputs: Mapping[str, tuple[Value, ...]]) -> str:
    """The text of a case or a trail."""
    entries = [_entry(_symbol_head(content), name, content) for name, content in symbols.items()]
    entries += [_entry("memory" if isinstance(content, Table) else "latch", name, content)
                for name, content in state.items()]
    entries += [("input", name, *map(_value_text, values)) for name, values in inputs.items()]
    return "".join([f"({head}", *(f"\n {written(entry)}" for entry in entries), ")\n"])


def _contents(entries: Sequence[Tree], cycles: int) \
        -> tuple[dict[str, int | Table], dict[str, Content], dict[str, tuple[Value, ...]]]:
    """The symbols, the state and the inputs of a case or of a trail of so many cycles."""
    inputs = {str(entry[1]): tuple(map(_value, entry[2:])) for entry in entries if _is_input(entry, cycles)}
    others = [named_content(entry) for entry in entries if not _is_input(entry, cycles)]
    if len({name for _, name, _ in others} | inputs.keys()) < len(entries):
        raise ValueError("a name is given twice")
    symbols = {name: content for head, name, content in others if head in ("function", "predicate", "constant")}
    return symbols, {name: content for head, name, content in others if head in ("latch", "memory")}, inputs


def _is_input(entry: Tree, cycles: int) -> bool:
    return not isinstance(entry, str) and entry[:1] == ("input",) and len(entry) == cycles + 2


def _symbol_head(content: int | Table) -> str:
    if not isinstance(content, Table):
        return "constant"
    return "predicate" if isinstance(content.default, bool) else "function"


def _entry(head: str, name: str, content: Content) -> Tree:
    if not isinstance(content, Table):
        return (head, name, _value_text(content))
    rows = [(*map(_value_text, row.arguments), _value_text(row.value)) for row in content.rows]
    return (head, name, _value_text(content.default), *rows)


def _value_text(value: Value) -> str:
    if isinstance(value, bool):
        return "true" if value else "false"
    if not 0 <= value <= GREATEST_WORD:
        raise DesignError(f"{value} isn't a word of 64 bits")
    return str(value)


def _value(tree: Tree) -> Value:
    if tree in ("true", "false"):
        return tree == "true"
    if not isinstance(tree, str) or not tree.isdecimal():
        raise ValueError(f"{written(tree)} isn't a value")
    return int(tree)


def named_content(entry: Tree) -> tuple[str, str, Content]:
    """The head, the name and the content of an entry of a case or a state."""
    if isinstance(entry, str) or len(entry) < 3 or not isinstance(entry[0], str) or not isinstance(entry[1], str):
        raise ValueError(f"{written(entry)} isn't an entry")
    head, name, default, *rows = str(entry[0]), str(entry[1]), *entry[2:]
    if head in ("latch", "constant") and not rows:
        return head, name, _value(default)
    if head not in ("function", "predicate", "memory") or any(isinstance(row, str) or not row for row in rows):
        raise ValueError(f"{written(entry)} isn't an entry")
    return head, name, Table(_value(default), tuple(Row(tuple(map(_value, row[:-1])), _value(row[-1])) for row in rows))
