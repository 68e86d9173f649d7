"""The values of a case's run, cycle by cycle, apart from the program: for scripts that compare what it says of them."""
from __future__ import annotations

import re
from typing import Callable, Dict, List, NamedTuple, Set, Tuple, Union

TOKEN = re.compile(r";[^\n]*|[()]|[^\s();]+")


Place = Tuple[int, int]
Tree = Union[str, Tuple["Tree", ...]]


class Node(NamedTuple):
    """A list or an atom of a text, and where it begins: its line and column, from 1."""

    what: Union[str, List["Node"]]
    place: Place


def trees(text: str) -> List[Node]:
    """The lists and atoms of a text."""
    stack: List[List[Node]] = [[]]
    starts: List[Place] = []
    for found in TOKEN.finditer(text):
        token = found.group()
        line = text.count("\n", 0, found.start()) + 1
        place = (line, found.start() - text.rfind("\n", 0, found.start()))
        if token[0] == ";":
            continue
        if token == "(":
            stack.append([])
            starts.append(place)
        elif token == ")":
            items = stack.pop()
            stack[-1].append(Node(items, starts.pop()))
        else:
            stack[-1].append(Node(token, place))
    return stack[0]


def plain(node: Node) -> Tree:
    """A tree as nested tuples of words."""
    return tuple(plain(part) for part in node.what) if isinstance(node.what, list) else node.what


def word(tree: Tree) -> str:
    """A tree that has to be a word."""
    if not isinstance(tree, str):
        raise ValueError(f"a list where a word is to stand: {tree}")
    return tree


def parts_of(node: Node) -> List[Node]:
    """The parts of a tree that has to be a list."""
    if isinstance(node.what, str):
        raise ValueError(f"a word where a list is to stand: {node.what}")
    return node.what


class Machine:
    """A pipeline: its lets and next values by name, and which of them begins at which place. A next value has its
    entry's name after an apostrophe."""

    def __init__(self, text: str) -> None:
        self.items: Dict[str, Tree] = {}
        self.names: Dict[Place, str] = {}
        self.inputs: Dict[str, Tree] = {}
        self.symbols: List[Tuple[str, str]] = []
        self.entries: Set[str] = set()
        self.others: List[Tree] = []
        self.flush = 0
        for item in parts_of(trees(text)[0])[1:]:
            parts = plain(item)
            head, name = word(parts[0]), word(parts[1])
            if head in ("let", "next"):
                name = name if head == "let" else "'" + name
                self.items[name] = parts[-1]
                self.names[item.place] = name
            elif head == "input":
                self.inputs[name] = parts[-1]
            elif head in ("function", "predicate"):
                self.symbols.append((head, name))
            elif head in ("latch", "memory"):
                self.entries.add(name)
            elif head == "flush":
                self.flush = int(name)
            if head not in ("let", "next"):
                self.others.append(parts)


class Memory:
    """A memory: a word for each address, and one for all others."""

    def __init__(self, default: int, words: Dict[int, int]) -> None:
        self.default, self.words = default, words

    def read(self, address: int) -> int:
        """The word at an address."""
        return self.words.get(address, self.default)

    def write(self, address: int, word: int) -> Memory:
        """The same with a word at an address."""
        return Memory(self.default, {**self.words, address: word})

    def __eq__(self, other: object) -> bool:
        if not isinstance(other, Memory):
            return NotImplemented
        addresses = set(self.words) | set(other.words)
        return self.default == other.default and all(self.read(x) == other.read(x) for x in addresses)


Value = Union[bool, int, Memory]
Table = Tuple[Value, Dict[Tuple[Value, ...], Value]]
State = Dict[str, Value]
Tables = Dict[str, Table]


def value_of(tree: Tree) -> Union[bool, int]:
    """The truth or the number that a word is."""
    return tree == "true" if tree in ("true", "false") else int(word(tree))


def memory_of(value: Value) -> Memory:
    """A value that has to be a memory."""
    if not isinstance(value, Memory):
        raise ValueError(f"no memory: {value}")
    return value


def number_of(value: Value) -> int:
    """A value that has to be a number."""
    if isinstance(value, Memory):
        raise ValueError("a memory where a number is to stand")
    return value


class Case(NamedTuple):
    """A case: a table for each symbol, a state and inputs."""

    tables: Tables
    state: State
    inputs: State


def read_case(text: str, machine: Machine) -> Case:
    """The case of a text."""
    tables: Tables = {}
    state: State = {}
    inputs: State = {}
    for head, name in machine.symbols:
        tables[name] = (0 if head == "function" else False, {})
    for entry in parts_of(trees(text)[0])[2:]:
        parts = plain(entry)
        head, name, first = word(parts[0]), word(parts[1]), value_of(parts[2])
        rows = [tuple(value_of(part) for part in row) for row in reversed(parts[3:])]
        if head == "latch":
            state[name] = first
        elif head == "input":
            inputs[name] = first
        elif head == "memory":
            state[name] = Memory(first, {row[0]: row[1] for row in rows})
        else:
            tables[name] = (first, {row[:-1]: row[-1] for row in rows})
    return Case(tables, state, inputs)


def valued(expression: Tree, look: Callable[[str], Value], tables: Tables) -> Value:
    """The value of an expression, where `look` gives that of a name."""
    if isinstance(expression, str):
        return expression == "true" if expression in ("true", "false") else look(expression)
    head, parts = word(expression[0]), expression[1:]
    if head in ("and", "or"):
        return (all if head == "and" else any)(valued(part, look, tables) for part in parts)
    if head == "ite":
        return valued(parts[1] if valued(parts[0], look, tables) else parts[2], look, tables)
    values = [valued(part, look, tables) for part in parts]
    if head == "not":
        return not values[0]
    if head == "implies":
        return not values[0] or values[1]
    if head in ("=", "iff"):
        return values[0] == values[1]
    if head == "read":
        return memory_of(values[0]).read(number_of(values[1]))
    if head == "write":
        return memory_of(values[0]).write(number_of(values[1]), number_of(values[2]))
    default, rows = tables[head]
    return rows.get(tuple(values), default)


class Cycle:
    """A cycle of a run: what each name stands for in it."""

    def __init__(self, machine: Machine, case: Case, state: State, inputs: State) -> None:
        self.machine, self.tables = machine, case.tables
        self.known = {**state, **inputs}

    def look(self, name: str) -> Value:
        """What a name stands for."""
        if name not in self.known:
            self.known[name] = valued(self.machine.items[name], self.look, self.tables)
        return self.known[name]

    def after(self) -> State:
        """The state that it ends in."""
        return {name: valued(self.machine.items["'" + name], self.look, self.tables) for name in self.machine.entries}


def idle(machine: Machine, case: Case, state: State) -> State:
    """The inputs of a flush cycle."""
    cycle = Cycle(machine, case, state, {})
    return {name: valued(expression, cycle.look, case.tables) for name, expression in machine.inputs.items()}


def cycles(machine: Machine, case: Case) -> Dict[str, Cycle]:
    """The cycles of a case's run, by the names that the companion prints."""
    first = Cycle(machine, case, case.state, case.inputs)
    found = {"before to after": first}
    for side, state in ("before", case.state), ("after", first.after()):
        for number in range(1, machine.flush + 1):
            name = f"{side} to f1" if number == 1 else f"{side} f{number - 1} to f{number}"
            found[name] = Cycle(machine, case, state, idle(machine, case, state))
            state = found[name].after()
    return found


def differing(right: Machine, twin: Machine, case: Case) -> Dict[str, Set[str]]:
    """The items of a twin in which it differs from the right machine, each with the cycles of a case in which its value
    differs from the right item's."""
    changed = {name for name in set(right.items) | set(twin.items) if right.items.get(name) != twin.items.get(name)}
    found: Dict[str, Set[str]] = {name: set() for name in changed}
    for cycle_name, cycle in cycles(twin, case).items():

        def look(name: str, cycle: Cycle = cycle) -> Value:
            if name in right.items and name not in twin.items and name not in cycle.known:
                return valued(right.items[name], look, case.tables)
            return cycle.look(name)

        for name in changed:
            ours, theirs = twin.items.get(name), right.items.get(name)
            same = ours is not None and theirs is not None and (
                valued(ours, cycle.look, case.tables) == valued(theirs, look, case.tables))
            if not same:
                found[name].add(cycle_name)
    return found
