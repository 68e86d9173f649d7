"""What the measuring scripts share: where they are, the modes of `check`, a command that is timed, and what it left."""
from __future__ import annotations

import os
import resource
from collections.abc import Sequence
from typing import NamedTuple, Union

File = Union[str, "os.PathLike[str]"]

HERE = os.path.dirname(os.path.abspath(__file__))
MODES: dict[str, list[str]] = {"plain": [], "diverse": ["--diverse"]}


class Ended(NamedTuple):
    """What a command printed, its status, its processor seconds, and its peak memory in MB."""

    output: str
    status: int
    seconds: float
    memory: float


def run(words: Sequence[str], limit: int) -> Ended | None:
    """How a command ended, or None where it takes more than so many processor seconds."""
    read, write = os.pipe()
    child = os.fork()
    if child == 0:
        os.close(read)
        resource.setrlimit(resource.RLIMIT_CPU, (limit, limit))
        os.dup2(write, 1)
        os.dup2(os.open(os.devnull, os.O_WRONLY), 2)
        os.execvp(words[0], list(words))
    os.close(write)
    with os.fdopen(read, errors="replace") as pipe:
        output = pipe.read()
    _, status, usage = os.wait4(child, 0)
    if os.WIFSIGNALED(status):
        return None
    return Ended(output, os.WEXITSTATUS(status), usage.ru_utime + usage.ru_stime, usage.ru_maxrss / 1024)


def answer_of(text: str) -> str | None:
    """What another program's answer says of the design, if it is one."""
    words = text.lower().split()
    if "unsat" in words or "unsatisfiable" in words:
        return "correct"
    return "wrong" if "sat" in words or "satisfiable" in words else None


def formula_size(name: File) -> tuple[str, str]:
    """How many variables and clauses a formula in DIMACS has."""
    with open(name, encoding="ascii") as file:
        _, _, variables, clauses = file.readline().split()
    return variables, clauses


def added_clauses(name: File) -> int:
    """How many clauses a proof in LRAT adds."""
    with open(name, encoding="ascii") as file:
        return sum(1 for line in file if " d " not in line)


def table_text(table: Sequence[Sequence[str]]) -> str:
    """A table as Markdown has it, its first row the head."""
    made = ["| " + " | ".join(cells) + " |" for cells in table]
    return "\n".join([made[0], "|" + "---|" * len(table[0]), *made[1:]])
