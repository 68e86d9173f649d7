"""What a run of the built program does inside, by `gdb`: how long each part takes, and how large its question is.

The program is stopped where it enters and leaves the calls below, which are found in its symbol table. In front of a
call of `reached` the second argument is a graph of terms, which begins with the list of its nodes; in front of
`triangles` it is an order, which begins with the list of its vertices, and then has that of its edges; in front of
`work` a reduction, whose formula has the list of its clauses from word 43. A list is three words: where it lies, its
length, and its room.
"""
from __future__ import annotations

import importlib.util
import json
import os
import shutil
import subprocess
import tempfile
from collections.abc import Callable, Sequence
from functools import partial
from typing import Any

WORD = 8
PARTS = {
    "read": "bd_app::read::design",
    "reduce": "bd_verify::reduction::flat_of",
    "encode": "bd_verify::reduction::formula_of",
}


def inside(command: Sequence[str], limit: float) -> dict[str, Any]:
    """The processor seconds of each part, the terms of each graph, the edges and clauses, or nothing without `gdb`."""
    if shutil.which("gdb") is None:
        return {}
    with tempfile.TemporaryDirectory() as folder:
        name = os.path.join(folder, "inside.json")
        words = ["gdb", "-nx", "-batch", "-x", os.path.abspath(__file__), "--args", *command]
        env = {**os.environ, "INSIDE": name}
        try:
            subprocess.run(words, env=env, stdout=subprocess.DEVNULL, stderr=subprocess.DEVNULL, timeout=limit)
            with open(name) as file:
                seen: dict[str, Any] = json.load(file)
                return seen
        except (subprocess.TimeoutExpired, OSError):
            return {}


def watch(gdb: Any) -> None:
    """Runs the program under the debugger, and writes down what was seen."""
    terms: list[int] = []
    seen: dict[str, Any] = {"terms": terms}
    begun: dict[str, float] = {}
    breakpoint_of: Any = gdb.Breakpoint

    def clock() -> float:
        with open(f"/proc/{gdb.selected_inferior().pid}/schedstat") as file:
            return int(file.read().split()[0]) / 1e9

    def word(place: int) -> int:
        return int.from_bytes(gdb.selected_inferior().read_memory(place, WORD).tobytes(), "little")

    def register(name: str) -> int:
        return int(gdb.parse_and_eval(f"(unsigned long) ${name}"))

    class Stop(breakpoint_of):  # type: ignore[misc]
        """Does something each time that the program comes to a place, and goes on."""

        def __init__(self, place: str, then: Callable[[], None]) -> None:
            super().__init__(place, internal=True)
            self.then = then

        def stop(self) -> bool:
            self.then()
            return False

    def end(part: str) -> None:
        seen[part] = seen.get(part, 0) + clock() - begun[part]
        begun["solve"] = clock()

    def begin(part: str) -> None:
        if part not in begun:
            Stop(f"*{word(register('rsp'))}", lambda: end(part))
        begun[part] = clock()

    for part, name in PARTS.items():
        Stop(name, partial(begin, part))
    Stop("bd_app::verdict::verdict_answer", lambda: end("solve"))
    Stop("bd_terms::reach::reached", lambda: terms.append(word(register("rsi") + WORD)))
    Stop("bd_transitive::clauses::triangles", lambda: seen.update(edges=word(register("rsi") + 4 * WORD)))
    Stop("bd_verify::deciding::work", lambda: seen.update(clauses=word(register("rsi") + 44 * WORD)))
    gdb.execute("run")
    with open(os.environ["INSIDE"], "w") as file:
        json.dump(seen, file)


if __name__ == "__main__" and importlib.util.find_spec("gdb"):
    watch(importlib.import_module("gdb"))
