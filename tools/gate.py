#!/usr/bin/env python3
"""Runs the gate from nothing and says what it cost, crate by crate.

At the top of the repository it calls `rt ci`, or `rt ci NAME ..` where crates are named, reads the clock of each
process that this starts, and prints a table in Markdown, in processor minutes: each crate's proof, its tests (their
proofs, and building them), its wrong bodies. `--processors N` runs it on N processors alone; `--log` keeps what `rt
ci` prints, and `--table` writes the table to a file too. It ends with the status of `rt ci`; ended by SIGTERM, it
prints what was measured up to there. It needs Linux, where /proc tells each process's clock.
"""
from __future__ import annotations

import argparse
import os
import re
import signal
import subprocess
import sys
import time
from typing import IO, Dict, List, Optional, Set, Tuple

TICKS = os.sysconf("SC_CLK_TCK")
PAUSE = 0.2  # seconds between two readings: a shorter process is counted with its parent's children
PARTS = ("proof", "tests", "wrong bodies")


class Child:
    """One process below the gate: what it works on, and the seconds that it has used so far."""

    def __init__(self, part: str, crate: str) -> None:
        self.part, self.crate, self.seconds = part, crate, 0.0


# the processes that were seen, by their numbers and when they began: a number can be given again
Children = Dict[Tuple[int, str], Child]


def parents() -> Dict[int, int]:
    """The parent of each process that runs now."""
    found = {}
    for name in os.listdir("/proc"):
        if name.isdigit():
            stat = stat_of(int(name))
            if stat:
                found[int(name)] = int(stat[1])
    return found


def stat_of(pid: int) -> Optional[List[str]]:
    """The fields of a process's clock file after its name, or None where it has ended."""
    try:
        with open(f"/proc/{pid}/stat", encoding="utf-8", errors="replace") as file:
            return file.read().rpartition(")")[2].split()
    except OSError:
        return None


def below(root: int) -> Set[int]:
    """The processes that stand below the one, at any depth."""
    above = parents()
    found, grows = {root}, True
    while grows:
        new = {pid for pid, parent in above.items() if parent in found} - found
        grows = bool(new)
        found |= new
    return found - {root}


def described(pid: int) -> Optional[Tuple[str, str]]:
    """What a process works on: the part of the gate and the crate, as its words and its folder tell."""
    try:
        with open(f"/proc/{pid}/cmdline", "rb") as file:
            words = file.read().decode(errors="replace").split("\0")
        folder = os.readlink(f"/proc/{pid}/cwd")
    except OSError:
        return None
    named = [after for word, after in zip(words, words[1:]) if word == "--crate-name"]
    at = re.search(r"/crates/(\w+)", folder)
    crate = named[0] if named else at[1] if at else ""
    if re.search(r"/rt-edit-", folder):
        return "wrong bodies", crate
    return ("tests" if "--test" in words else "proof"), crate


def watched(root: int, children: Children) -> None:
    """Reads the clocks of all processes below the gate once."""
    for pid in below(root):
        stat = stat_of(pid)
        told = described(pid)
        if not stat or not told:
            continue
        child = children.setdefault((pid, stat[19]), Child(*told))
        if told[1]:
            child.part, child.crate = told
        child.seconds = (int(stat[11]) + int(stat[12])) / TICKS


def table(children: Children, minutes: float, total: float, processors: int) -> str:
    """The table in Markdown."""
    rows: Dict[str, Dict[str, float]] = {}
    for child in children.values():
        row = rows.setdefault(child.crate or "(`rt` itself, linking, runs)", dict.fromkeys(PARTS, 0.0))
        row[child.part] += child.seconds / 60
    lines = [
        f"From nothing on {processors} processors: {minutes:.0f} minutes, {total:.0f} processor minutes.",
        "",
        "| Crate | Proof | Tests | Wrong bodies | Together |",
        "|---|---|---|---|---|",
    ]
    for crate, row in sorted(rows.items(), key=lambda it: -sum(it[1].values())):
        cells = [f"{row[part]:.1f}" for part in PARTS] + [f"{sum(row.values()):.1f}"]
        name = crate if crate.startswith("(") else f"`{crate}`"
        lines.append(f"| {name} | " + " | ".join(cells) + " |")
    sums = [sum(row[part] for row in rows.values()) for part in PARTS]
    lines.append("| all | " + " | ".join(f"{it:.0f}" for it in [*sums, sum(sums)]) + " |")
    return "\n".join(lines) + "\n"


def main() -> int:
    """Runs `rt ci` and prints the table."""
    asked = argparse.ArgumentParser(description=__doc__, formatter_class=argparse.RawDescriptionHelpFormatter)
    asked.add_argument("names", nargs="*", help="crates, proved with those below them")
    asked.add_argument("--processors", type=int, help="run on this many processors alone")
    asked.add_argument("--log", help="keep what rt ci prints in this file")
    asked.add_argument("--table", help="write the table to this file too")
    given = asked.parse_args()
    if given.processors:
        os.sched_setaffinity(0, sorted(os.sched_getaffinity(0))[: given.processors])
    children: Children = {}
    started = time.time()
    before = sum(os.times()[2:4])
    log: Optional[IO[bytes]] = open(given.log, "wb") if given.log else None
    gate = subprocess.Popen(["rt", "ci", *given.names], stdout=log, stderr=subprocess.STDOUT if log else None)
    signal.signal(signal.SIGTERM, lambda *_: gate.terminate())
    while gate.poll() is None:
        watched(gate.pid, children)
        time.sleep(PAUSE)
    minutes = (time.time() - started) / 60
    total = (sum(os.times()[2:4]) - before) / 60
    text = table(children, minutes, total, len(os.sched_getaffinity(0)))
    print(text, end="")
    if given.table:
        with open(given.table, "w", encoding="utf-8") as file:
            file.write(text)
    return gate.returncode


if __name__ == "__main__":
    sys.exit(main())
