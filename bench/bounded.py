#!/usr/bin/env python3
"""Times bounded runs of the built program, and shows how their cost grows with the number of cycles.

The start is true in every state. A row is a design and a number of cycles: the terms of the question, processor
seconds, peak memory, and the answer. Terms are counted under `gdb`, where it is there.

usage: bounded.py PROGRAM [--seconds N] [--most C]
"""
from __future__ import annotations

import argparse
import os
import subprocess
import tempfile
import time
from collections.abc import Sequence

from inside import inside
from superscalar import pipeline, specification

HERE = os.path.dirname(os.path.abspath(__file__))
DATA = os.path.join(HERE, "..", "crates", "burch_dill", "data")


def asked(command: Sequence[str], limit: float) -> tuple[str, float, float] | None:
    """The first line of the answer, processor seconds and peak memory in MB, or nothing where it takes too long."""
    process = subprocess.Popen(command, stdout=subprocess.PIPE, stderr=subprocess.STDOUT, text=True)
    end = time.monotonic() + limit
    while True:
        pid, status, used = os.wait4(process.pid, os.WNOHANG)
        if pid:
            break
        if time.monotonic() > end:
            process.kill()
            os.wait4(process.pid, 0)
            return None
        time.sleep(0.002)
    output = process.communicate()[0]
    return output.split("\n")[0], used.ru_utime + used.ru_stime, used.ru_maxrss / 1024


def main() -> None:
    """Prints the table."""
    parser = argparse.ArgumentParser(description=__doc__, formatter_class=argparse.RawDescriptionHelpFormatter)
    parser.add_argument("program")
    parser.add_argument("--seconds", type=float, default=60)
    parser.add_argument("--most", type=int, default=16)
    options = parser.parse_args()
    print("| Design | Cycles | Terms | Seconds | MB | Answer |\n|---|---|---|---|---|---|")
    with tempfile.TemporaryDirectory() as folder:
        start = os.path.join(folder, "start")
        with open(start, "w") as file:
            file.write("(start true)\n")
        wide = os.path.join(folder, "pipe"), os.path.join(folder, "spec")
        for name, text in zip(wide, (pipeline(2, 3, 1, False), specification(1))):
            with open(name, "w") as file:
                file.write(text)
        designs = [
            ("two stages", os.path.join(DATA, "two_stage.pipe"), os.path.join(DATA, "two_stage.spec")),
            ("five stages", os.path.join(DATA, "five_stage.pipe"), os.path.join(DATA, "five_stage.spec")),
            ("superscalar, 2 x 3", *wide),
        ]
        for name, pipe, spec in designs:
            for cycles in [c for c in (0, 1, 2, 3, 4, 6, 8, 12, 16) if c <= options.most]:
                command = [options.program, "bounded", pipe, spec, start, str(cycles)]
                found = asked(command, options.seconds)
                if found is None:
                    print(f"| {name} | {cycles} | | more than {options.seconds:g} | | |")
                    break
                terms = inside(command, options.seconds).get("terms") or [""]
                line, seconds, memory = found
                print(f"| {name} | {cycles} | {terms[0]} | {seconds:.2f} | {memory:.0f} | `{line}` |", flush=True)


if __name__ == "__main__":
    main()
