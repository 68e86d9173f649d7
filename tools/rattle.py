"""Reads the public calls of crates: files of `crates/NAME/src/`, in Rattle.

What is read of them is little: what `lib.rt` gives on, heads of functions in `impl` and `trait` blocks and beside them,
and the contracts between a head and its body. Files are in the layout of `rt fmt`, which the gate compares.
"""
from __future__ import annotations

import re
from pathlib import Path
from typing import Dict, List, Optional, Set, Tuple

CRATES = Path(__file__).resolve().parent.parent / "crates"
Call = Tuple[str, str]  # a call's name, and the text of its head and contract in one line
Clause = Tuple[str, str]  # a clause's name, or nothing, and its text
# what a program's run ends as
ENDS = {"Ended": "`Ended::Memory`", "ExitCode": "its exit status"}


def exported(crate: str) -> Set[str]:
    """The names that a crate's lib.rt gives on."""
    text = (CRATES / crate / "src/lib.rt").read_text()
    names = set(re.findall(r"^pub use [\w:]+::(\w+);", text, re.M))
    for listed in re.findall(r"^pub use [\w:]+::\{([^}]*)\};", text, re.M):
        names |= {name.strip().split(" as ")[-1] for name in listed.split(",")}
    return names


def signatures(crate: str) -> List[Call]:
    """The public calls of a crate that take something, and a program's own, each with its name and contract's text."""
    sources = CRATES / crate / "src"
    if not (sources / "lib.rt").exists():
        return [call for call in signatures_of(sources / "main.rt", {"program"}) if call[0] == "program"]
    given = exported(crate)
    return [call for file in sorted(sources.glob("*.rt")) for call in signatures_of(file, given)]


def signatures_of(file: Path, given: Set[str]) -> List[Call]:
    """Those of a file whose types or own names are given on."""
    owner, trait, lines = "", False, file.read_text().splitlines()
    found: List[Call] = []
    for at, line in enumerate(lines):
        block = re.match(r"(?:pub )?(impl|trait)\b(?:<[^>]*>)? (?:.* for )?(\w+)", line)
        if block:
            owner, trait = block.group(2), block.group(1) == "trait"
        elif line == "}":
            owner, trait = "", False
        call = re.match(r"(\s*)(pub )?fn (\w+)", line)
        if not call or (not call.group(2) and not trait and call.group(3) != "program"):
            continue
        name = f"{owner}::{call.group(3)}" if call.group(1) else call.group(3)
        if name.split("::")[0] not in given or re.search(r"fn \w+\(\)", line):
            continue
        end = at
        while not re.search(r"(^\s*|[^}] )\{\}?$", lines[end]) and not (trait and lines[end].endswith(";")):
            end += 1
        said = [part.strip() for part in lines[at : end + 1]]
        found.append((name, " ".join(part for part in said if not part.startswith("//"))))
    return found


def contract(text: str) -> Tuple[List[Clause], List[Clause]]:
    """The conditions and the promises of a contract: names with their texts."""
    parts = re.split(r"\b(requires|ensures)\*?\s*(\w*)\s*\{", text)
    clauses = list(zip(parts[1::3], parts[2::3], parts[3::3]))
    needs, promises = ([(name, said) for kind, name, said in clauses if kind == wanted]
                       for wanted in ("requires", "ensures"))
    return needs, promises


def head_and_result(text: str) -> Tuple[str, str]:
    """A signature up to its contract, and the type that it gives, or nothing."""
    head = re.split(r"\b(?:requires|ensures|ghost|where)\b", text)[0].rstrip(" {};")
    return head, head.split(") ->")[-1].strip() if ") ->" in head else ""


def error_of(result: str) -> Optional[str]:
    """The type of the errors that a result may be, or nothing. What a program's run ends as is both."""
    if result in ENDS:
        return result
    found = re.match(r"Result<.*?,? ?(\w+)>$", result)
    return found.group(1) if found else None


def errors_of_memory() -> Dict[str, str]:
    """The types of errors with one for out of memory, each with how that one is told."""
    found = {"AllocError": "`AllocError`", **ENDS}
    sources: Dict[Path, str] = {}
    for file in sorted(CRATES.glob("*/src/**/*.rt")):
        sources[file] = file.read_text()
        for name, variants in re.findall(r"^pub enum (\w+)[^{\n]*\{\n(.*?)^\}", sources[file], re.M | re.S):
            if re.search(r"^    Memory\b", variants, re.M):
                found[name] = f"`{name}::Memory`"
    for text in sources.values():
        for name, other in re.findall(r"^pub type (\w+) = (?:\w+::)*(\w+);", text, re.M):
            if other in found:
                found[name] = f"`{name}::Memory`"
    return found


def sequences(crate: str) -> List[str]:
    """The names that a crate gives to sequences."""
    files = sorted((CRATES / crate / "src").glob("*.rt"))
    return [name for file in files for name in re.findall(r"^pub type (\w+) = Sequence<", file.read_text(), re.M)]


def shape(text: str) -> str:
    """A signature in one line: its name, what it takes and what it gives."""
    head = re.sub(r"\s+", " ", head_and_result(text)[0])
    head = re.sub(r"^(?:pub )?fn ", "", head).replace("( ", "(").replace(", )", ")")
    return re.sub(r"\b_(\w+):", r"\1:", head)


def said_in_public(file: Path, given: Set[str]) -> List[str]:
    """The contracts of a file's public calls, its public traits, and how its public types are seen."""
    text = file.read_text()
    blocks = re.findall(r"^(?:pub trait|impl(?:<[^>]*>)? Model for) (\w+).*?\{\n(.*?)^\}", text, re.M | re.S)
    return [said for _, said in signatures_of(file, given)] + [said for name, said in blocks if name in given]
