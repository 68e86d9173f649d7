#!/usr/bin/env python3
"""Makes the parts of docs/ that follow from the code.

    tools/documents.py                    writes them
    tools/documents.py --check            says what is stale, and exits with 1 if anything is
    tools/documents.py --print [NAME ..]  prints each public definition with its comment, and a table of every call;
                                          or those of the crates, modules, definitions and calls of these names

- docs/develop/MAP.md: the last column of the table of crates, who uses each, follows from crates.txt.
- docs/PROVED.md: the list of what `correct` rests on, by following the definitions that the promise of that name cites;
  and the calls that can't want memory.
- docs/develop/DEFINITIONS.md: each definition that a public contract cites, with its module and its source. Contracts
  are those of public calls and of the methods of public traits; how a public type is seen counts too.

What the programs take and print stands in users' pages, in examples that are run (`shown.py`). The two languages are
read by `antt.py` and `rattle.py`.

A file that a document names by a path from a crate's folder on has to be there, and so has what a link of a document
leads to, with its heading. So has each call of tools/surface.txt,
the calls that other programs rely on, with the signature that stands there: a line is a crate and a signature.
"""
from __future__ import annotations

import argparse
import re
import sys
import textwrap
from pathlib import Path
from typing import Dict, Iterable, List, Optional, Sequence, Set, Tuple

import shown
from antt import (Cited, Module, cited_words, definitions, head_of, imported, modules, owner_of, passed_on,
                  source_of)
from rattle import (Clause, contract, error_of, errors_of_memory, exported, head_and_result, said_in_public, sequences,
                    shape, signatures)

ROOT = Path(__file__).resolve().parent.parent
Uses = Dict[str, List[str]]  # what each crate stands on
Place = Tuple[str, str]  # a crate and a module
Made = Tuple[str, List[str]]  # a text, and what is wrong with what it was made of
WIDTH = 118
MANY = 9

# what the clause `correct` of the program's call says of the words of a check; other commands aren't followed
CORRECT = [
    ("bd_model", "Right", "IsRight"),
    ("bd_app", "Check", "check_question"),
    ("bd_app", "Check", "CheckSources"),
    ("bd_app", "Sources", "IsDesign"),
    ("bd_app", "Program", "ForDesign"),
]
COMMANDS = ("Bounded", "Cases", "Complete", "Completions", "Generate", "Recheck", "Replay", "Retrace", "Run",
            "Verdicts")
LEFT_OUT = {("bd_app", name) for name in COMMANDS}
LIST = ("<!-- correct: made by tools/documents.py -->", "<!-- correct: to here -->")
NAMED = re.compile(r"`((?:crates/)?(?:bd_\w+|burch_dill)/[\w/.]+|(?:bench|tools|docs)/[\w.]+|python/[\w./]+)`")
MEMORY = ("<!-- without memory: made by tools/documents.py -->", "<!-- without memory: to here -->")
# calls that can't want memory, by their signatures
WITHOUT_MEMORY = (
    "Table::at Memory::at Memory::same State::get Design::fits Graph::node Graph::sort Graph::len Prop::node Prop::len "
    "Log::new Cdcl::new Cnf::satisfied Checker::check_line Sink::put Page::written Page::faults Shelf::faults "
    "Ended::status"
).split()

HEAD = """# Definitions

The definitions that public contracts cite, crate by crate: a line each, with its module, which is a file of
`crates/NAME/specs/`, and the public source that is named there. Where none is named the definition is this project's
own. [PROVED.md](../PROVED.md) says in which order to read those behind `correct`.

`tools/documents.py` makes this page from the code. `tools/documents.py --print IsRight` prints what is said of a
definition, a module, a crate or a call; without a name, of all public definitions, and a table of every call.
"""


def crates() -> Tuple[Uses, Uses]:
    """The crates of crates.txt in its order, each with what it stands on; test crates apart."""
    programs: Uses = {}
    tests: Uses = {}
    kind = programs
    for line in (ROOT / "crates.txt").read_text().splitlines():
        if line.startswith("#"):
            kind = tests if line.strip("# ").startswith("tests") else programs
        elif ":" in line:
            left, right = line.split(":", 1)
            kind[left.split()[0]] = right.split()
    return programs, tests


# ---- MAP.md


def users(name: str, programs: Uses, tests: Uses) -> str:
    """Who uses a crate, shortly."""
    using = [crate for crate, deps in programs.items() if name in deps]
    if not using and (ROOT / "crates" / name / "src/main.rt").exists():
        return "people"
    if not using:
        return "tests alone" if any(name in deps for deps in tests.values()) else "nobody"
    others = [crate for crate in programs if crate != name and crate not in using]
    if len(using) <= MANY:
        return ", ".join(f"`{crate}`" for crate in using)
    if len(others) <= MANY:
        return "all but " + ", ".join(f"`{crate}`" for crate in others)
    return f"{len(using)} crates"


def map_text() -> Made:
    """MAP.md with its last column made anew, and the crates that have no row or a row too many."""
    programs, tests = crates()
    lines: List[str] = []
    rows: List[str] = []
    for line in (ROOT / "docs/develop/MAP.md").read_text().splitlines():
        found = re.match(r"\| `(\w+)` \|", line)
        if found and line.count("|") == 5:
            name = found.group(1)
            rows.append(name)
            if name in programs or name in tests:
                line = "|".join(line.split("|")[:4]) + f"| {users(name, programs, tests)} |"
        lines.append(line)
    wanted = list(programs) + list(tests)
    faults = [f"docs/develop/MAP.md has no row for {name}" for name in wanted if name not in rows]
    faults += [f"docs/develop/MAP.md has a row for {name}, which crates.txt lacks" for name in rows
               if name not in wanted]
    return "\n".join(lines) + "\n", faults


# ---- DEFINITIONS.md


def folded(text: str, first: str = "", rest: str = "  ") -> str:
    """A text in lines of a document."""
    return textwrap.fill(
        text, WIDTH, initial_indent=first, subsequent_indent=rest, break_long_words=False, break_on_hyphens=False
    )


def sentence(text: str) -> str:
    """A head or comment as a sentence that ends."""
    text = text.strip()
    return text if text.endswith((".", ":")) else text + "."


def cited_by_contracts() -> Set[Cited]:
    """The definitions that public contracts cite, as crates, modules and names."""
    found: Set[Cited] = set()
    for crate in crates()[0]:
        sources = ROOT / "crates" / crate / "src"
        given = exported(crate) if (sources / "lib.rt").exists() else {"program"}
        for file in sorted(sources.rglob("*.rt")):
            names = imported(file.read_text())
            for said in said_in_public(file, given) if names else []:
                words = cited_words(said)
                words |= {word.split(".")[0] for word in words}
                found |= {passed_on(*names[word]) for word in words if word in names}
    return found


def definitions_text() -> str:
    """What public contracts cite, a line each."""
    files = {(crate, name): file.read_text().splitlines() for crate in crates()[0] for name, file in modules(crate)}
    cited = {(crate, name, owner_of(files[crate, name], word)) for crate, name, word in cited_by_contracts()}
    out = [HEAD]
    for crate in crates()[0]:
        rows = []
        for name, file in modules(crate):
            lines = file.read_text().splitlines()
            head = head_of(lines)
            for word, said in definitions(lines):
                if (crate, name, word) in cited:
                    source = source_of(said) or source_of(head)
                    rows.append(folded(f"- `{word}`, in `{name}`" + (f", {source}" if source else "") + "."))
        if rows:
            out.append(f"## `{crate}`\n\n" + "\n".join(rows) + "\n")
    return "\n".join(out)


def printed_definitions(wanted: Set[str]) -> List[str]:
    """Each public definition with the comment above it, or those of crates, modules and names that are wanted."""
    out: List[str] = []
    for crate in crates()[0]:
        for name, file in modules(crate):
            lines = file.read_text().splitlines()
            whole = not wanted or crate in wanted or name in wanted
            found = [(word, said) for word, said in definitions(lines) if whole or word in wanted]
            if found:
                head = f"{crate}/specs/{name.replace('.', '/')}.antt"
                out.append(folded(f"{head}: {sentence(head_of(lines))}" if head_of(lines) else head, rest=""))
                out += [folded(f"{word}: {sentence(said)}" if said else f"{word}.", "  ", "    ")
                        for word, said in found]
    return out


# ---- PROVED.md


def rests_on(roots: Sequence[Cited]) -> List[Tuple[Module, List[str]]]:
    """The modules behind these definitions with the names in each that others cite; first those that others rest on.

    What a command means is cited as a whole; of it only what is asked is wanted, which is among the roots."""
    known = {(crate, name): Module(crate, name, file) for crate in crates()[0] for name, file in modules(crate)}
    seen: Set[Cited] = set()
    entries: Dict[Place, Set[str]] = {}
    needs: Dict[Place, Set[Place]] = {}
    work = list(roots)
    for crate, module, name in roots:
        entries.setdefault((crate, module), set()).add(name)
    while work:
        crate, module, name = work.pop()
        if (crate, module, name) in seen or (crate, module) not in known:
            continue
        seen.add((crate, module, name))
        needs.setdefault((crate, module), set())
        for other in known[crate, module].cited(name):
            if other[:2] in LEFT_OUT or other[:2] not in known or other[2] not in known[other[:2]].words:
                continue
            if other[2].endswith("_meaning"):
                continue
            if other[:2] != (crate, module):
                entries.setdefault(other[:2], set()).add(other[2])
                needs[crate, module].add(other[:2])
            work.append(other)
    order: List[Place] = []

    def place(key: Place) -> None:
        if key in order:
            return
        for below in sorted(needs[key], key=list(known).index):
            place(below)
        if key not in order:
            order.append(key)

    for key in [key for key in known if key in needs]:
        place(key)
    return [(known[key], [name for name in known[key].order if name in entries.get(key, ())]) for key in order]


def correct_list() -> str:
    """The table of what `correct` rests on."""
    rows = ["| Read | In | For |", "|---|---|---|"]
    for module, names in rests_on(CORRECT):
        file = f"{module.crate}/specs/{module.name.replace('.', '/')}.antt"
        about = re.split(r"(?<=[^0-9][.:]) ", sentence(head_of(module.lines)))[0].rstrip(".:")
        rows.append("| " + ", ".join(f"`{name}`" for name in names) + f" | `{file}` | {about} |")
    return "\n".join(rows)


def between(text: str, marks: Tuple[str, str], made: str) -> Optional[str]:
    """The text with what stands between the marks made anew, or nothing where it has no such place."""
    first, last = marks
    if first not in text or last not in text:
        return None
    before, rest = text.split(first, 1)
    return before + first + "\n\n" + made + "\n\n" + last + rest.split(last, 1)[1]


def proved_text() -> Made:
    """PROVED.md with what is made of it, and what is wrong."""
    text, faults = (ROOT / "docs/PROVED.md").read_text(), []
    without, could = without_memory()
    faults += could
    for marks, made in ((LIST, correct_list()), (MEMORY, without)):
        changed = between(text, marks, made)
        if changed is None:
            faults.append(f"docs/PROVED.md has no place {marks[0]}")
        text = changed or text
    return text, faults


# ---- the table of calls


def call_cells(text: str, errors: Dict[str, str]) -> Tuple[str, str, str, str]:
    """What a call needs, how it wants memory, what it promises, and what an error leaves."""
    needs, promises = contract(text)
    head, result = head_and_result(text)
    error = error_of(result)
    memory = errors.get(error or "", "never")
    if memory == "never" and "alloc: Global" in head:
        memory = "never, keeps `alloc`"
    left = [part for part in promises if error and "&mut" in head and says_what_is_left(*part)]
    told = [part for part in promises if part not in left or not says_of_error(part[1])]
    if error is None:
        after = "no error"
    elif "&mut" not in head:
        after = "all as it was"
    else:
        after = named(left) or "no clause"
    return named(needs) or "nothing", memory, named(told) or "no clause", after


def says_of_error(said: str) -> bool:
    """Whether a clause speaks of an error."""
    return bool(re.search(r"\b(OnErr|IfErr)\b|(?<!¬ )\bIsErrOf\b", said))


def says_what_is_left(name: str, said: str) -> bool:
    """Whether a promise, one that isn't of success alone, names what stands after the call."""
    return ".new" in said and not re.search(r"\b(OnOk|IfOk|IsOk|IsOkAnd)\b|≡ Ok \(", said) or name == "run"


def calls() -> List[Tuple[str, str, Tuple[str, str, str, str]]]:
    """Each public call in the order of the crates: its crate, its name and its cells."""
    errors = errors_of_memory()
    return [(crate, name, call_cells(text, errors)) for crate in crates()[0] for name, text in signatures(crate)]


CALLS_HEAD = """
Calls: what each needs of its caller (its `requires`); whether it wants memory, by the answer that says so, where
`never` means that no answer of its type could; its promises (its `ensures`), by name, "one" where a single one has
none; and which of them say what an error leaves of what was handed in by `&mut`. Each is proved safe and to end.
"""


def printed_calls(wanted: Set[str]) -> List[str]:
    """A table of each public call, or of those of crates and names that are wanted."""
    rows, found = ["| Call | Needs | Wants memory | Promises | An error leaves |", "|---|---|---|---|---|"], calls()
    for crate in crates()[0]:
        whole = not wanted or crate in wanted
        made = [
            f"| `{name}` | " + " | ".join(cells) + " |"
            for other, name, cells in found
            if other == crate and (whole or name in wanted or name.split("::")[-1] in wanted)
        ]
        alike = sequences(crate) if whole else []
        if alike:
            made.append("| " + ", ".join(f"`{name}`" for name in alike) + " | as `Sequence` | | | |")
        rows += [f"| **{crate}** | | | | |", *made] if made else []
    return [CALLS_HEAD, *rows] if len(rows) > 2 else []


def without_memory() -> Made:
    """The calls that must not want memory, as one sentence, and what is wrong with those that could."""
    cells = {name: made for _, name, made in calls()}
    kinds = {name for crate in crates()[0] for name in sequences(crate)}
    faults: List[str] = []
    for name in WITHOUT_MEMORY:
        kind, _, call = name.partition("::")
        row = cells.get(f"Sequence::{call}" if kind in kinds else name)
        if row is None or not row[1].startswith("never"):
            faults.append(f"{name} is to take no memory, and " + ("could" if row else "isn't there"))
    text = ", ".join(f"`{name}`" for name in WITHOUT_MEMORY)
    return folded(f"{text}.", rest=""), faults


def named(clauses: Iterable[Clause]) -> str:
    """The names of clauses, as a cell has them."""
    return ", ".join(f"`{name}`" if name else "one" for name, _ in clauses)


# ---- all documents


def missing_calls() -> List[str]:
    """The calls of the surface that aren't there, or stand with another signature."""
    found = {(crate, name): shape(text) for crate in crates()[0] for name, text in signatures(crate)}
    faults: List[str] = []
    for line in (ROOT / "tools/surface.txt").read_text().splitlines():
        if not line or line.startswith("#"):
            continue
        crate, name, wanted = line.split(" ", 2)
        kind, _, call = name.partition("::")
        there = found.get((crate, name))
        if there is None and kind in sequences(crate):
            there = found.get(("bd_list", f"Sequence::{call}"))
        if there is None:
            faults.append(f"{crate} has no public call {name}")
        elif there != wanted:
            faults.append(f"{name} of {crate} stands as {there}, not as {wanted}")
    return faults


def missing_files() -> List[str]:
    """The files of crates and folders that a document names and that aren't there."""
    faults: List[str] = []
    for document in [ROOT / "README.md", *sorted((ROOT / "docs").rglob("*.md"))]:
        for name in NAMED.findall(document.read_text()):
            if "NAME" not in name and not (ROOT / name).exists() and not (ROOT / "crates" / name).exists():
                faults.append(f"{document.relative_to(ROOT)} names {name}, which isn't there")
    return faults


def slug(heading: str) -> str:
    """What a link to a heading names it by."""
    return re.sub(r"[^\w\- ]", "", heading.strip().lower()).replace(" ", "-")


def without_blocks(text: str) -> str:
    """A document without its blocks of code."""
    return re.sub(r"^    .*$", "", re.sub(r"^```.*?^```", "", text, flags=re.M | re.S), flags=re.M)


def broken_links() -> List[str]:
    """The links of documents that lead to no file, or to no heading of it."""
    documents = [file for file in ROOT.rglob("*.md") if ".git" not in file.parts and "out" not in file.parts]
    headings = {
        file.resolve(): {slug(line) for line in re.findall(r"^#+ (.*)$", without_blocks(file.read_text()), re.M)}
        for file in documents
    }
    faults: List[str] = []
    for document in sorted(documents):
        for target in re.findall(r"\]\(([^)\s]+)\)", without_blocks(document.read_text())):
            path, _, place = target.partition("#")
            file = (document.parent / path).resolve() if path else document.resolve()
            if re.match(r"https?:", target) or file.exists() and (not place or place in headings.get(file, ())):
                continue
            faults.append(f"{document.relative_to(ROOT)} has a link to {target}, which isn't there")
    return faults


def printed(names: Sequence[str]) -> int:
    """What is said of these names, or of all; 1 if nothing has one of them."""
    lines = printed_definitions(set(names)) + printed_calls(set(names))
    print("\n".join(lines) if lines else "nothing public has this name")
    return 0 if lines else 1


def asked_for(words: Sequence[str]) -> argparse.Namespace:
    """The words of a call."""
    parser = argparse.ArgumentParser(prog="documents.py", description=__doc__,
                                     formatter_class=argparse.RawDescriptionHelpFormatter)
    which = parser.add_mutually_exclusive_group()
    which.add_argument("--check", action="store_true", help="say what is stale, and write nothing")
    which.add_argument("--print", nargs="*", metavar="NAME", help="print what is said of these names, or of all")
    return parser.parse_args(words)


def main(words: Sequence[str]) -> int:
    """Does what the words ask for, and gives the status."""
    asked = asked_for(words)
    if asked.print is not None:
        return printed(asked.print)
    proved, proved_faults = proved_text()
    mapped, mapped_faults = map_text()
    made = {"docs/develop/MAP.md": mapped, "docs/PROVED.md": proved, "docs/develop/DEFINITIONS.md": definitions_text()}
    faults = mapped_faults + proved_faults + missing_files() + broken_links() + missing_calls()
    faults += shown.missing()
    for path, text in made.items():
        file = ROOT / path
        old = file.read_text() if file.exists() else ""
        if old != text and asked.check:
            changed = set(old.splitlines()) ^ set(text.splitlines())
            faults.append(f"{path} is stale: {len(changed)} lines differ")
        elif old != text:
            file.write_text(text)
    for fault in faults:
        print(fault)
    return 1 if faults else 0


if __name__ == "__main__":
    sys.exit(main(sys.argv[1:]))
