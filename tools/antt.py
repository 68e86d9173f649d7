"""Reads the definitions of crates: files of `crates/NAME/specs/`, in Antt.

What is read of them is little: comments, the heads of definitions, what a file takes from others by `use`, and the
words of a definition's text. A line that begins in the first column begins something; in a `mutual` block or a `module`
a definition begins two columns further in.
"""
from __future__ import annotations

import re
from pathlib import Path
from typing import Dict, Iterator, List, Set, Tuple

CRATES = Path(__file__).resolve().parent.parent / "crates"
Cited = Tuple[str, str, str]  # a definition: its crate, its module and its name
USE = re.compile(r"(?:pub )?use Rattle\.(bd_\w+)\.specs\.([\w.]+?)(?:\.\{(.*)\})?(?: as (\w+))?$")
GHOST_USE = re.compile(r"ghost use Rattle\.(bd_\w+)\.specs\.([\w.]+?)\.\{([^}]*)\};")
WORDS = re.compile(r"[^\s()\[\]{},;]+")
TOP = re.compile(r"(?:abbrev |unfoldable )?pub (?:record |data )?(\S+)")
NESTS = re.compile(r"((abbrev|unfoldable) )?mutual|module ")
SOURCE = re.compile(r"\(([^()]*\b(?:19|20)\d\d\b[^()]*)\)")


def cited_words(text: str) -> Set[str]:
    """The words of a text, between spaces and brackets."""
    return set(WORDS.findall(text))


def comment_above(lines: List[str], at: int) -> str:
    """The comment lines that end right above a line, as one text."""
    first = at
    while first > 0 and re.match(r"\s*-- ", lines[first - 1]) and "----" not in lines[first - 1]:
        first -= 1
    return " ".join(line.strip()[3:] for line in lines[first:at])


def head_of(lines: List[str]) -> str:
    """The comment at the head of a file, as one text."""
    head = []
    for line in lines:
        if not line.startswith("--"):
            break
        head.append(line[3:].strip())
    return " ".join(head)


def definitions(lines: List[str]) -> List[Tuple[str, str]]:
    """The public definitions of a file with their comments, in their order."""
    found: List[Tuple[str, str]] = []
    nested = False
    for at, line in enumerate(lines):
        if line and not line[0].isspace() and not line.startswith("--"):
            nested = bool(NESTS.match(line))
        begins = TOP.match(line.lstrip() if nested else line)
        if begins and begins[1] not in ("mod", "use"):
            found.append((begins[1], comment_above(lines, at)))
    return found


def modules(crate: str) -> List[Tuple[str, Path]]:
    """The public modules of a crate's specs in the order of its Lib.antt."""
    specs = CRATES / crate / "specs"
    lib = specs / "Lib.antt"
    names = re.findall(r"^pub mod (\w+)", lib.read_text(), re.M) if lib.exists() else []
    found: List[Tuple[str, Path]] = []
    for name in names:
        if name == "inner":
            continue
        if (specs / f"{name}.antt").exists():
            found.append((name, specs / f"{name}.antt"))
        found += [(f"{name}.{file.stem}", file) for file in sorted((specs / name).glob("*.antt"))]
    return found


def source_of(text: str) -> str:
    """The public source that a comment names in parentheses, or nothing."""
    found = SOURCE.search(text)
    return re.sub(r"^[^:]*: ", "", found.group(1)) if found else ""


def imported(text: str) -> Dict[str, Cited]:
    """What the names that a source file takes from definitions mean: crate, module and name."""
    found: Dict[str, Cited] = {}
    for crate, module, names in GHOST_USE.findall(text):
        for part in [] if module.startswith(("declared", "contracts", "inner")) else names.split(","):
            first, _, other = part.strip().partition(" as ")
            if first:
                found[other or first] = (crate, module, first)
    return found


def passed_on(crate: str, module: str, name: str) -> Cited:
    """Where a definition stands that a module may only pass on by `pub use`, as crate, module and name."""
    file = CRATES / crate / "specs" / (module.replace(".", "/") + ".antt")
    for line in file.read_text().splitlines() if file.exists() else []:
        there = USE.match(line) if line.startswith("pub use ") else None
        if there and name in re.split(r",\s*", there.group(3) or ""):
            return passed_on(there.group(1), there.group(2), name)
    return crate, module, name


def owner_of(lines: List[str], name: str) -> str:
    """The definition that a name stands in: itself, or the data type that it makes values of."""
    names = {word for word, _ in definitions(lines)}
    owner = name
    for line in lines if name not in names else []:
        top = TOP.match(line)
        owner = top[1] if top and top[1] in names else owner
        if re.match(rf"\s+(?:pub )?{re.escape(name)} :", line):
            return owner
    return name


class Module:
    """A file of specs: its definitions with the words of their texts, and what its names mean."""

    def __init__(self, crate: str, name: str, file: Path) -> None:
        self.crate, self.name, self.file = crate, name, file
        self.lines = file.read_text().splitlines()
        self.imports: Dict[str, Cited] = {}
        self.aliases: Dict[str, Tuple[str, str]] = {}
        self.words: Dict[str, Set[str]] = {}
        self.order: List[str] = []
        self.read_imports()
        self.read_definitions()

    def read_imports(self) -> None:
        """What the lines of `use` say."""
        for line in self.lines:
            found = USE.match(line.strip())
            if not found or found.group(2).startswith(("declared", "contracts")):
                continue
            crate, module, names, alias = found.groups()
            if names is None:
                self.aliases[alias or module.split(".")[-1]] = (crate, module)
            for part in (names or "").split(","):
                first, _, other = part.strip().partition(" as ")
                if first:
                    self.imports[other or first] = (crate, module, first)

    def read_definitions(self) -> None:
        """A definition's text goes from its line to the next one that begins a definition."""
        start = re.compile(r"(?:abbrev |unfoldable )?(?:pub )?(?:record |data )?([^\s:({]+)")
        current = ""
        nests = False
        for line in self.lines:
            text = line.split("--")[0]
            if text and not text[0].isspace() and not re.match(r"(pub )?(use|mod)\b|infix", text):
                nests = bool(NESTS.match(text))
                named = start.match(text)
                if named and named.group(1) not in ("mutual", "module", "unfolding"):
                    current = named.group(1)
            nested = re.match(r"  (?:abbrev |unfoldable )?pub (?:record |data )?([^\s:({]+) :", text)
            if nested and nests:
                current = nested.group(1)
            if current:
                if current not in self.words:
                    self.words[current] = set()
                    self.order.append(current)
                self.words[current] |= cited_words(text)

    def cited(self, name: str) -> Iterator[Cited]:
        """What a definition cites, as names of modules and in them."""
        for word in self.words.get(name, ()):
            for part in {word, word.split(".")[0]}:
                if part in self.words and part != name:
                    yield (self.crate, self.name, part)
                elif part in self.imports:
                    yield self.imports[part]
            if "." in word and word.split(".")[0] in self.aliases:
                yield (*self.aliases[word.split(".")[0]], word.split(".")[1])
