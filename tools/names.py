#!/usr/bin/env python3
"""Lists the names that mean two types to a reader of one crate.

usage: tools/names.py

A crate sees the types that it declares, and those that the crates below it export. A line is the crate, the name, and
where its types are declared. The status is 1 where a line is printed, and 0 where none is.
"""
from __future__ import annotations

import argparse
import re
import sys
from collections import defaultdict
from collections.abc import Iterator, Mapping, Sequence
from pathlib import Path

import documents

CRATES = documents.ROOT / "crates"
# names that keep two meanings in one sight: docs/develop/DECISIONS.md says why
KEPT = {"Ended", "Fault", "Line"}
DECLARED = re.compile(r"^(?:pub(?:\(crate\))? )?(?:struct|enum|type|trait) (\w+)", re.MULTILINE)
EXPORTED = re.compile(r"^pub use (\w+)[\w:]*?(?:::\{([^{}]*)\}|::(\w+));", re.MULTILINE)


def declared(folder: Path) -> dict[str, set[str]]:
    """The types of a crate, each with the files that declare it."""
    found: dict[str, set[str]] = defaultdict(set)
    for file in sorted((folder / "src").rglob("*.rt")):
        for name in DECLARED.findall(file.read_text(encoding="utf-8")):
            found[name].add(f"{folder.name}/{file.relative_to(folder)}")
    return found


def exported(folder: Path) -> dict[str, str]:
    """What a crate exports: each name with the crate or the module that it comes from."""
    library = folder / "src" / "lib.rt"
    found: dict[str, str] = {}
    for source, names, name in EXPORTED.findall(library.read_text(encoding="utf-8") if library.exists() else ""):
        found.update(dict.fromkeys(re.findall(r"\w+", names) or [name], source))
    return found


def declarations(crate: str, name: str, types: Mapping[str, Mapping[str, set[str]]],
                 exports: Mapping[str, Mapping[str, str]]) -> set[str]:
    """The files that declare a name which a crate exports: none for a call, or for what isn't ours."""
    if name in types[crate]:
        return types[crate][name]
    source = exports[crate].get(name, "")
    return declarations(source, name, types, exports) if source in types else set()


def doubled(stands_on: Mapping[str, Sequence[str]], folder: Path = CRATES) -> Iterator[tuple[str, str, list[str]]]:
    """The names of two types in a crate's sight, for crates and what each stands on, as (crate, name, files)."""
    types = {crate: declared(folder / crate) for crate in stands_on}
    exports = {crate: exported(folder / crate) for crate in stands_on}
    for crate, others in stands_on.items():
        sight: dict[str, set[str]] = defaultdict(set)
        for name, files in types[crate].items():
            sight[name] |= files
        for other in others:
            for name in exports.get(other, ()):
                sight[name] |= declarations(other, name, types, exports)
        yield from ((crate, name, sorted(files)) for name, files in sorted(sight.items()) if len(files) > 1)


def main(words: Sequence[str] = ()) -> int:
    """Prints what is found, and gives the status."""
    argparse.ArgumentParser(prog="names.py", description=__doc__,
                            formatter_class=argparse.RawDescriptionHelpFormatter).parse_args(words)
    programs, tests = documents.crates()
    found = [line for line in doubled({**programs, **tests}) if line[1] not in KEPT]
    for crate, name, files in found:
        print(f"{crate}: {name}: {', '.join(files)}")
    return 1 if found else 0


if __name__ == "__main__":
    sys.exit(main(sys.argv[1:]))
