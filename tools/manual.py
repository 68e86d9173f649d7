#!/usr/bin/env python3
"""Makes man pages: of section 1 for each page of docs/commands/, and burch_dill-language.7 of docs/LANGUAGE.md.

It takes what those pages are written in: a head with the name, a line with what it is, the words in one code span,
sections, paragraphs, tables, lists, blocks of code. Links become their texts; `burch_dill-check.md` becomes
burch_dill-check(1).
"""
from __future__ import annotations

import argparse
import re
import sys
from pathlib import Path
from typing import Iterator, List

ROOT = Path(__file__).resolve().parent.parent
COMMANDS = ROOT / "docs" / "commands"
LANGUAGE = ROOT / "docs" / "LANGUAGE.md"
# heads of columns that go without saying
PLAIN = ("Means", "Says", "Text", "Does", "File", "Comes where", "Why", "What they ask", "What they print", "Sort",
         "What it is", "Line", "Instead", "Code and place", "Fault")
VERSION = (ROOT / "VERSION").read_text(encoding="ascii").strip()


def escaped(text: str) -> str:
    """Text with what roff would read escaped."""
    text = text.replace("\\", "\\e").replace("-", "\\-")
    return "\\&" + text if text[:1] in (".", "'") else text


def inline(text: str) -> str:
    """A line's spans: code and what is strong in bold, links as their texts."""
    text = re.sub(r"\[([^\]]+)\]\((?:\S*/)?(burch_dill|bd_view)(-\w+)?\.md[^)]*\)",
                  lambda found: f"**{found[2]}{found[3] or ''}**(1)", text)
    text = re.sub(r"\[([^\]]+)\]\([^)]*\)", r"\1", text)
    parts = re.split(r"(`[^`]+`|\*\*[^*]+\*\*)", text)
    made = "".join(f"\\fB{escaped(part.strip('`*'))}\\fR" if part[:1] == "`" or part[:2] == "**" else
                   part.replace("\\", "\\e").replace("-", "\\-") for part in parts)
    return "\\&" + made if made[:1] in (".", "'") else made


def row(line: str) -> List[str]:
    """The cells of a table's row."""
    return [cell.strip() for cell in line.strip().strip("|").split("|")]


def table(lines: List[str]) -> Iterator[str]:
    """A table as a list of its first cells, each with the others below it, with their heads where these tell more."""
    head, *rows = [row(line) for line in lines if not re.fullmatch(r"[|\s:-]+", line)]
    for first, *others in rows:
        yield ".TP"
        yield inline(first)
        named = [cell if name in PLAIN else f"{name.lower()}: {cell}" for name, cell in zip(head[1:], others) if cell]
        yield inline("; ".join(named))


def code(lines: List[str]) -> Iterator[str]:
    """A block of code."""
    yield from (".PP", ".RS 4", ".EX")
    yield from (escaped(line) for line in lines)
    yield from (".EE", ".RE")


def body(lines: List[str]) -> Iterator[str]:
    """The parts after the head."""
    at = 0
    while at < len(lines):
        line, start = lines[at], at
        if line.startswith("<!--"):
            at += 1
            continue
        if line.startswith("## "):
            yield f".SH {escaped(line[3:].upper())}"
        elif line.startswith("### "):
            yield f".SS {escaped(line[4:])}"
        elif line.startswith("```"):
            while not lines[at + 1].startswith("```"):
                at += 1
            yield from code(lines[start + 1:at + 1])
            at += 1
        elif line.startswith("    "):
            while at + 1 < len(lines) and (lines[at + 1].startswith("    ") or not lines[at + 1].strip()):
                at += 1
            yield from code([part[4:] for part in "\n".join(lines[start:at + 1]).rstrip().split("\n")])
        elif line.startswith("|"):
            while at + 1 < len(lines) and lines[at + 1].startswith("|"):
                at += 1
            yield from table(lines[start:at + 1])
        elif line.startswith("- "):
            yield from (".IP \\(bu 2", inline(line[2:]))
        elif line.strip():
            yield from ([] if start and lines[start - 1].strip() else [".PP"])
            yield inline(line.strip())
        at += 1


def page(text: str, name: str, section: int, about: str, synopsis: str) -> str:
    """A man page of the parts of a text after its head."""
    head = [f'.TH "{name.upper()}" "{section}" "" "burch_dill {VERSION}"', ".SH NAME",
            f"{escaped(name)} \\- {escaped(about)}"]
    words = [".SH SYNOPSIS", inline(f"`{synopsis}`")] if synopsis else []
    return "\n".join([*head, *words, *body(text.split("\n")), ""])


def command_page(path: Path) -> str:
    """The man page of a page of docs/commands/."""
    head, about, synopsis, text = path.read_text(encoding="utf-8").split("\n\n", 3)
    if head != f"# {path.stem}" or not re.fullmatch(r"`[^`]+`", synopsis):
        raise ValueError(f"{path} has another head")
    return page(text, path.stem, 1, about, synopsis.strip("`"))


def language_page() -> str:
    """The man page of the language."""
    _, text = LANGUAGE.read_text(encoding="utf-8").split("\n\n", 1)
    return page("## Description\n\n" + text, "burch_dill-language", 7, "the language of burch_dill's files", "")


def main(words: List[str]) -> int:
    """Writes the pages."""
    parser = argparse.ArgumentParser(prog="manual.py", description=__doc__,
                                     formatter_class=argparse.RawDescriptionHelpFormatter)
    parser.add_argument("folder", metavar="FOLDER", type=Path, help="where the pages are written")
    folder = parser.parse_args(words).folder
    folder.mkdir(parents=True, exist_ok=True)
    for path in sorted(COMMANDS.glob("*.md")):
        (folder / f"{path.stem}.1").write_text(command_page(path), encoding="utf-8")
    (folder / "burch_dill-language.7").write_text(language_page(), encoding="utf-8")
    return 0


if __name__ == "__main__":
    sys.exit(main(sys.argv[1:]))
