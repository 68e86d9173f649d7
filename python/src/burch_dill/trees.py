"""The lists and atoms of the program's texts, as Python values, and their layout."""
from __future__ import annotations

import re
from typing import Union

WIDTH = 100  # columns of a text that is laid out

Tree = Union[str, tuple["Tree", ...]]


def written(tree: Tree) -> str:
    """A tree in one line."""
    return tree if isinstance(tree, str) else f"({' '.join(map(written, tree))})"


def laid_out(tree: Tree, indent: int, after: int = 0) -> list[str]:
    """The lines of a tree that begins in a column and has so many `)` after it; parts that don't fit go below."""
    if isinstance(tree, str) or indent + len(written(tree)) + after <= WIDTH:
        return [" " * indent + written(tree)]
    lines, below = [" " * indent + "(" + written(tree[0])], False
    for place, part in enumerate(tree[1:], 2):
        closing = after + 1 if place == len(tree) else 0
        if not below and len(lines[-1]) + 1 + len(written(part)) + closing <= WIDTH:
            lines[-1] += " " + written(part)
        else:
            lines += laid_out(part, min(indent + 2, WIDTH // 2), closing)
            below = True
    lines[-1] += ")"
    return lines


def read_trees(text: str) -> list[Tree]:
    """The trees of a text, without its comments. Raises `ValueError` where a parenthesis has no other."""
    open_lists: list[list[Tree]] = [[]]
    for token in re.findall(r"[()]|[^\s();]+", re.sub(r";[^\n]*", "", text)):
        if token == "(":
            open_lists.append([])
        elif token == ")" and len(open_lists) > 1:
            done = tuple(open_lists.pop())
            open_lists[-1].append(done)
        elif token == ")":
            raise ValueError("no list is open at a `)`")
        else:
            open_lists[-1].append(token)
    if len(open_lists) > 1:
        raise ValueError("a list is open at the end")
    return open_lists[0]


def item_at(text: bytes, offset: int) -> str:
    """The head and the name of the item, a list right inside the file's, that a byte is in; empty where none is."""
    plain = re.sub(rb";[^\n]*", lambda comment: b" " * len(comment[0]), text[:1 << 20])
    depth, start = 0, -1
    for found in re.finditer(rb"[()]", plain[:offset + 1]):
        if found[0] == b"(":
            depth += 1
            start = found.start() if depth == 2 else start
        else:
            start = -1 if depth == 2 and found.start() < offset else start
            depth -= 1
    words = re.match(rb"\(\s*([^\s();]+)(?:\s+([^\s();]+))?", plain[start:]) if start >= 0 else None
    return b" ".join(filter(None, words.groups())).decode("ascii", "replace") if words else ""
