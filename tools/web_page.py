"""Joins the files of web/, the compiled module and the gallery into one page.

    tools/web_page.py MODULE.wasm PAGE.html
"""
import argparse
import base64
import json
import posixpath
import re
from pathlib import Path
from typing import Dict, List, NamedTuple, Optional

ROOT = Path(__file__).resolve().parent.parent
WEB = ROOT / "web"
GALLERY = ROOT / "gallery"
ROW = re.compile(r"\| \[`(\w+)`\]\(\w+/README\.md\) \| ([^|]*) \|")
RIDDLE_ROW = re.compile(r"\| `(riddle_(\d+)\.pipe)` \| ([^|]*) \|")
SAID = re.compile(r"\*\*Riddle (\d+)\.\*\* (.*?)\n\n(.*?)(?=\*\*Riddle|\Z)", re.S)
COMPARED = re.compile(r"diff gallery/(\S+) gallery/riddles/(\S+)")
START = re.compile(r"echo '(\(start .*?)' >")

# The scripts with which the page and its thread begin: modules, which import others of web/ by lines of this form.
ENTRY, WORKER = "page.js", "worker.js"
IMPORT = re.compile(r'^import \{ ([\w, ]+) \} from "\./(\w+)\.js";$', re.M)
EXPORT = re.compile(r"^export (?=(?:async )?(?:function|class|const) (\w+))", re.M)


class Design(NamedTuple):
    """A design of the gallery: the paths of its files, below the gallery."""
    pipe: str
    spec: str
    inv: Optional[str]

    @property
    def machine(self) -> str:
        return self.pipe.split("/")[0]

    @property
    def label(self) -> str:
        return posixpath.basename(self.pipe)


def designs() -> List[Design]:
    """The designs of gallery/verdicts.txt, in its order."""
    found = []
    for line in (GALLERY / "verdicts.txt").read_text().splitlines():
        if line.startswith(";"):
            continue
        pipe, spec, inv = (word.strip() for word in line.split("|")[:3])
        folder = posixpath.dirname(pipe)
        paths = [None if name == "-" else posixpath.normpath(posixpath.join(folder, name)) for name in (spec, inv)]
        found.append(Design(pipe, str(paths[0]), paths[1]))
    return found


def titles() -> Dict[str, str]:
    """The machines of gallery/README.md, from the easiest to the hardest, and the riddles."""
    found = dict(ROW.findall((GALLERY / "README.md").read_text()))
    return {**found, "riddles": "riddles: one line of a machine is changed"}


def changed_line(riddle: str, right: str) -> Dict[str, object]:
    """The one line of a riddle that isn't one of the right machine, and what stands there in the right machine."""
    texts = [(GALLERY / path).read_text().splitlines() for path in (riddle, right)]
    codes = [[line for line in text if not line.startswith(";")] for text in texts]
    changed = [(place, line) for place, line in enumerate(codes[1]) if line != codes[0][place]]
    if len(codes[0]) != len(codes[1]) or len(changed) != 1:
        raise ValueError(f"{riddle} and {right} don't differ in one line")
    place, line = changed[0]
    return {"line": texts[0].index(codes[0][place]) + 1, "right": line}


def riddles() -> Dict[str, object]:
    """The riddles' answers, by the names of the designs."""
    folder = GALLERY / "riddles"
    machines = {name: (number, machine) for name, number, machine in
                RIDDLE_ROW.findall((folder / "README.md").read_text())}
    verdicts = {line.split("|")[0].strip(): line.split("|")[3].strip()
                for line in (GALLERY / "verdicts.txt").read_text().splitlines() if not line.startswith(";")}
    found: Dict[str, object] = {}
    for _, says, example in SAID.findall((folder / "ANSWERS.md").read_text()):
        compared, start = COMPARED.search(example), START.search(example)
        if not compared or not start:
            raise ValueError(f"an answer to a riddle has no machine or no start: {says}")
        number, machine = machines[compared[2]]
        name = f"riddles/{compared[2]}"
        found[name] = {"number": int(number), "machine": machine, "says": " ".join(says.replace("`", "").split()),
                       "start": f"{start[1]}\n", "harmless": verdicts[name] == "correct",
                       **changed_line(name, compared[1])}
    return found


def gallery() -> Dict[str, object]:
    """The gallery as the page lists it, and the texts of its files."""
    all_designs = designs()
    machines = [{"title": title, "designs": [
        {"name": design.pipe, "label": design.label, "pipe": design.pipe, "spec": design.spec, "inv": design.inv}
        for design in all_designs if design.machine == machine]} for machine, title in titles().items()]
    paths = sorted({path for design in all_designs for path in design if path})
    return {"machines": [machine for machine in machines if machine["designs"]],
            "files": {path: (GALLERY / path).read_text() for path in paths},
            "riddles": riddles()}


def needed(name: str, found: Dict[str, str]) -> Dict[str, str]:
    """A script of web/ and those that it imports, each behind those that it needs itself."""
    text = (WEB / name).read_text()
    for _, other in IMPORT.findall(text):
        if f"{other}.js" not in found:
            needed(f"{other}.js", found)
    found[name] = text
    return found


def wrapped(name: str, text: str) -> str:
    """A module as one value, whose members are what it exports."""
    exported = ", ".join(EXPORT.findall(text))
    inner = EXPORT.sub("", IMPORT.sub(r"const { \1 } = \2_module;", text))
    return f"const {name[:-3]}_module = (() => {{\n{inner}return {{ {exported} }};\n}})();\n"


def script(entry: str) -> str:
    """A script of web/ with all that it imports, as one script."""
    joined = "\n".join(wrapped(name, text) for name, text in needed(entry, {}).items())
    left = re.search(r"^(import|export) .*", joined, re.M)
    if left:
        raise ValueError(f"a line that can't be joined: {left[0]}")
    return joined


def page(module: bytes) -> str:
    """The page. In a script's element `</` ends the element, wherever it stands, so none may stand there."""
    parts = {
        "STYLE": (WEB / "page.css").read_text(),
        "MODULE": base64.b64encode(module).decode("ascii"),
        "GALLERY": json.dumps(gallery()).replace("</", "<\\/"),
        "WORKER": script(WORKER),
        "PAGE": script(ENTRY),
    }
    for name in ("WORKER", "PAGE"):
        if "</" in parts[name]:
            raise ValueError(f"a script of the page has `</`: {name}")
    return re.sub(r"/\*(\w+)\*/", lambda found: parts[found[1]], (WEB / "index.html").read_text())


def main() -> None:
    words = argparse.ArgumentParser(description="Joins web/, the compiled module and the gallery into one page.")
    words.add_argument("module", type=Path, metavar="MODULE.wasm", help="the module that tools/web.sh makes")
    words.add_argument("page", type=Path, metavar="PAGE.html", help="where the page is written")
    given = words.parse_args()
    given.page.write_text(page(given.module.read_bytes()))


if __name__ == "__main__":
    main()
