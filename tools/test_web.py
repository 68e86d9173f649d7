"""Tests of the web page: how it is joined, and its module's answers against the programs', in headless Chromium.

    tools/web.sh && cd tools && BURCH_DILL=PROGRAM BD_VIEW=VIEW python3 -m unittest test_web test_page

Those of the module are skipped where the page isn't built, or where Chromium and its driver (Debian's `chromium` and
`chromium-driver`) or the programs are missing. WEB_DESIGNS says how many random designs are asked about, 500 where it
isn't set.
"""
import os
import random
import re
import shutil
import subprocess
import tempfile
import unittest
from pathlib import Path
from typing import List, Tuple

import web_page
from browser import InBrowser, Ran

PROGRAM, VIEW = (shutil.which(os.environ.get(variable, name)) for variable, name in
                 (("BURCH_DILL", "burch_dill"), ("BD_VIEW", "bd_view")))
RANDOM_DESIGNS = int(os.environ.get("WEB_DESIGNS", "500"))


def natively(words: List[str], files: List[Tuple[str, str]], folder: Path) -> Ran:
    """The same run of the program itself, in a folder that holds the files."""
    for name, text in files:
        (folder / name).write_text(text)
    program = VIEW if words[0] == "bd_view" else PROGRAM
    done = subprocess.run([words[0], *words[1:]], executable=program, cwd=folder, capture_output=True, check=False,
                          stdin=subprocess.DEVNULL)
    left = {path.name: path.read_text() for path in folder.iterdir()}
    for path in folder.iterdir():
        path.unlink()
    return Ran(done.returncode, done.stdout.decode(), done.stderr.decode(), left)


def texts_of(design: web_page.Design) -> List[Tuple[str, str]]:
    paths = [("pipe", design.pipe), ("spec", design.spec), ("inv", design.inv)]
    return [(name, (web_page.GALLERY / path).read_text()) for name, path in paths if path]


def changed(source: random.Random, files: List[Tuple[str, str]]) -> List[Tuple[str, str]]:
    """The files, in one of which some words are others of the same file."""
    place = source.randrange(len(files))
    name, text = files[place]
    words = list(re.finditer(r"[^\s()]+", text))
    for _ in range(source.randint(1, 2)):
        old, new = source.choice(words), source.choice(words)
        text = text[:old.start()] + new[0] + text[old.end():]
        words = list(re.finditer(r"[^\s()]+", text))
    return [*files[:place], (name, text), *files[place + 1:]]


class Joined(unittest.TestCase):
    """The page as it is joined."""

    def test_parts(self) -> None:
        page = web_page.page(b"module")
        self.assertEqual(re.findall(r"/\*[A-Z]+\*/", page), [])
        self.assertNotIn("http", re.sub(r"<!--.*?-->", "", page.split("<script")[0]))

    def test_designs(self) -> None:
        listed = web_page.gallery()["machines"]
        assert isinstance(listed, list)
        names = {design["name"] for machine in listed for design in machine["designs"]}
        self.assertEqual(names, {design.pipe for design in web_page.designs()})

    def test_riddles(self) -> None:
        names = [design.pipe for design in web_page.designs() if design.machine == "riddles"]
        self.assertEqual(sorted(web_page.riddles()), sorted(names))

    def test_modules(self) -> None:
        joined = web_page.script("page.js")
        names = re.findall(r"^const (\w+)_module = ", joined, re.M)
        self.assertEqual(len(names), len(set(names)))
        self.assertEqual(names[-1], "page")
        self.assertLess(names.index("paint"), names.index("editor"))
        self.assertIn("return { Paint", joined.replace("looksOf, partnerOf, parenthesisAt, ", ""))


@unittest.skipUnless(PROGRAM and VIEW, "no programs are named by BURCH_DILL and BD_VIEW")
class Answers(InBrowser):
    """The page's module answers as the programs do, byte for byte, and leaves the same files."""

    def same(self, words: List[str], files: List[Tuple[str, str]]) -> Ran:
        with tempfile.TemporaryDirectory() as folder:
            wanted = natively(words, files, Path(folder))
        came = self.browser.run(words, files)
        self.assertEqual(came, wanted, (words, files))
        return came

    def words(self, *command: str, files: List[Tuple[str, str]]) -> List[str]:
        return [*command, *(["inv"] if any(name == "inv" for name, _ in files) else [])]

    def test_gallery(self) -> None:
        for design in web_page.designs():
            files = texts_of(design)
            checked = self.same([*self.words("burch_dill", "check", "pipe", "spec", files=files), "--cnf", "cnf",
                                 "--lrat", "lrat"], files)
            self.same([*self.words("burch_dill", "check", "pipe", "spec", files=files), "--diverse"], files)
            if checked.status == 1:
                shown = self.words("bd_view", "show", "pipe", "spec", "case", files=files)
                self.same([*shown, "--html", "diagram.html"], [*files, ("case", checked.out)])
                self.same(self.words("bd_view", "why", "pipe", "spec", "case", files=files),
                          [*files, ("case", checked.out)])

    def test_bounded(self) -> None:
        for name, riddle in web_page.riddles().items():
            design = next(one for one in web_page.designs() if one.pipe == name)
            assert isinstance(riddle, dict)
            files = [*texts_of(design)[:2], ("start", riddle["start"])]
            came = self.same(["burch_dill", "bounded", "pipe", "spec", "start", "2"], files)
            if came.status == 1:
                self.same(["bd_view", "show", "pipe", "spec", "trail", "start"], [*files, ("trail", came.out)])

    def test_random_designs(self) -> None:
        source = random.Random(1)
        small = [design for design in web_page.designs() if not design.machine.startswith(("dlx", "everything"))]
        for _ in range(RANDOM_DESIGNS):
            files = changed(source, texts_of(source.choice(small)))
            self.same([*self.words("burch_dill", "check", "pipe", "spec", files=files), "--budget", "1000"], files)

    def test_words(self) -> None:
        for words in (["burch_dill"], ["bd_view"], ["bd_view", "--help"], ["bd_view", "about", "pipe", "spec"],
                      ["bd_view", "check", "pipe", "spec"],
                      ["burch_dill", "gen", "3", "1"], ["burch_dill", "check", "nowhere", "spec"]):
            self.same(words, texts_of(web_page.designs()[0]))

    def test_words_that_are_not_text(self) -> None:
        came = self.browser.later("const done = arguments[0];"
                                  "burchDill.runner.run([new Uint8Array([255])], []).then((came) => done(came.status));")
        self.assertEqual(came, 257)


if __name__ == "__main__":
    unittest.main()
