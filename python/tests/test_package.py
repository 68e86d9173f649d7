"""Tests of the package as `pip` sees it.

    PYTHONPATH=python/src python3 -m unittest discover -s python/tests
"""
from __future__ import annotations

import ast
import shutil
import subprocess
import sys
import tarfile
import tempfile
import unittest
import zipfile
from functools import cache
from pathlib import Path

ROOT = Path(__file__).resolve().parent.parent.parent
SOURCES = ROOT / "python" / "src"
VERSION = (ROOT / "VERSION").read_text(encoding="ascii").strip()
BUILT_FROM = ("pyproject.toml", "VERSION", "README.md", "LICENSE-MIT", "LICENSE-APACHE")
OFFLINE = ("-q", "--no-index", "--no-deps", "--no-build-isolation")
CAN_BUILD = "import setuptools, pip, wheel; assert tuple(map(int, setuptools.__version__.split('.')[:2])) >= (66, 1)"


def run(*words: str, cwd: str | None = None) -> str:
    """What a command prints, which has to end well."""
    return subprocess.run(words, check=True, capture_output=True, text=True, cwd=cwd).stdout


@cache
def builder() -> str:
    """A Python that builds wheels without a network: this one, or the system's."""
    for python in (sys.executable, "/usr/bin/python3"):
        try:
            run(python, "-c", CAN_BUILD)
        except (OSError, subprocess.CalledProcessError):
            continue
        return python
    raise unittest.SkipTest("no Python here has pip, wheel, and setuptools 66.1 or later")


def sources(folder: str) -> Path:
    """A copy of what the package is built from, in which setuptools may leave its files."""
    copy = Path(folder, "copy")
    shutil.copytree(SOURCES, copy / "python" / "src", ignore=shutil.ignore_patterns("__pycache__", "*.egg-info"))
    for name in BUILT_FROM:
        shutil.copy(ROOT / name, copy)
    return copy


def built_wheel(folder: str) -> Path:
    """A wheel in a folder that pip builds without a network."""
    run(builder(), "-m", "pip", "wheel", *OFFLINE, "-w", folder, str(sources(folder)))
    return next(Path(folder).glob(f"burch_dill-{VERSION}-*.whl"))


def package() -> set[str]:
    """The files of the package, from the folder that has it."""
    return {path.relative_to(SOURCES).as_posix() for path in SOURCES.glob("burch_dill/**/*")
            if path.is_file() and path.suffix != ".pyc"}


class Archives(unittest.TestCase):
    def test_wheel_has_the_package_alone(self) -> None:
        with tempfile.TemporaryDirectory() as folder:
            with zipfile.ZipFile(built_wheel(folder)) as archive:
                names = set(archive.namelist())
                metadata = archive.read(f"burch_dill-{VERSION}.dist-info/METADATA").decode()
        self.assertEqual({name for name in names if not name.startswith(f"burch_dill-{VERSION}.dist-info/")}, package())
        self.assertEqual(2, len([name for name in names if name.endswith(("/LICENSE-MIT", "/LICENSE-APACHE"))]))
        for line in (f"Version: {VERSION}", "Requires-Python: >=3.9", "License: MIT OR Apache-2.0"):
            self.assertIn(f"\n{line}\n", metadata)
        self.assertNotIn("Requires-Dist", metadata)

    def test_wheel_installs(self) -> None:
        """It is installed into an empty folder, from which the package is read."""
        with tempfile.TemporaryDirectory() as folder:
            wheel = built_wheel(folder)
            run(builder(), "-m", "pip", "install", "-q", "--no-index", "--target", f"{folder}/there", str(wheel))
            script = (f"import sys; sys.path.insert(0, {f'{folder}/there'!r})\n"
                      "import burch_dill; print(burch_dill.conj(burch_dill.TRUE, burch_dill.FALSE))")
            self.assertEqual(run(sys.executable, "-I", "-c", script, cwd=folder), "(and true false)\n")

    def test_sources_build_the_wheel(self) -> None:
        """The archive of the sources has the version and the licences, and a wheel can be built from it."""
        with tempfile.TemporaryDirectory() as folder:
            copy = sources(folder)
            script = f"from setuptools import build_meta; build_meta.build_sdist({folder!r})"
            run(builder(), "-c", script, cwd=str(copy))
            with tarfile.open(next(Path(folder).glob(f"*{VERSION}.tar.gz"))) as archive:
                names = {name.partition("/")[2] for name in archive.getnames()}
        self.assertLessEqual({*BUILT_FROM, "python/src/burch_dill/py.typed"}, names)


class Editable(unittest.TestCase):
    def test_it_shows_the_package_alone(self) -> None:
        """`pip install -e .` puts a folder on the path that has the package and nothing else."""
        with tempfile.TemporaryDirectory() as folder:
            copy = sources(folder)
            run(builder(), "-m", "venv", "--system-site-packages", "--without-pip", f"{folder}/venv")
            python = f"{folder}/venv/bin/python"
            run(builder(), "-m", "pip", "--python", python, "install", *OFFLINE, "-e", str(copy))
            there = run(python, "-c", "import burch_dill; print(burch_dill.__file__)", cwd=folder).strip()
            self.assertEqual(Path(there).resolve(), (copy / "python/src/burch_dill/__init__.py").resolve())
            shown = {path.name for path in (copy / "python" / "src").iterdir() if path.suffix != ".egg-info"}
        self.assertEqual(shown, {"burch_dill"})


class Package(unittest.TestCase):
    def test_one_version(self) -> None:
        self.assertRegex(VERSION, r"^\d+\.\d+\.\d+$")
        places = (
            ("README.md", "Version {} "),
            ("CHANGELOG.md", "## {}"),
            ("crates/bd_show/src/command.rt", '.version("{}")'),
        )
        for place, words in places:
            self.assertIn(words.format(VERSION).strip(), (ROOT / place).read_text(encoding="utf-8"))

    def test_what_is_public_has_docstrings(self) -> None:
        for path in SOURCES.glob("burch_dill/**/*.py"):
            module = ast.parse(path.read_text(encoding="utf-8"))
            defined = [node for node in module.body if isinstance(node, (ast.FunctionDef, ast.ClassDef))]
            for outer in [node for node in defined if isinstance(node, ast.ClassDef)]:
                defined += [node for node in outer.body if isinstance(node, ast.FunctionDef)]
            for node in defined:
                overloads = [name.id for name in node.decorator_list if isinstance(name, ast.Name)]
                if not node.name.startswith("_") and "overload" not in overloads and node.name != "main":
                    self.assertTrue(ast.get_docstring(node), f"{path.name}: {node.name}")


if __name__ == "__main__":
    unittest.main()
