"""Tests of `quick.sh` in a small repository, with a kit that compiles nothing: its linker writes down its words."""
from __future__ import annotations

import os
import shutil
import subprocess
import tempfile
import unittest
from pathlib import Path

SCRIPT = Path(__file__).resolve().parent / "quick.sh"
CRATES = """# NAME: what it stands on
low: indexmap
other: low
app: low
burch_dill: app
view staticlib: other
bd_view: app view
"""
# What `rt try` does of all that matters here: it compiles, links, and runs what was linked.
RT = """#!/usr/bin/env bash
shadow=$(dirname "$(dirname "$0")")
[ "$1" = version ] && echo "a kit" && exit
grep -rq fault src && echo "a fault in src" && exit 1
"$shadow/toolchain/bin/clang" -c -O0 -fsanitize=address code
"$shadow/toolchain/bin/ld.lld" --dynamic-linker /lib64/loader -o program code --whole-archive asan --no-whole-archive end
rm program
"""
CLANG = '#!/usr/bin/env bash\necho "$@" > "$WORDS"\n'
LINKER = """#!/usr/bin/env bash
echo "$@" >> "$WORDS"
while [ "$1" != -o ]; do shift; done
printf '#!/bin/sh\\necho linked\\n' > "$2" && chmod +x "$2"
"""


class Quick(unittest.TestCase):
    def setUp(self) -> None:
        made = tempfile.TemporaryDirectory()
        self.addCleanup(made.cleanup)
        self.top, self.kit = Path(made.name) / "top", Path(made.name) / "kit"
        self.words = Path(made.name) / "words"
        for name, text in {"bin/rt": RT, "bin/rtlib.py": "", "bin/rattle": "", "toolchain/bin/clang": CLANG,
                           "toolchain/bin/ld.lld": LINKER, "toolchain/lib/loader": ""}.items():
            self.write(self.kit / name, text)
            (self.kit / name).chmod(0o755)
        (self.top / "tools").mkdir(parents=True)
        shutil.copy(SCRIPT, self.top / "tools")
        self.write(self.top / "crates.txt", CRATES)
        for crate in ("low", "other", "app", "burch_dill", "view", "bd_view"):
            self.write(self.top / "crates" / crate / "src" / "main.rt", crate)

    def write(self, path: Path, text: str) -> None:
        path.parent.mkdir(parents=True, exist_ok=True)
        path.write_text(text, encoding="ascii")

    def quick(self, *words: str) -> tuple[int, str, str]:
        environment = {**os.environ, "PATH": f"{self.kit / 'bin'}:{os.environ['PATH']}", "WORDS": str(self.words)}
        done = subprocess.run([self.top / "tools" / "quick.sh", *words], env=environment, capture_output=True,
                              text=True, check=False)
        return done.returncode, done.stdout, done.stderr

    def made(self) -> set[str]:
        """The programs that are made by a run."""
        status, output, _ = self.quick("--programs")
        self.assertEqual(status, 0)
        lines = [line.split(": ") for line in output.splitlines()[:2]]
        self.assertEqual({name for name, _ in lines}, {"burch_dill", "bd_view"})
        return {name for name, told in lines if told.startswith("made")}

    def test_help_and_other_words(self) -> None:
        status, output, _ = self.quick("--help")
        self.assertEqual((status, output.splitlines()[0][:5]), (0, "Makes"))
        self.assertEqual([self.quick(*words)[0] for words in (["--nothing"], ["--programs", "more"])], [2, 2])

    def test_the_programs_are_left_and_run(self) -> None:
        self.made()
        for name in ("burch_dill", "bd_view"):
            ran = subprocess.run([self.top / "build" / "quick" / name], capture_output=True, text=True, check=True)
            self.assertEqual(ran.stdout, "linked\n")

    def test_what_compiler_and_linker_are_given(self) -> None:
        self.made()
        shutil.rmtree(self.top / "crates" / "bd_view")
        self.write(self.top / "crates" / "burch_dill" / "src" / "main.rt", "another")
        self.quick("--programs")
        compiled, linked = self.words.read_text(encoding="ascii").splitlines()
        self.assertEqual(compiled, "-c -O3 code")
        library = self.kit / "toolchain" / "lib"
        loader = f"{library}/ld-linux-x86-64.so.2"
        self.assertEqual(linked, f"--dynamic-linker {loader} -rpath {library} -o program code end")

    def test_only_a_changed_source_makes_a_program_anew(self) -> None:
        self.assertEqual(self.made(), {"burch_dill", "bd_view"})
        self.assertEqual(self.made(), set())
        self.write(self.top / "crates" / "low" / "proofs" / "Proof.antt", "changed")
        self.assertEqual(self.made(), set())
        self.write(self.top / "crates" / "other" / "src" / "main.rt", "changed")
        self.assertEqual(self.made(), {"bd_view"})
        self.write(self.top / "crates" / "low" / "src" / "new.rt", "")
        self.assertEqual(self.made(), {"burch_dill", "bd_view"})

    def test_a_program_that_cannot_be_made(self) -> None:
        self.made()
        self.write(self.top / "crates" / "bd_view" / "src" / "main.rt", "fault")
        status, output, errors = self.quick("--programs")
        self.assertEqual((status, output), (1, "burch_dill: kept, no source of it has changed\n"))
        self.assertEqual(errors, "a fault in src\nbd_view: can't be made\n")
        self.assertFalse((self.top / "build" / "quick" / "bd_view").exists())


if __name__ == "__main__":
    unittest.main()
