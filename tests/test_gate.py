"""The gate, .ci/run, with stand-ins for its parts: whatever fails, the log of the proofs is shown and the last line names it."""

import os
import shutil
import subprocess
import sys
import tempfile
import unittest
from pathlib import Path

ROOT = Path(__file__).resolve().parent.parent
PROVED = "echo rt: checker_c proved"


def script(path, text):
    path.parent.mkdir(parents=True, exist_ok=True)
    path.write_text(f"#!/bin/sh\n{text}\n")
    path.chmod(0o755)


def commands_without_python(folder):
    """Fills a folder with links to all commands but Python's."""
    for place in os.get_exec_path():
        for command in Path(place).glob("*"):
            link = folder / command.name
            if not command.name.startswith("python") and not link.exists():
                link.symlink_to(command)
    return str(folder)


def gate(
    rt=f"{PROVED}; echo rt: ok; echo 3 passed, 0 failed", rust="echo Rust log", comparison="exit 0", python="True", installing=None
):
    """Runs the gate in a folder where every part is a stand-in; with `installing`, which stands in for `apt-get`, without Python."""
    with tempfile.TemporaryDirectory() as folder:
        top = Path(folder)
        shutil.copytree(ROOT / ".ci", top / ".ci")
        for name in ("crates", "docs", "examples", "rust", "target", "tests"):
            (top / name).mkdir()
        for name in ("README.md", "crates.txt"):
            (top / name).touch()
        (top / "tests" / "test_it.py").write_text(
            f"import unittest\nclass It(unittest.TestCase):\n    def test_it(self):\n        self.assertTrue({python})\n"
        )
        script(top / "rust" / "test.sh", rust)
        script(top / "rust" / "comparison" / "test.sh", comparison)
        script(top / "commands" / "rt", f"echo log of the proofs\n{rt}")
        path = f"{top / 'commands'}:{os.environ['PATH']}"
        if installing is not None:
            script(top / "commands" / "apt-get", f'echo "installing: $*"\n{installing}')
            path = commands_without_python(top / "commands")
        return subprocess.run(
            [shutil.which("bash"), top / ".ci" / "run"], env={**os.environ, "PATH": path}, capture_output=True, text=True
        )


class Gate(unittest.TestCase):
    def ends(self, run, status, last):
        self.assertEqual(run.returncode, status)
        self.assertEqual(run.stdout.splitlines()[-1], last)
        self.assertIn("log of the proofs\n", run.stdout)
        self.assertIn("Rust log\n", run.stdout)

    def test_all_is_well(self):
        self.ends(gate(), 0, "3 passed, 0 failed")

    def test_a_failed_rust_test(self):
        self.ends(gate(rust="echo Rust log; exit 101"), 1, "failed: the Rust tests")
        self.ends(gate(comparison="exit 1"), 1, "failed: the Rust tests")

    def test_a_failed_must_fail_edit_or_program(self):
        self.ends(gate(rt=f"{PROVED}; echo 2 passed, 1 failed; exit 1"), 1, "failed: the proofs")

    def test_proofs_and_edits_that_were_kept(self):
        kept = "echo rt: checker_c is kept: an earlier run proved it; echo 'rt: ok; must-fail edits: 467 refused; done in this run: 0'"
        self.ends(gate(rt=f"{kept}; echo 3 passed, 0 failed"), 0, "3 passed, 0 failed")

    def test_a_bad_must_fail_edit(self):
        for told in ("467 refused, 2 bad", "467 refused, 3 of them only by a limit, 12 bad"):
            ok = f"echo 'rt: ok; handles allowed: none; must-fail edits: {told}; every proof and must-fail edit was done in this run'"
            run = gate(rt=f"{PROVED}; {ok}; echo 3 passed, 0 failed")
            self.ends(run, 1, "failed: must-fail edits that are bad")

    def test_a_last_line_without_a_count(self):
        self.ends(gate(rt=f"{PROVED}; echo 3 passed, 0 failed; echo more"), 1, "failed: the proofs")

    def test_plain_proofs_in_the_clone_as_it_stands(self):
        # `rt` gets the one word `ci`, at the top, where everything still lies that lay there, and nothing on standard input.
        here = '[ "$*" = ci ] && [ -d target ] && [ -f crates.txt ] && [ -d .ci ] && ! read -r line'
        self.ends(gate(rt=f"{here} || exit 1; {PROVED}; echo 3 passed, 0 failed"), 0, "3 passed, 0 failed")

    def test_proofs_that_end_early(self):
        for early in ("exit 2", "echo 0 passed, 1 failed; exit 1", "exit 0"):
            self.ends(gate(rt=early), 1, "failed: the Rust tests, the proofs")

    def test_a_failed_python_test(self):
        run = gate(python="False")
        self.ends(run, 1, "failed: the Python tests")
        self.assertIn("FAILED (failures=1)", run.stderr)

    def test_python_is_installed_first(self):
        run = gate(installing=f'[ "$1" = update ] || ln -s {sys.executable} "$(dirname "$0")/python3"')
        self.ends(run, 0, "3 passed, 0 failed")
        self.assertTrue(run.stdout.startswith("installing: update\ninstalling: install --yes python3\n"))

    def test_python_cannot_be_installed(self):
        run = gate(installing="exit 100")
        self.assertEqual(run.stdout, "installing: update\nfailed: Python 3 is missing and cannot be installed\n")
        self.assertEqual(run.returncode, 1)

    def test_everything_fails(self):
        run = gate(rt="exit 1", rust="echo Rust log; exit 1", python="False")
        self.ends(run, 1, "failed: the Rust tests, the proofs, the Python tests")


if __name__ == "__main__":
    unittest.main()
