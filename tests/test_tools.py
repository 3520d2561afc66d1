"""The tools for whoever proves, tools/prove and tools/try-edits, with a stand-in for the toolchain's command."""

import os
import shutil
import subprocess
import tempfile
import unittest
from pathlib import Path

ROOT = Path(__file__).resolve().parent.parent


# The crate whose proofs are looked at, its proof that docs/PROVING.md shows, and two proofs more.
CRATE, SHOWN, OTHER, THIRD = "day_table", "put_windows", "put_always", "put_days"


class Folder:
    """A repository with two crates, CRATE and `tables`, copies of ours, and a stand-in for `rt`."""

    def __enter__(self):
        self.folder = tempfile.TemporaryDirectory()
        self.top = Path(self.folder.name)
        shutil.copytree(ROOT / "tools", self.top / "tools")
        for crate in (CRATE, "tables"):
            shutil.copytree(ROOT / "crates" / crate, self.top / "crates" / crate)
        (self.top / "crates.txt").write_text(f"tables:\n{CRATE}:\n")
        return self

    def __exit__(self, *_):
        self.folder.cleanup()

    def run(self, tool, *arguments, rt="exit 0"):
        command = self.top / "commands" / "rt"
        command.parent.mkdir(exist_ok=True)
        command.write_text(f"#!/bin/sh\n{rt}\n")
        command.chmod(0o755)
        environment = {**os.environ, "PATH": f"{command.parent}:{os.environ['PATH']}", "WORK": str(self.top / "work")}
        return subprocess.run(
            [self.top / "tools" / tool, *arguments], cwd=self.top, env=environment, capture_output=True, text=True
        )

    def proof(self, name):
        return self.top / "crates" / CRATE / "proofs" / name / "Answers.antt"

    def answers(self, name):
        return self.top / "work" / CRATE / "answers" / name / "Answers.antt"


class Prove(unittest.TestCase):
    def test_usage(self):
        with Folder() as folder:
            for arguments in ([], ["mend"], ["other", CRATE]):
                run = folder.run("prove", *arguments)
                self.assertEqual((run.returncode, run.stdout), (1, ""))
                self.assertIn("tools/prove start CRATE FN", run.stderr)

    def test_answers_are_those_of_the_page(self):
        page = (ROOT / "docs" / "PROVING.md").read_text()
        shown = page.split(f"that of `{SHOWN}` in the crate {CRATE}:\n\n")[1].split("\n\n- ")[0]
        with Folder() as folder:
            self.assertEqual(folder.run("prove", "answers", CRATE, SHOWN).returncode, 0)
            answers = folder.answers(SHOWN)
            lines = iter("\n".join(file.read_text() for file in (answers.with_name("Invariants.antt"), answers)).splitlines())
            # The page leaves some out, and the order stays.
            for line in filter(str.strip, shown.splitlines()):
                self.assertIn(line.strip(), map(str.strip, lines))

    def test_a_wrong_name_mends_nothing(self):
        with Folder() as folder:
            run = folder.run("prove", "mend", CRATE, SHOWN, "wrong")
            self.assertEqual((run.returncode, run.stderr), (1, f"0 proof files of wrong in {CRATE}\n"))
            self.assertTrue(folder.proof(SHOWN).exists())

    def test_mending_keeps_the_answers(self):
        with Folder() as folder:
            run = folder.run("prove", "mend", CRATE, SHOWN, OTHER)
            self.assertEqual((run.returncode, run.stdout), (0, f"offered: \nnot offered: {SHOWN} {OTHER}\n"))
            for name in (SHOWN, OTHER):
                self.assertFalse(folder.proof(name).exists())
                self.assertTrue(folder.answers(name).exists())
            self.assertIn("\nloop-k-preserved c =\n", folder.answers(SHOWN).read_text())
            self.assertTrue(folder.answers(SHOWN).with_name("Invariants.antt").exists())
            self.assertTrue(folder.proof(THIRD).exists())

    def test_errors_are_shortened(self):
        log = "echo 'error: c .before .before .before .before .x'; echo note: none; echo logic=proved"
        with Folder() as folder:
            run = folder.run("prove", "check", CRATE, rt=log)
            self.assertEqual(run.stdout, "error: c .B4 .x\nlogic=proved\n")


class TryEdits(unittest.TestCase):
    RT = """[ "$1 $2" = "must-fail tables" ] || exit 1
echo "rt: another line"
for edit in crates/tables/must-fail/*.edit; do
    echo "rt: must-fail tables/$(basename "$edit"): refused, as it must be: error: it does not hold"
done"""

    def tried(self, *edits):
        with Folder() as folder:
            run = folder.run("try-edits", "tables", *edits, rt=self.RT)
            self.assertEqual(run.returncode, 0, run.stderr)
            return run.stdout

    def told(self, edits):
        return "".join(f"rt: must-fail tables/{edit}.edit: refused, as it must be: error: it does not hold\n" for edit in edits)

    def test_all_edits_of_a_crate(self):
        edits = sorted(edit.stem for edit in (ROOT / "crates" / "tables" / "must-fail").glob("*.edit"))
        self.assertGreater(len(edits), 1)
        self.assertEqual(self.tried(), self.told(edits))

    def test_one_edit(self):
        self.assertEqual(self.tried("code_clears_to_one"), self.told(["code_clears_to_one"]))

    def test_an_edit_that_is_not_there(self):
        with Folder() as folder:
            self.assertNotEqual(folder.run("try-edits", "tables", "missing", rt=self.RT).returncode, 0)

    def test_usage(self):
        with Folder() as folder:
            run = folder.run("try-edits")
            self.assertEqual((run.returncode, run.stdout), (2, ""))
            self.assertIn("tools/try-edits CRATE [EDIT..]", run.stderr)


if __name__ == "__main__":
    unittest.main()
