"""The command `try`: what it cannot try it names in a sentence, with exit status 2."""

import os
import subprocess
import tempfile
import unittest
from pathlib import Path

ROOT = Path(__file__).resolve().parent.parent


# What `rt run` comes to in a program's folder, where the program has been proved and built.
RUN = '[ "$*" = run ] && exec "out/$(basename "$PWD")"'


def attempt(*arguments, toolchain=RUN):
    """Runs `try` with a stand-in for the toolchain's command."""
    with tempfile.TemporaryDirectory() as folder:
        rt = Path(folder, "rt")
        rt.write_text(f"#!/bin/sh\n{toolchain}\n")
        rt.chmod(0o755)
        path = f"{folder}:{os.environ['PATH']}"
        return subprocess.run(
            [ROOT / "try", *arguments], cwd=ROOT, env={**os.environ, "PATH": path}, capture_output=True, text=True
        )


class Try(unittest.TestCase):
    def is_refused(self, run, sentence):
        self.assertEqual((run.returncode, run.stdout), (2, ""))
        self.assertEqual(run.stderr, f"try: {sentence}\n")

    def test_help(self):
        for word in ("--help", "-h"):
            self.is_refused(
                attempt(word),
                "./try [FILE [DAY]] prints the readout of a proof file, and of examples/curfew.proof where none is named, "
                "on a day or on day 0",
            )

    def test_a_directory(self):
        self.is_refused(attempt("examples"), "'examples' is a directory, not a proof file")

    def test_a_missing_file(self):
        self.is_refused(attempt("missing.proof"), "there is no file 'missing.proof'")

    def test_a_read_that_fails(self):
        # The file is there and may be read, but its first page is not: a day alone would be open.
        run = attempt(f"/proc/{os.getpid()}/mem")
        self.assertEqual((run.returncode, run.stdout), (1, ""))
        self.assertRegex(run.stderr, r"\Ahead: .*/mem.*\n\Z")

    def test_two_files(self):
        self.is_refused(attempt("README.md", "README.md"), "'README.md' is no day: days are numbered from 0 to 65535")
        self.is_refused(attempt("README.md", "0", "0"), "one file at a time, on one day: ./try [FILE [DAY]]")

    def test_no_day(self):
        for word in ("", "x", "-1", "+1", "1.5", "1 2", "0x10", "65536", "99999", "100000", "99999999999999999999"):
            run = attempt("examples/season.proof", word)
            self.is_refused(run, f"'{word}' is no day: days are numbered from 0 to 65535")

    def test_a_day(self):
        # The season is from day 20939 to day 21122; a zero before a number does not make it an octal one.
        for day, first in (
            ("0", "open"),
            ("20938", "open"),
            ("20939", "accepted 6"),
            ("21122", "accepted 6"),
            ("21123", "open"),
            ("008", "open"),
            ("65535", "open"),
        ):
            run = attempt("examples/season.proof", day)
            self.assertEqual((run.returncode, run.stdout.splitlines()[0]), (0, first), day)

    def test_a_file_that_is_too_long(self):
        with tempfile.NamedTemporaryFile() as file:
            file.write(bytes(200000))
            file.flush()
            self.assertEqual(attempt(file.name).stdout, "refused 1 at 0\n")

    def test_a_file(self):
        for arguments, readout in (
            ([], "curfew.txt"),
            (["examples/duty.proof"], "duty.txt"),
            (["examples/season.proof"], "season.txt"),
            (["examples/season.proof", "21000"], "season-21000.txt"),
        ):
            run = attempt(*arguments)
            self.assertEqual(run.stdout, (ROOT / "examples" / readout).read_text())
            self.assertEqual(run.returncode, 0)

    def test_what_is_not_proved_is_not_run(self):
        run = attempt(toolchain="exit 1")
        self.assertEqual((run.returncode, run.stdout), (1, ""))


if __name__ == "__main__":
    unittest.main()
