"""The programs proofread and proofread_canonical at their edges: only a whole file gets a verdict, and what fails is said on standard error."""

import os
import re
import subprocess
import sys
import tempfile
import tty
import unittest
from pathlib import Path

ROOT = Path(__file__).resolve().parent.parent
CRATES = ROOT / "crates"
FILE = ROOT / "examples" / "permit.proof"
READOUT = (ROOT / "examples" / "permit.txt").read_bytes()


def on_day(day, file):
    """What the program reads: two bytes of day, low byte first, then the file."""
    return day.to_bytes(2, "little") + file


INPUT = on_day(0, FILE.read_bytes())


def by_appearance(readout):
    """The second readout of a first one: in each line the variables numbered from 0 as they appear, without index."""
    lines = []
    for line in readout.splitlines(keepends=True):
        numbers = {}
        lines.append(re.sub(rb"v\d+\.\d+", lambda name: b"v%d" % numbers.setdefault(name[0], len(numbers)), line))
    return b"".join(lines)


class Program(unittest.TestCase):
    """A program, and what it prints of a file whose first readout is known."""

    name = "proofread"

    @staticmethod
    def expected(readout):
        return readout

    @property
    def program(self):
        return CRATES / self.name / "out" / self.name

    def proofread(self, *arguments, given=INPUT):
        """Runs the program on bytes."""
        return subprocess.run([self.program, *arguments], input=given, capture_output=True)

    def in_shell(self, redirections):
        """Runs the program with redirections of the shell's, where $1 names a file with a day and an accepted file."""
        command = f'exec "$0" {redirections}'
        with tempfile.NamedTemporaryFile() as file:
            file.write(INPUT)
            file.flush()
            return subprocess.run(["bash", "-c", command, self.program, file.name], cwd=ROOT, capture_output=True)

    def into_closed_pipe(self, **options):
        """Runs the program with an output that nobody reads."""
        reader, writer = os.pipe()
        os.close(reader)
        try:
            return subprocess.run(
                [self.program], input=INPUT, stdout=writer, stderr=subprocess.PIPE, **options
            )
        finally:
            os.close(writer)

    def says(self, run, what):
        """One line on standard error, which begins with the program's name."""
        self.assertEqual(run.stderr, self.name.encode() + b": " + what + b"\n")


class Input(Program):
    def is_unread(self, run, why):
        """Nothing on standard output, and the reason on standard error."""
        self.assertEqual(run.stdout, b"")
        self.says(run, b"standard input: " + why)

    def test_files_have_their_readouts(self):
        for file in sorted((ROOT / "examples").glob("*.proof")):
            run = self.proofread(given=on_day(0, file.read_bytes()))
            self.assertEqual((run.stdout, run.stderr), (self.expected(file.with_suffix(".txt").read_bytes()), b""), file.name)

    def test_files_have_their_readouts_on_other_days(self):
        stored = sorted((ROOT / "examples").glob("*-*.txt"))
        self.assertTrue(stored)
        for readout in stored:
            name, day = readout.stem.rsplit("-", 1)
            run = self.proofread(given=on_day(int(day), (readout.parent / f"{name}.proof").read_bytes()))
            self.assertEqual((run.stdout, run.stderr), (self.expected(readout.read_bytes()), b""), readout.name)

    def test_both_bytes_of_the_day_count(self):
        # An empty clause that is in force from day 258 to day 513 only.
        clause, window = bytes([4]) + bytes(15), bytes([8, 0, 0, 0, 2, 1, 1, 2]) + bytes(8)
        for day, first in ((1, b"open"), (257, b"open"), (258, b"accepted 0"), (513, b"accepted 0"), (514, b"open")):
            self.assertEqual(self.proofread(given=on_day(day, clause + window)).stdout, first + b"\n0 1\n", day)

    def test_without_a_day_a_file_is_refused(self):
        for given in (b"", b"\0", b"\xff"):
            run = self.proofread(given=given)
            self.assertEqual((run.stdout, run.stderr), (b"refused 1 at 0\n", b""), given)

    def test_an_empty_file_is_open(self):
        for day in (0, 1, 256, 65535):
            run = self.proofread(given=on_day(day, b""))
            self.assertEqual((run.stdout, run.stderr), (b"open\n", b""), day)

    def test_a_day_and_part_of_a_record(self):
        for length in (1, 14, 15, 17):
            self.assertEqual(self.proofread(given=bytes(2 + length)).stdout, b"refused 1 at 0\n", length)

    def test_lengths_about_the_limit(self):
        # A day and 65,536 bytes are read whole; of a longer file, and of one without end, one byte more.
        for day in (0, 65535):
            self.assertEqual(self.proofread(given=on_day(day, bytes(65536))).stdout, b"refused 3 at 0\n")
            self.assertEqual(self.proofread(given=on_day(day, bytes(65537))).stdout, b"refused 1 at 0\n")
            self.assertEqual(self.proofread(given=on_day(day, bytes(65552))).stdout, b"refused 1 at 0\n")
        self.assertEqual(self.in_shell("< /dev/zero").stdout, b"refused 1 at 0\n")

    def test_as_many_windows_as_there_is_room_for(self):
        # The last of 4,095 windows counts, and it is read.
        windows = b"".join(bytes([8, 0, 0, 0]) + 2 * day.to_bytes(2, "little") + bytes(8) for day in range(4095))
        file = bytes([4]) + bytes(15) + windows
        self.assertEqual(len(on_day(0, file)), 65538)
        for day, first in ((4093, b"open"), (4094, b"accepted 0"), (4095, b"open")):
            self.assertEqual(self.proofread(given=on_day(day, file)).stdout, first + b"\n0 1\n", day)

    def test_a_file_in_small_parts(self):
        with subprocess.Popen([self.program], stdin=subprocess.PIPE, stdout=subprocess.PIPE, bufsize=0) as run:
            for byte in INPUT:
                run.stdin.write(bytes([byte]))
            run.stdin.close()
            self.assertEqual(run.stdout.read(), self.expected(READOUT))

    def test_a_directory(self):
        self.is_unread(self.in_shell("< examples"), b"Is a directory")

    def test_a_closed_input(self):
        self.is_unread(self.in_shell("<&-"), b"Bad file descriptor")

    def test_a_read_that_fails_midway(self):
        # The bytes of an accepted file come from a terminal, which then hangs up.
        try:
            ours, theirs = os.openpty()
        except OSError as error:
            self.skipTest(f"no terminal to be had: {error}")
        tty.setraw(theirs)
        os.write(theirs, INPUT)
        os.close(theirs)
        run = subprocess.run([self.program], stdin=ours, capture_output=True)
        os.close(ours)
        self.is_unread(run, b"Input/output error")


class Output(Program):
    def test_a_full_device(self):
        run = self.in_shell('< "$1" > /dev/full')
        self.says(run, b"standard output: No space left on device")

    def test_a_closed_output(self):
        run = self.in_shell('< "$1" >&-')
        self.says(run, b"standard output: Bad file descriptor")

    def test_a_closed_pipe_ends_it_quietly(self):
        # The runtime ignores the signal, so the write fails, and the program stops there.
        run = self.into_closed_pipe()
        self.assertEqual((run.returncode, run.stderr), (0, b""))

    def test_a_closed_pipe_is_quiet_where_the_signal_is_ignored(self):
        run = self.into_closed_pipe(restore_signals=False)
        self.assertEqual((run.returncode, run.stderr), (0, b""))


class Script(unittest.TestCase):
    """The script examples/verdict."""

    def run_script(self, file, day="0", readout=None, program=CRATES / "proofread" / "out" / "proofread"):
        """What the script says, with its exit status, and what it leaves as the readout where an earlier run has left an accepted one."""
        with tempfile.TemporaryDirectory() as folder:
            left = Path(folder, "READOUT")
            left.write_bytes(READOUT)
            environment = {**os.environ, "LC_ALL": "C", "PROOFREAD": str(program)}
            script = [ROOT / "examples" / "verdict", str(file), day, str(readout or left)]
            run = subprocess.run(script, cwd=folder, env=environment, capture_output=True)
            return run.returncode, run.stdout, run.stderr, left.read_bytes()

    def has_no_verdict(self, why, *arguments, **others):
        """The script tells why, and leaves no readout."""
        status, told, errors, readout = self.run_script(*arguments, **others)
        self.assertEqual((status, told, readout), (3, b"", b""))
        self.assertRegex(errors, why)

    def test_files_have_their_verdicts_and_readouts(self):
        for name, day, status in (("permit", 0, 0), ("season", 0, 1), ("season", 21000, 0), ("refused", 0, 2)):
            readout = (ROOT / "examples" / (f"{name}-{day}.txt" if day else f"{name}.txt")).read_bytes()
            first = readout.splitlines(keepends=True)[0]
            run = self.run_script(ROOT / "examples" / f"{name}.proof", str(day))
            self.assertEqual(run, (status, first, b"", readout), name)

    def test_without_a_readout(self):
        run = subprocess.run(["examples/verdict", "examples/permit.proof", "0"], cwd=ROOT, capture_output=True)
        self.assertEqual((run.returncode, run.stdout, run.stderr), (0, READOUT.splitlines(keepends=True)[0], b""))

    def test_days(self):
        # A zero before a number does not make it an octal one. The bytes of some days are blanks, line feeds or signs of printf.
        days = [f"{number}" for number in (0, 9, 10, 32, 37, 92, 255, 256, 2560, 9509, 23644, 65535)]
        for day in [*days, "008", "010", "00037"]:
            number = int(day).to_bytes(2, "little")
            clause, window = bytes([4]) + bytes(15), bytes([8, 0, 0, 0]) + 2 * number + bytes(8)
            with tempfile.NamedTemporaryFile() as file:
                file.write(clause + window)
                file.flush()
                self.assertEqual(self.run_script(file.name, day)[:3], (0, b"accepted 0\n", b""), day)

    def test_an_empty_file_and_one_that_is_too_long(self):
        for length, status, first in ((0, 1, b"open\n"), (65536, 2, b"refused 3 at 0\n"), (65552, 2, b"refused 1 at 0\n")):
            with tempfile.NamedTemporaryFile() as file:
                file.write(bytes(length))
                file.flush()
                self.assertEqual(self.run_script(file.name), (status, first, b"", first), length)
        self.assertEqual(self.run_script("/dev/zero")[:2], (2, b"refused 1 at 0\n"))

    def test_a_missing_file(self):
        self.has_no_verdict(rb"\Ahead: .*missing.proof.*No such file or directory\n\Z", "missing.proof")

    def test_a_directory(self):
        self.has_no_verdict(rb"\Ahead: .*Is a directory\n\Z", ROOT)

    def test_a_read_that_fails(self):
        # The file is there and may be read, but its first page is not.
        self.assertTrue(os.access("/proc/self/mem", os.R_OK))
        self.has_no_verdict(rb"\Ahead: .*Input/output error\n\Z", "/proc/self/mem")

    def test_no_day(self):
        for day in ("65536", "99999", "100000", "-1", "+1", "1.5", "0x10", "day", ""):
            self.has_no_verdict(rb"\Averdict: '.*' is no day: .*\n\Z", FILE, day)

    def test_no_program(self):
        self.has_no_verdict(rb"\Averdict: there is no program 'missing'\n\Z", FILE, program="missing")

    def test_a_program_that_gives_no_verdict(self):
        for text, why in (
            ("", "the program printed no verdict"),
            ("printf accepted", "the program printed no verdict"),
            ("echo accepted", "the program printed 'accepted'"),
            ("echo accepted 0; echo wrong >&2", "wrong"),
            ("echo accepted 0; kill -9 $$", "the program was ended: "),
        ):
            with tempfile.TemporaryDirectory() as folder:
                program = Path(folder, "proofread")
                program.write_text(f"#!/bin/sh\n{text}\n")
                program.chmod(0o755)
                self.has_no_verdict(rf"verdict: {why}\n\Z".encode(), FILE, program=program)

    def test_a_readout_that_cannot_be_kept(self):
        status, told, errors, _ = self.run_script(FILE, readout="/dev/full")
        self.assertEqual((status, told), (3, b""))
        self.assertRegex(errors, rb"No space left on device\n\Z")

    def test_the_file_is_no_place_for_the_readout(self):
        with tempfile.NamedTemporaryFile() as file:
            file.write(FILE.read_bytes())
            file.flush()
            status, told, errors, _ = self.run_script(file.name, readout=file.name)
            self.assertEqual((status, told, Path(file.name).read_bytes()), (3, b"", FILE.read_bytes()))
            self.assertRegex(errors, rb"\Averdict: the readout would overwrite .*\n\Z")


class Guide(Program):
    def test_the_file_that_the_guide_writes(self):
        guide = (ROOT / "docs" / "FORMAT.md").read_text()
        program = guide.split("```python\n")[1].split("```")[0]
        with tempfile.TemporaryDirectory() as folder:
            subprocess.run([sys.executable, "-c", program], cwd=folder, check=True)
            file = Path(folder, "closed.proof").read_bytes()
        for day, first in ((0, b"open"), (20938, b"open"), (20939, b"accepted 2"), (21122, b"accepted 2"), (21123, b"open")):
            self.assertEqual(self.proofread(given=on_day(day, file)).stdout.splitlines()[0], first, day)


class Examples(unittest.TestCase):
    def test_the_rules_that_the_page_compares(self):
        page = (ROOT / "examples" / "README.md").read_text()
        script, after = page.split("```bash\n")[1].split("```\n", 1)
        lines = [line.strip() for line in after.splitlines() if line.startswith("    ")]
        run = subprocess.run(["bash", "-c", script], cwd=ROOT, capture_output=True, text=True)
        self.assertEqual((run.stdout.splitlines(), run.stderr), (lines[:3], ""))


class Arguments(Program):
    def test_an_argument_gets_the_usage(self):
        for arguments in (["examples/permit.proof"], ["--help"], [""], ["a", "b"]):
            run = self.proofread(*arguments)
            self.assertEqual(run.stdout, b"")
            self.assertRegex(run.stderr.decode(), rf"\A{self.name} takes no arguments.*: {self.name} < .*\n\Z")


class Canonical(Program):
    """The same of the second readout."""

    name = "proofread_canonical"

    @staticmethod
    def expected(readout):
        return by_appearance(readout)


class CanonicalInput(Canonical, Input):
    pass


class CanonicalOutput(Canonical, Output):
    pass


class CanonicalArguments(Canonical, Arguments):
    pass


if __name__ == "__main__":
    unittest.main()
