"""What the Python writer writes is, byte for byte, a stored example, and the readouts stored beside them say accepted; and files
merged in Python, by the words of the guide, are the stored ones; and boards worked out in Python give the stored answers and cells."""

import re
import struct
import sys
import unittest
from pathlib import Path

ROOT = Path(__file__).resolve().parent.parent
EXAMPLES = ROOT / "examples"
sys.path.insert(0, str(EXAMPLES))

from writer import ProofFile, day, neg, permit, pos  # noqa: E402


def duty():
    """The trip `duty`, which has a factoring step."""
    file = ProofFile()
    flies, amber, blue, *legs = map(file.symbol, (2, 0, 0, 0, 0, 0))
    app, var = file.app, file.var
    crewed = file.clause(pos(app(flies, app(amber), var(0))), pos(app(flies, app(blue), var(0))))

    def not_both(one, other):
        return file.clause(*(neg(app(flies, var(0), app(legs[leg]))) for leg in (one, other)))

    pair_12, pair_13, pair_23 = not_both(0, 1), not_both(0, 2), not_both(1, 2)
    amber_not_both = file.resolve(crewed, 1, pair_12, 1)
    blue_one_of_12 = file.resolve(crewed, 1, amber_not_both, 2)
    not_13 = file.resolve(blue_one_of_12, 2, pair_13, 1)
    blue_not_3 = file.factor(file.resolve(not_13, 1, pair_23, 1), 1, 2)
    amber_3 = file.resolve(crewed, 2, blue_not_3, 1)
    blue_1 = file.resolve(crewed, 1, file.resolve(amber_3, 1, pair_13, 2), 1)
    blue_2 = file.resolve(crewed, 1, file.resolve(amber_3, 1, pair_23, 2), 1)
    file.resolve(blue_2, 1, file.resolve(blue_1, 1, pair_12, 1), 1)
    return file.bytes


def sheets():
    """The trip `sheets`, whose steps resolve one literal with two."""
    file = ProofFile()
    signs, vale = map(file.symbol, (2, 0))
    x = file.var(0)
    by_x, by_vale = file.app(signs, x, x), file.app(signs, file.app(vale), x)
    signed, not_both = file.clause(pos(by_x), pos(by_vale)), file.clause(neg(by_vale), neg(by_x))
    not_vales_own = file.resolve_several(not_both, 1, signed, 1, 2)
    file.resolve_several(not_vales_own, 1, signed, 1, 2)
    return file.bytes


def season():
    """The trip `season`, whose curfew has days that a later record supersedes."""
    file = ProofFile()
    arrives, closed, night, lakeside, late = map(file.symbol, (2, 2, 1, 0, 0))
    app = file.app
    lakeside, late = app(lakeside), app(late)
    request = file.clause(pos(app(arrives, lakeside, late)))
    x, y = file.var(0), file.var(1)
    rule = file.clause(neg(app(arrives, x, y)), neg(app(closed, x, y)))
    curfew = file.clause(neg(app(night, x)), pos(app(closed, lakeside, x)))
    file.in_force(curfew, day(2027, 6, 1), day(2027, 9, 30))
    at_night = file.clause(pos(app(night, late)))
    not_late = file.resolve(at_night, 1, file.resolve(curfew, 2, rule, 2), 1)
    file.resolve(request, 1, not_late, 1)
    file.in_force(curfew, day(2027, 5, 1), day(2027, 10, 31))
    return file.bytes


def rulebook():
    """The rulebook, whose curfew has days."""
    file = ProofFile()
    arrives, closed, night, lakeside, slot = map(file.symbol, (2, 2, 1, 0, 2))
    app, x, y = file.app, file.var(0), file.var(1)
    file.clause(neg(app(arrives, x, y)), neg(app(closed, x, y)))
    lakeside = app(lakeside)
    curfew = file.clause(neg(app(night, x)), pos(app(closed, lakeside, x)))
    file.in_force(curfew, day(2027, 5, 1), day(2027, 10, 31))
    file.clause(neg(app(arrives, x, y)), pos(app(slot, x, y)))
    return file.bytes


def records(file):
    return [file[start : start + 16] for start in range(0, len(file), 16)]


def merge(first, second):
    """Two files without steps in one, as docs/FORMAT.md says it. Nothing is checked."""

    def count(*kinds):
        return sum(record[0] in kinds for record in records(first))

    symbols, rows, clauses = count(1), count(2, 3), count(4)
    merged = first
    for record in records(second):
        kind, size, *fields = struct.unpack("<BB7H", record)
        if kind == 1:
            symbols -= 1
            if symbols >= 0:
                continue
        elif kind == 3:
            fields[1 : 1 + size] = [row + rows for row in fields[1 : 1 + size]]
        elif kind == 4:
            fields[:size] = [literal + 2 * rows for literal in fields[:size]]
        elif kind == 8:
            fields[0] += clauses
        merged += struct.pack("<BB7H", kind, size, *fields)
    return merged


def fnv(data):
    value = 0xCBF29CE484222325
    for byte in data:
        value = (value ^ byte) * 0x100000001B3 % 2**64
    return f"{value:016x}"


def stored_merges():
    """Each pair of files that is stored in full: its name, the two files, the answer, and length and hash of the merged file."""
    for part in (ROOT / "rust" / "vectors" / "merges.txt").read_text().split("merge ")[1:]:
        name, *lines = part.splitlines()
        found, files = {}, {}
        for line in lines:
            word, *rest = line.split()
            if word == "|":
                files[last] += bytes.fromhex(rest[0])
            else:
                found[word], files[word], last = rest, b"", word
        if all(len(files[which]) == int(found[which][0]) for which in ("first", "second")):
            answer = [int(number) for number in found["answer"]]
            yield name, files["first"], files["second"], answer, found.get("merged")


class Board:
    """A file that stands, on a day, as docs/FORMAT.md says it: worked out anew at each call. Nothing is checked."""

    def __init__(self, day, file):
        self.day, self.clauses, self.days, self.withdrawn = day, [], {}, set()
        for record in records(file):
            kind, size, a, b, c, *_ = struct.unpack("<BB7H", record)
            if kind == 4:
                self.clauses.append((None, size))
            elif kind == 6:
                self.clauses.append(((a,), self.clauses[a][1] - 1))
            elif kind in (5, 7):
                gone = 1 if kind == 5 else size
                self.clauses.append(((a, c), self.clauses[a][1] - 1 + self.clauses[c][1] - gone))
            elif kind == 8:
                self.days[a] = (b, c)
        self.uses, self.children = [], [0] * len(self.clauses)
        for number, (parents, _) in enumerate(self.clauses):
            for parent in parents or ():
                self.children[parent] = number
            self.uses.append({number} if parents is None else set().union(*(self.uses[parent] for parent in parents)))

    def in_force(self, clause):
        first, last = self.days.get(clause, (0, 65535))
        return first <= self.day <= last

    def state(self, uses):
        return 4 + 2 * all(map(self.in_force, uses)) + (not uses & self.withdrawn)

    def cells(self):
        return [8 * child + self.state(uses) for child, uses in zip(self.children, self.uses)]

    def answer(self):
        right = (n for n, cell in enumerate(self.cells()) if cell % 8 == 7 and self.clauses[n][1] == 0)
        clause = next(right, None)
        return [0, 0, 0] if clause is None else [1, clause, 0]

    def call(self, word, clause):
        if clause >= len(self.clauses) or self.clauses[clause][0] is not None:
            return [2, 20, 0]
        if (clause in self.withdrawn) == (word == "withdraw"):
            return [2, 21, 0]
        self.withdrawn ^= {clause}
        return self.answer()


def stored_boards():
    """Each stored board whose file is stored in full: its name, day, file, the cells lent, and its further lines."""
    for part in re.split(r"^board ", (ROOT / "rust" / "vectors" / "boards.txt").read_text(), flags=re.M)[1:]:
        name, day, length, *lines = part.splitlines()
        file = bytes.fromhex("".join(line[2:] for line in lines if line.startswith("| ")))
        lent, *calls = (line.split() for line in lines if not line.startswith("| "))
        if len(file) == int(length.split()[1]):
            yield name, int(day.split()[1]), file, int(lent[1]), calls


class Writer(unittest.TestCase):
    def is_stored(self, name, written, readout=None):
        self.assertEqual(written, (EXAMPLES / f"{name}.proof").read_bytes())
        self.assertTrue((EXAMPLES / f"{readout or name}.txt").read_text().startswith("accepted "))

    def test_permit(self):
        self.is_stored("permit", permit())

    def test_duty(self):
        self.is_stored("duty", duty())

    def test_sheets(self):
        self.is_stored("sheets", sheets())

    def test_season(self):
        self.assertEqual(day(2027, 7, 1), 21000)
        self.is_stored("season", season(), "season-21000")
        self.assertTrue((EXAMPLES / "season.txt").read_text().startswith("open\n"))

    def test_rulebook(self):
        self.assertEqual(rulebook(), (EXAMPLES / "rulebook.proof").read_bytes())

    def test_days_take_no_number(self):
        file = ProofFile()
        first = file.clause()
        self.assertIsNone(file.in_force(first, 258, 65535))
        self.assertEqual(file.bytes[16:], bytes([8, 0, 0, 0, 2, 1, 255, 255]) + bytes(8))
        self.assertEqual((first, file.clause()), (0, 1))

    def test_rows_are_written_once(self):
        file = ProofFile()
        self.assertEqual([file.var(0), file.var(1), file.var(0)], [0, 1, 0])
        self.assertEqual(len(file.bytes), 32)


class Merging(unittest.TestCase):
    def test_rulebook_and_trip(self):
        first, second, merged, declined = (
            (EXAMPLES / f"{name}.proof").read_bytes() for name in ("rulebook", "trip", "merged", "declined")
        )
        self.assertEqual(merge(first, second), merged)
        # The planner's steps come after it, and nothing else does.
        self.assertTrue(declined.startswith(merged))
        self.assertEqual({record[0] for record in records(declined[len(merged) :])}, {5})
        self.assertTrue((EXAMPLES / "declined-21000.txt").read_text().startswith("accepted "))

    def test_stored_merges(self):
        written = 0
        for name, first, second, answer, merged in stored_merges():
            if answer[0] == 0:
                file = merge(first, second)
                self.assertEqual([str(len(file)), fnv(file)], merged, name)
                self.assertEqual(answer, [0, len(file), 0, 0], name)
                written += 1
        self.assertGreater(written, 40)


class Boards(unittest.TestCase):
    def test_stored_boards(self):
        answered = 0
        for name, day, file, lent, lines in stored_boards():
            opened = [int(number) for number in lines[0][1:]]
            if opened[0] == 2 or lent < 4097:
                continue
            board = Board(day, file)
            self.assertEqual(opened, board.answer(), name)
            for word, *rest in lines[1:]:
                if word == "cells":
                    cells = board.cells()
                    self.assertEqual(rest[1:], [str(cell) for cell in cells] if len(cells) <= 40 else [], name)
                    whole = cells + [0] * (4096 - len(cells)) + [day]
                    self.assertEqual(rest[0], fnv(struct.pack("<4097H", *whole)), name)
                else:
                    clause, *answer = map(int, rest)
                    self.assertEqual(answer, board.call(word, clause), f"{name}: {word} {clause}")
                    answered += 1
        self.assertGreater(answered, 400)


if __name__ == "__main__":
    unittest.main()
