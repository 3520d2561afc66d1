"""A writer of proof files, and the trip `permit` written with it. Copy it to begin a planner's own.

    python3 examples/writer.py > permit.proof

docs/FORMAT.md explains the records, and has this file byte by byte.
"""

import struct
import sys
from datetime import date
from itertools import count


def day(year, month, of_month):
    """The number of a date, where day 0 is 1 January 1970: take another if your desk does."""
    return (date(year, month, of_month) - date(1970, 1, 1)).days


def pos(row):
    return 2 * row + 1


def neg(row):
    return 2 * row


class ProofFile:
    """Each method but the last returns the number that names what it has written. Nothing is checked: that is the checker's work."""

    def __init__(self):
        self.bytes = b""
        self.symbols, self.rows, self.clauses = count(), count(), count()
        self.known_rows = {}

    def symbol(self, arity):
        return self._write(self.symbols, 1, arity)

    def var(self, number):
        return self._row(2, 0, number)

    def app(self, symbol, *arguments):
        return self._row(3, len(arguments), symbol, *arguments)

    def clause(self, *literals):
        return self._write(self.clauses, 4, len(literals), *literals)

    def resolve(self, left, left_literal, right, right_literal):
        return self._write(self.clauses, 5, 0, left, left_literal, right, right_literal)

    def factor(self, clause, kept, deleted):
        return self._write(self.clauses, 6, 0, clause, kept, deleted)

    def resolve_several(self, left, left_literal, right, *right_literals):
        return self._write(self.clauses, 7, len(right_literals), left, left_literal, right, *right_literals)

    def in_force(self, clause, first_day, last_day):
        # No clause and without a number; a later one for the same input clause supersedes it.
        self._record(8, 0, clause, first_day, last_day)

    def _row(self, *record):
        # A row is written once and then named by its number, which saves the records of repeats.
        if record not in self.known_rows:
            self.known_rows[record] = self._write(self.rows, *record)
        return self.known_rows[record]

    def _write(self, numbers, *record):
        self._record(*record)
        return next(numbers)

    def _record(self, kind, size, *fields):
        # Sixteen bytes, low bytes first; the fields that a kind does not use are zero.
        self.bytes += struct.pack("<BB7H", kind, size, *fields, *[0] * (7 - len(fields)))


def permit():
    """Two routes, both over a state that has given no overflight permit."""
    file = ProofFile()
    flown, crosses, permitted, north, coast, norland = map(file.symbol, (1, 2, 1, 0, 0, 0))
    app, var = file.app, file.var

    # Input clauses: the request, the operator's rule, the routes, the permit that is missing.
    routes = file.clause(pos(app(flown, app(north))), pos(app(flown, app(coast))))
    rule = file.clause(neg(app(flown, var(0))), neg(app(crosses, var(0), var(1))), pos(app(permitted, var(1))))
    north_over = file.clause(pos(app(crosses, app(north), app(norland))))
    coast_over = file.clause(pos(app(crosses, app(coast), app(norland))))
    none = file.clause(neg(app(permitted, app(norland))))

    # Steps. The clause `not_over` is derived once and used for both routes.
    not_over = file.resolve(rule, 3, none, 1)
    not_north = file.resolve(north_over, 1, not_over, 2)
    not_coast = file.resolve(coast_over, 1, not_over, 2)
    only_coast = file.resolve(routes, 1, not_north, 1)
    file.resolve(only_coast, 1, not_coast, 1)
    return file.bytes


if __name__ == "__main__":
    sys.stdout.buffer.write(permit())
