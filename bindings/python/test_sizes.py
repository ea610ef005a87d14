#!/usr/bin/env python3
"""Tests one large statement of the STARK.

Its trace has 2^14 rows of 40 columns, its AIR 20 periodic columns, 5,000 nodes, 5,000 public values
and a constraint of degree 33, so the quotient has 2^5 chunks. The rows are computed here, and
examples/verify_stark.py reads the AIR.
"""

import dataclasses
import itertools
import random
import unittest

import stand_in

import circle
from circle import stark

P = 2**31 - 1
LOG_N, WIDTH, PERIODIC = 14, 40, 20
NODES = PUBLIC_VALUES = 5000
DEGREE = 32
# How many public values the first row's constraint reads, which makes the AIR as many nodes.
READ = 2407
PARAMS = circle.Params(log_blowup=1, num_queries=20)
needs_library = unittest.skipIf(stand_in.library_fault(), stand_in.library_fault() or "")


def periodic_columns(rng):
    """Columns of 1 to 2^14 entries."""
    lengths = [2 ** (i % (LOG_N + 1)) for i in range(PERIODIC)]
    return [[rng.randrange(P) for _ in range(length)] for length in lengths]


def large_air(periodic):
    """A row later, the first column is a power of the last but one with a periodic entry added,
    each of the others that before it with one added, and the last its cube. It begins with the sum
    of public values."""
    air = circle.Air(columns=WIDTH, public_values=PUBLIC_VALUES)
    entries = [air.periodic(column) for column in periodic]
    *state, last = air.columns
    sums = [one + entry for one, entry in zip(state, itertools.cycle(entries))]
    air.transition.assert_eq(air.next_columns[0], sums[-1] ** DEGREE, "the power")
    for column, one in zip(air.next_columns[1:], sums[:-1]):
        air.transition.assert_eq(column, one)
    air.transition.assert_eq(air.next_columns[-1], last**3)
    air.first_row.assert_eq(last, sum(air.public_values[1:READ], air.public_values[0]), "the sum")
    return air


def rows_of(rng, periodic, public_values):
    """The rows that satisfy the AIR."""
    row = [rng.randrange(P) for _ in range(WIDTH - 1)] + [sum(public_values[:READ]) % P]
    for number in range(2**LOG_N):
        yield row
        entries = itertools.cycle(column[number % len(column)] for column in periodic)
        sums = [(one + entry) % P for one, entry in zip(row[:-1], entries)]
        row = [pow(sums[-1], DEGREE, P), *sums[:-1], pow(row[-1], 3, P)]


def large():
    """The statement and its rows."""
    rng = random.Random(0)
    periodic = periodic_columns(rng)
    public_values = [rng.randrange(P) for _ in range(PUBLIC_VALUES)]
    rows = list(rows_of(rng, periodic, public_values))
    return stark.Statement(large_air(periodic), LOG_N, public_values, PARAMS), rows


class Sizes(unittest.TestCase):
    def test_statement(self):
        air = stand_in.verify_stark.read(stand_in.verify_stark.AIR, large()[0].air.to_value())
        degrees = []
        refusals = stand_in.verify_stark.air_refusals(air, degrees)
        self.assertEqual([name for name, applies in refusals if applies], [])
        self.assertEqual(len(air["nodes"]), NODES)
        self.assertEqual(len(air["periodic_columns"]), PERIODIC)
        self.assertEqual(stand_in.verify_stark.log_chunks(air, degrees), 5)

    @needs_library
    def test_proof(self):
        statement, rows = large()
        proof = stark.prove(statement, rows)
        self.assertEqual(len(proof.opened_values.quotient_chunks), 2**5)
        stark.verify(statement, proof)
        for place in (0, PUBLIC_VALUES - 1):
            others = list(statement.public_values)
            others[place] = (others[place] + 1) % P
            with self.assertRaises(circle.Refused):
                stark.verify(dataclasses.replace(statement, public_values=others), proof)

    @needs_library
    def test_violation_at_the_end(self):
        statement, rows = large()
        rows[-1][0] = (rows[-1][0] + 1) % P
        with self.assertRaises(circle.Unsatisfied) as told:
            stark.check(statement.air, rows, statement.public_values)
        found = told.exception
        self.assertEqual((found.row, found.constraint_name), (2**LOG_N - 2, "the power"))


if __name__ == "__main__":
    unittest.main()
