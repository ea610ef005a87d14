#!/usr/bin/env python3
"""Tests of the calculator of bits, on the tables of docs/SECURITY.md."""

import itertools
import json
import os
import re
import subprocess
import unittest
from fractions import Fraction
from math import log2

import test_circle as given

import circle

PAGE = (given.TOP / "docs" / "SECURITY.md").read_text()


def table(head):
    """The rows of the page's table whose first line begins so, as cells."""
    lines = PAGE[PAGE.index(f"\n{head}") + 1 :].split("\n")
    rows = itertools.takewhile(lambda line: line.startswith("|"), lines[2:])
    return [[cell.strip() for cell in row.strip("|").split("|")] for row in rows]


def params(blowup, queries=2, work=0):
    return circle.Params(log_blowup=blowup, num_queries=queries, query_pow_bits=work)


def least(level, due):
    """The least number of queries that leave `due` bits."""
    return next(s for s in itertools.count(1) if level(s).queries >= due)


class Tables(unittest.TestCase):
    def test_queries_for_80_bits(self):
        rows = table("| `log_blowup` | conjectured, w = 0")
        self.assertEqual(len(rows), 4)
        for row in rows:
            blowup, *due = map(int, row)
            kinds = itertools.product(("conjectured", "unique_decoding"), (0, 20))
            for (kind, work), queries in zip(kinds, due):
                found = least(
                    lambda s: getattr(circle.bits(params(blowup, s, work), 8, 1, m=3), kind), 81
                )
                self.assertEqual(found, queries, (blowup, kind, work))

    def test_the_highest_level_that_the_field_allows(self):
        rows = table("| h | conjectured | unique, k = 2 |")
        self.assertEqual(len(rows), 6)
        for height, *due in rows:
            one, many = (circle.bits(params(1), int(height) - 1, it, m=3) for it in (1, 100))
            levels = one.conjectured, one.unique_decoding, many.unique_decoding, one.johnson
            self.assertEqual([f"{level.field - 1:.1f}" for level in levels], due)

    def test_larger_extensions(self):
        rows = table("| Bits | conjectured: `log2 q`, d, s |")
        self.assertEqual(len(rows), 2)
        for row in rows:
            level = int(row[0])
            for kind, cell in zip(("conjectured", "unique_decoding", "johnson"), row[1:]):
                field, degree, queries = map(float, cell.split(","))
                # The field bits by which the field leaves one more than the level.
                found = circle.bits(params(1), 20, 100, field_bits=0.0, m=3)
                needed = level + 1 - getattr(found, kind).field
                self.assertEqual((f"{needed:.1f}", -(-needed // 31)), (f"{field:.1f}", degree))
                found = least(
                    lambda s: getattr(circle.bits(params(1, s), 20, 100, m=3), kind), level + 1
                )
                self.assertEqual(found, queries, (level, kind))

    def test_levels_that_the_page_names(self):
        told = re.search(
            r"The 40 queries of `circle_example`, at B = 1 and w = 8, are (\d+) bits conjectured "
            r"and (\d+) within unique decoding.*? `two_heights`, .*? has at most (\d+) bits\.",
            " ".join(PAGE.split()),
        )
        levels = circle.bits(params(1, 40, 8), 6, 3)
        several = circle.bits(params(1, 40), 4, 2, other_log_n=[2])
        found = [levels.conjectured.bits, levels.unique_decoding.queries - 1, several.at_most]
        self.assertEqual([int(it) for it in found], [int(it) for it in told.groups()])

    def test_what_a_query_counts_at_several_heights(self):
        rows = table("| `log_blowup` | one height, conjectured")
        self.assertEqual([row[0] for row in rows], ["1", "2", "3", "4", "more"])
        for blowup, conjectured, *cells in rows[:4]:
            self.assertEqual(blowup, conjectured)
            for gap, cell in enumerate(cells, 1):
                share, each = cell.split(", ")
                found = circle.bits(
                    params(int(blowup)), 20, 1, other_log_n=[20 - gap], field_bits=1000.0
                )
                self.assertAlmostEqual(found.each, -log2(Fraction(share)), delta=1e-4)
                self.assertEqual(f"{found.each:.3f}", each)
        for blowup, gap in itertools.product((5, 8, 15), (1, 2)):
            found = circle.bits(params(blowup), 14, 1, other_log_n=[14 - gap])
            self.assertTrue(1.5 < found.each <= 2)

    def test_what_a_query_counts_by_the_theorem_on_complete_groups(self):
        text = " ".join(PAGE.split())
        told = re.search(r"B from 1 to 4 it gives ([\d., and]+) bits a query at r = 1, and ([^a-z]+ "
                         r"and [\d.]+) at r = 2", text)
        for r, numbers in enumerate(told.groups(), 1):
            found = [-log2(1 - (1 - 2.0**-b) / 2 ** (r + 2)) for b in (1, 2, 3, 4)]
            self.assertEqual(re.findall(r"\d\.\d+", numbers), [f"{it:.3f}" for it in found])


class SeveralHeights(unittest.TestCase):
    def several(self, given, log_n, *others):
        found = circle.bits(given, log_n, 1, other_log_n=others)
        self.assertIsInstance(found, circle.SeveralHeights)
        return found

    def test_one_height_has_levels(self):
        for others in ([], [5], [5, 5]):
            found = circle.bits(params(1, 40), 5, 1, other_log_n=others)
            self.assertEqual(found, circle.bits(params(1, 40), 5, 1))

    def test_the_order_of_heights_makes_no_difference(self):
        for heights in itertools.permutations((3, 4, 9)):
            self.assertEqual(self.several(params(3, 40), *heights).each, -log2(3 / 8 + 2**-7))

    def test_the_nearest_heights_count(self):
        far, near = (self.several(params(2, 40), 9, it) for it in (4, 8))
        self.assertEqual((far.each, near.each), (-log2(1 / 4 + 2**-6), 1.0))
        self.assertEqual(self.several(params(2, 40), 9, 4, 8).each, near.each)

    def test_work_and_field(self):
        self.assertEqual(self.several(params(2, 40, 7), 9, 8).at_most, 47.0)
        self.assertEqual(self.several(params(2, 400), 9, 8).at_most, 93.0 - 11)
        # One query is free.
        self.assertEqual(self.several(params(2, 1, 7), 9, 8).at_most, 7.0)

    def test_a_blowup_hardly_helps(self):
        for blowup, gap in itertools.product(range(1, 20), (1, 2)):
            self.assertLessEqual(self.several(params(blowup), 9, 9 - gap).each, 2)

    def test_what_the_forged_proof_costs(self):
        """41 of its 128 positions pass."""
        found = circle.bits(params(4, 3), 3, 1, other_log_n=[2])
        self.assertAlmostEqual(found.at_most, 3 * log2(128 / 41))

    def test_heights_that_have_no_bits(self):
        for log_n in (-1, 30):
            self.assertRaises(ValueError, circle.bits, params(1), 4, 1, other_log_n=[log_n])


class Levels(unittest.TestCase):
    def test_a_level_is_at_most_what_queries_and_field_leave(self):
        for queries, height, values in itertools.product((2, 40, 400), (2, 12, 29), (1, 100)):
            found = circle.bits(params(1, queries), height, values)
            for level in (found.conjectured, found.unique_decoding, found.johnson):
                self.assertLessEqual(level.bits, min(level.queries, level.field))

    def test_m_gives_most(self):
        most = circle.bits(params(1, 200), 8, 1)
        for m in (3, 4, 10, 100, most.m - 1, most.m + 1):
            if m >= 3:
                level = circle.bits(params(1, 200), 8, 1, m=m).johnson
                self.assertLessEqual(level.bits, most.johnson.bits)

    def test_what_has_no_bits(self):
        none = (params(1, 0), 4, 1), (params(0), 4, 1), (params(1), 4, 0)
        for wrong in (*none, (params(1), -1, 1), (params(1), 30, 1)):
            self.assertRaises(ValueError, circle.bits, *wrong)
        self.assertRaises(ValueError, circle.bits, params(1), 4, 1, m=2)


class Script(unittest.TestCase):
    def answer(self, text, *words):
        """The line of bin/circle_bits and its status, where the library isn't found."""
        where = {**os.environ, "CIRCLE_LIBRARIES": "nowhere"}
        how = {"input": text, "capture_output": True, "text": True, "env": where}
        ran = subprocess.run([given.TOP / "bin" / "circle_bits", *words], check=False, **how)
        return ran.stdout and json.loads(ran.stdout), ran.returncode

    def test_of_claims(self):
        found, status = self.answer(given.stored("eight_sevens_two_coefficients", "verify"))
        (levels,) = found.pop("heights")
        self.assertEqual((found, status, levels["log_height"], levels["values"]), ({}, 0, 4, 1))

    def test_of_claims_of_two_heights(self):
        found, status = self.answer(given.stored("two_heights", "verify"))
        self.assertEqual(([it["log_height"] for it in found["heights"]], status), ([3, 5], 0))
        for it in found["heights"]:
            self.assertEqual(it.keys(), {"in_a_run_of_its_own", "log_height", "values"})
            levels = it["in_a_run_of_its_own"]
            self.assertEqual((levels["conjectured"], levels["unique_decoding"]), (38.0, 16.1))
        self.assertEqual(found["several_heights"]["at_most"], 31.1)
        self.assertIn("open each in a run of its own", found["several_heights"]["note"])

    def test_of_a_proof_that_is_forged_at_two_heights(self):
        """It is accepted, as the case of the same name requires, and worth next to nothing."""
        text = (given.DATA / "forged_at_two_heights.verify.json").read_text()
        cases = json.loads((given.DATA / "forged.json").read_text())["cases"]
        (case,) = (it for it in cases if "free siblings" in it["name"])
        self.assertEqual(case["given"], {"file": "forged_at_two_heights.verify.json"})
        self.assertEqual(case["due"], {"line": {"verified": True}, "status": 0})
        found, status = self.answer(text)
        self.assertEqual((found["several_heights"]["at_most"], status), (4.9, 0))
        self.assertTrue(all("conjectured" not in it for it in found["heights"]))

    def test_of_a_shape(self):
        value = {"log_max_height": 12, "opened_widths": [[[1, 2], [3]], [[4]]]}
        value["params"] = {**given.SEVENS, "num_queries": 82}
        (found,), status = self.answer(json.dumps(value))[0]["heights"], 0
        due = circle.bits(params(1, 82), 11, 10)
        self.assertEqual((found["log_height"], found["values"], status), (12, 10, 0))
        self.assertEqual(found["conjectured"], 80.0)
        for kind in ("unique_decoding", "johnson"):
            self.assertAlmostEqual(found[kind], getattr(due, kind).bits - 0.05, delta=0.05001)

    def test_refusals(self):
        for change, name in (
            ({"num_queries": 0}, "ZeroQueries"),
            ({"log_blowup": 0}, "ZeroBlowup"),
            ({"log_blowup": 29}, "GlobalMaxHeightTooLarge"),
        ):
            value = json.loads(given.stored("sevens", "verify"))
            value["params"].update(change)
            self.assertEqual(self.answer(json.dumps(value)), ({"refused": name}, 1))
        value = {"batches": [], "params": given.SEVENS}
        self.assertEqual(self.answer(json.dumps(value)), ({"refused": "NoCommittedMatrices"}, 1))
        value = {"log_max_height": 0, "opened_widths": [[[1]]], "params": given.SEVENS}
        self.assertEqual(self.answer(json.dumps(value)), ({"refused": "HeightTooSmall"}, 1))
        for text, name in (("{", "json"), ("[]", "WrongKind"), ("{}", "MissingKey")):
            self.assertEqual(self.answer(text), ({"unreadable": name}, 2))
        self.assertEqual(self.answer("{}", "verify"), ("", 2))


if __name__ == "__main__":
    unittest.main()
