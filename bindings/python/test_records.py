#!/usr/bin/env python3
"""Tests of the package's records: what they read, what they write, and what they say of faults."""

import json
import unittest

import test_circle as given

import circle
from circle.forms import compact

CUBIC = [1, 2, 3]
DIGEST = "0a" * 32


def parts(value):
    """The records of an input of `verify`."""
    statement = circle.Statement.from_value(value["batches"])
    params = circle.Params.from_value(value["params"])
    return statement, circle.Proof.from_value(value["proof"]), params


class Number:
    """A number of another kind than int, as numpy has them."""

    def __init__(self, number):
        self.number = number

    def __index__(self):
        return self.number


class Array:
    """What numpy's arrays have in common with this."""

    def __init__(self, items):
        self.items = items

    def tolist(self):
        return self.items


class Stored(unittest.TestCase):
    def test_they_are_written_as_they_were_read(self):
        for name in given.NAMES:
            text = given.stored(name, "verify")
            value = json.loads(text)
            statement, proof, params = parts(value)
            for record, key in ((statement, "batches"), (proof, "proof"), (params, "params")):
                self.assertEqual(record.to_value(), value[key])
                self.assertEqual(record.to_json(), compact(value[key]))
                self.assertEqual(type(record).from_json(record.to_json()), record)
                self.assertEqual(type(record).from_json(compact(value[key]).encode()), record)
                hash(record)

    def test_they_are_accepted(self):
        for name in given.NAMES:
            value = json.loads(given.stored(name, "verify"))
            self.assertIsNone(circle.verify(*parts(value)))
            values = value["batches"], value["proof"], value["params"]
            self.assertIsNone(circle.verify(*values))

    def test_they_are_proved(self):
        for name in given.NAMES:
            asked = json.loads(given.stored(name, "prove"))
            params = circle.Params.from_value(asked["params"])
            batches = [[circle.Matrix(**it) for it in batch] for batch in asked["batches"]]
            statement, proof, _ = parts(json.loads(given.stored(name, "verify")))
            self.assertEqual(circle.prove(batches, params), (statement, proof))
            self.assertEqual(circle.prove(asked["batches"], asked["params"]), (statement, proof))

    def test_another_statement_is_refused(self):
        statement, proof, params = parts(json.loads(given.stored("sevens", "verify")))
        value = statement.to_value()
        value[0]["matrices"][0]["points"][0]["values"] = [[8, 0, 0]]
        self.assertRaises(circle.Refused, circle.verify, value, proof, params)
        more = circle.Params(log_blowup=1, num_queries=3)
        self.assertRaises(circle.Refused, circle.verify, statement, proof, more)

    def test_only_its_own_kind_is_taken(self):
        statement, proof, params = parts(json.loads(given.stored("sevens", "verify")))
        for wrong in ((proof, proof, params), (statement, params, params), ("", proof, params)):
            with self.assertRaisesRegex(TypeError, "or its JSON value, got "):
                circle.verify(*wrong)
        whole = json.loads(given.stored("sevens", "verify"))
        with self.assertRaisesRegex(circle.Unreadable, "WrongKind at batches: a dict isn't a list"):
            circle.verify(whole, proof, params)
        with self.assertRaisesRegex(circle.Unreadable, "MissingKey at batch_pow_witness"):
            circle.verify(statement, whole, params)


class Cases(unittest.TestCase):
    def answer(self, value):
        """What the calls by records return of an input of `verify`."""
        try:
            circle.verify(*parts(value))
        except circle.Refused as refused:
            return {"refused": refused.name}, 1
        except circle.Unreadable as unreadable:
            self.assertIsNotNone(unreadable.path)
            return {"unreadable": unreadable.name}, 2
        return {"verified": True}, 0

    def test_cases_of_verify(self):
        count = 0
        for case in given.verify_py.all_cases():
            if case["call"] != "verify" or "text" in case["given"]:
                continue
            case = given.verify_py.whole(case)
            value = given.verify_py.given_value(case["given"])
            if not isinstance(value, dict) or value.keys() != {"batches", "params", "proof"}:
                continue
            count += 1
            with self.subTest(case["name"]):
                found = self.answer(value)
                self.assertTrue(given.is_due(found, case["due"]), (found, case["due"]))
        self.assertGreater(count, 300)


class Faults(unittest.TestCase):
    def fault(self, name, path, make):
        with self.assertRaises(circle.Unreadable) as raised:
            make()
        self.assertEqual((raised.exception.name, raised.exception.path), (name, path))
        return str(raised.exception)

    def of_proof(self, name, path, change):
        value = json.loads(given.stored("two_batches_four_coefficients", "verify"))["proof"]
        change(value)
        return self.fault(name, path, lambda: circle.Proof.from_value(value))

    def test_the_path_leads_to_the_fault(self):
        inner = "fri_proof.input_openings.input_openings[1].opened_values[0][0][1]"
        told = self.of_proof("OutOfRange", inner, lambda proof: changed(proof, inner, 2**31 - 1))
        self.assertEqual(told, f"OutOfRange at {inner}: 2147483647 isn't below 2^31 - 1")
        for path, wrong, name in (
            ("lambdas", {}, "WrongKind"),
            ("lambdas[0]", [1, 2], "WrongKind"),
            ("lambdas[0][2]", -1, "OutOfRange"),
            ("lambdas[0][2]", True, "WrongKind"),
            ("fri_proof", [], "WrongKind"),
            ("fri_proof.final_poly[3][0]", 1.0, "WrongKind"),
            ("fri_proof.commit_phase_commits[0]", "0" * 63, "BadHex"),
            ("fri_proof.commit_phase_openings[0].sibling_values[0][0][0]", None, "WrongKind"),
            ("first_layer_commitment", 7, "WrongKind"),
        ):
            self.of_proof(name, path, lambda proof: changed(proof, path, wrong))

    def test_keys(self):
        def without(proof):
            del proof["fri_proof"]["input_openings"]["first_layer_proof"]

        path = "fri_proof.input_openings.first_layer_proof"
        self.of_proof("MissingKey", path, without)
        path = "fri_proof.more"
        self.of_proof("UnknownKey", path, lambda proof: changed(proof, path, 1))

    def test_of_constructors(self):
        claim = circle.Claim(CUBIC, [CUBIC])
        self.fault("WrongKind", "values[1]", lambda: circle.Claim(CUBIC, [CUBIC, 7]))
        self.fault("OutOfRange", "point[0]", lambda: circle.Claim([-1, 0, 0], []))
        self.fault("WrongKind", "log_n", lambda: circle.ClaimedMatrix(True, [claim]))
        self.fault("WrongKind", "points[0]", lambda: circle.ClaimedMatrix(2, [CUBIC]))
        self.fault("BadHex", "commitment", lambda: circle.ClaimedBatch("00", []))
        self.fault("WrongKind", "rows[1][0]", lambda: circle.Matrix([], [[1], ["1"]]))
        path, params = "batches[0][1].rows[1][0]", circle.Params(1, 2)
        batch = [circle.Matrix([CUBIC], [[1]]), {"points": [CUBIC], "rows": [[1], [True]]}]
        self.fault("WrongKind", path, lambda: circle.prove([batch], params))

    def test_texts_that_are_no_json(self):
        no_values = "", "{", "[1,]", "NaN", "[Infinity]", "1e999", "\ufeff[]", "[" * 10**5
        for text in (*no_values, b"\xff"):
            self.fault("json", "", lambda: circle.Statement.from_json(text))
        self.fault("json", "", lambda: circle.Statement.from_json("1" * 400))
        self.fault("WrongKind", "batches", lambda: circle.Statement.from_json("1" * 30))
        self.fault("WrongKind", "batches", lambda: circle.Statement.from_json("-0"))
        minus = compact(given.SEVENS).replace('"batch_pow_bits":0', '"batch_pow_bits":-0')
        self.fault("WrongKind", "batch_pow_bits", lambda: circle.Params.from_json(minus))

    def test_records_cant_be_changed(self):
        params = circle.Params(log_blowup=1, num_queries=40)
        with self.assertRaises(AttributeError):
            params.num_queries = 1


class Sequences(unittest.TestCase):
    def test_arrays_and_numbers_of_other_kinds(self):
        plain = circle.Matrix([CUBIC], [[7], [8]])
        self.assertEqual(circle.Matrix(Array([CUBIC]), Array([[7], [8]])), plain)
        self.assertEqual(circle.Matrix((tuple(CUBIC),), [Array([Number(7)]), range(8, 9)]), plain)
        two = circle.Params(log_blowup=Number(1), num_queries=Number(2))
        self.assertEqual(two, circle.Params(log_blowup=1, num_queries=2))
        self.assertIs(type(two.num_queries), int)

    def test_a_record_keeps_nothing_of_a_list(self):
        rows = [[7], [8]]
        matrix = circle.Matrix([CUBIC], rows)
        rows[0][0] = 9
        self.assertEqual(matrix.rows, ((7,), (8,)))

    def test_digests_in_upper_case(self):
        batch = circle.ClaimedBatch(DIGEST.upper(), [])
        self.assertEqual(batch.commitment, DIGEST)


def changed(value, path, new):
    """Changes the value at a path."""
    *parts, last = path.replace("[", ".").replace("]", "").split(".")
    for part in parts:
        value = value[int(part) if isinstance(value, list) else part]
    value[int(last) if isinstance(value, list) else last] = new


if __name__ == "__main__":
    unittest.main()
