#!/usr/bin/env python3
"""Tests of AIRs and of the calls of the STARK.

What is due comes from outside of the package: from the stored proofs of examples/starks, from the
cases of crates/test_cases/data, and from constraints that reference.py evaluates row by row. Where
the library isn't there, only what needs no more than its stand-in is tested.
"""

import json
import pickle
import random
import re
import unittest

import reference
import stand_in
import test_circle as given
from test_records import Array, Number

import circle
from circle import stark

try:
    import numpy
except ImportError:
    numpy = None

P = reference.P
WORKED = json.loads((stand_in.STARKS / "worked.json").read_bytes())
needs_library = unittest.skipIf(stand_in.library_fault(), stand_in.library_fault() or "")
needs_numpy = unittest.skipUnless(numpy, "numpy isn't installed")
COUNT = 200


def fibonacci():
    air = circle.Air(columns=2, public_values=3)
    a, b = air.columns
    next_a, next_b = air.next_columns
    first_a, first_b, last_b = air.public_values
    air.first_row.assert_eq(a, first_a)
    air.first_row.assert_eq(b, first_b)
    air.transition.assert_eq(next_a, b)
    air.transition.assert_eq(next_b, a + b, "the sum of both")
    air.last_row.assert_eq(b, last_b)
    return air


def require_equal(place, left, right):
    for one, other in zip(left, right):
        place.assert_eq(one, other)


def permutation():
    """The AIR of crates/circle_airs, with the constants of the stored one."""
    air = circle.Air(columns=16, public_values=16)
    columns = stand_in.stored("permutation_16_rows", "prove")["air"]["periodic_columns"]
    matrix = [7, 1, 3, 8, 8, 3, 4, 9]
    sums = [entry + air.periodic(column) for entry, column in zip(air.columns, columns)]
    powers = [helper * it**2 for helper, it in zip(air.columns[8:], sums)]
    rows = [[matrix[(j - i) % 8] * powers[j] for j in range(8)] for i in range(8)]
    require_equal(air.every_row, air.columns[8:], [it**3 for it in sums])
    require_equal(air.transition, air.next_columns, map(sum, rows))
    require_equal(air.first_row, air.columns, air.public_values[:8])
    require_equal(air.last_row, air.columns, air.public_values[8:])
    return air


def changed(value, *path_and_item):
    """A value of JSON in which another item stands behind a path."""
    *path, last, item = path_and_item
    found = inside = json.loads(json.dumps(value))
    for key in path:
        inside = inside[key]
    inside[last] = item
    return found


def statement(name, air):
    """A stored statement, of this AIR."""
    value = {key: it for key, it in stand_in.stored(name, "verify").items() if key != "proof"}
    return stark.Statement(**{**value, "air": air})


class Stored(unittest.TestCase):
    def test_fibonacci_is_the_same(self):
        air, due = fibonacci(), WORKED["airs"]["fibonacci"]
        self.assertEqual(air.to_value(), stand_in.stored("fibonacci_8_rows", "prove")["air"])
        self.assertEqual(circle.air._text(air.to_value()).hex(), due["text"])
        self.assertEqual(air.digest(), due["digest"])

    def test_digests_of_stored_airs(self):
        for name in stand_in.names():
            text = circle.air._text(stand_in.stored(name, "prove")["air"])
            due = WORKED["airs"][name.rsplit("_", 2)[0]]
            self.assertEqual(len(text), due["text_bytes"])
            self.assertEqual(circle.air.hashlib.sha256(text).hexdigest(), due["digest"])

    def constraint_values(self, air, at):
        values = reference.node_values(air["nodes"], at)
        return [(it["when"], values[it["node"]]) for it in air["constraints"]]

    def test_the_permutation_means_the_same(self):
        stored = stand_in.stored("permutation_16_rows", "prove")
        air, rng = permutation().to_value(), random.Random(7)
        for key in ("width", "num_public_values", "periodic_columns"):
            self.assertEqual(air[key], stored["air"][key])
        for _ in range(20):
            at = {kind: [rng.randrange(P) for _ in range(16)] for kind in reference.READS}
            due = self.constraint_values(stored["air"], at)
            self.assertEqual(self.constraint_values(air, at), due)
        found = reference.first_violation(air, stored["rows"], stored["public_values"])
        self.assertIsNone(found)

    def test_the_evaluation_agrees_with_the_cases(self):
        for case in given.verify_py.all_cases():
            if case["call"] == "stark check":
                case = given.verify_py.whole(case)
                text = given.given_text(case["given"]).encode()
                found = stand_in.answer(stand_in.checked, text)
                self.assertTrue(given.is_due(found, case["due"]), (case["name"], found))


class HashChain(unittest.TestCase):
    """The chain of examples/hash_chain.py, over the stored rows of the permutation."""

    chain = given.script("../bindings/python/examples/hash_chain.py")

    def test_its_rounds_are_those_of_the_permutation(self):
        stored = stand_in.stored("permutation_16_rows", "prove")
        constants, rows = self.chain.CONSTANTS, stored["rows"]
        self.assertEqual([list(it) for it in zip(*constants)], stored["air"]["periodic_columns"])
        for row, following, added in zip(rows, rows[1:], constants):
            powers = [pow(entry + it, 5, P) for entry, it in zip(row, added)]
            self.assertEqual([it % P for it in self.chain.mixed(powers)], following[:8])

    def test_its_rows_are_all_constrained(self):
        rows, rng = self.chain.chain_rows([3, 1, 4, 1])[-32:], random.Random(7)
        air, digest = self.chain.chain_air().to_value(), rows[-1][:4]
        self.assertEqual(rows[0][4:8], [0] * 4)
        self.assertIsNone(reference.first_violation(air, rows, digest))
        for _ in range(100):
            row, column = rng.randrange(32), rng.randrange(16)
            rows[row][column] += 1
            self.assertIsNotNone(reference.first_violation(air, rows, digest))
            rows[row][column] -= 1


class Nodes(unittest.TestCase):
    def setUp(self):
        self.air = circle.Air(columns=3, public_values=1)
        self.a, self.b, self.c = self.air.columns

    def nodes(self, *exprs):
        for it in exprs:
            self.air.every_row.assert_zero(it)
        return self.air.to_value()["nodes"]

    def test_equal_ones_are_shared(self):
        a, b, c = self.a, self.b, self.c
        found = self.nodes(a + b, b + a, (a + b) * c, c * (b + a), a - b, b - a, -(a * c), -(c * a))
        pairs = [{"add": [0, 1]}, {"mul": [3, 2]}, {"sub": [0, 1]}, {"sub": [1, 0]}]
        self.assertEqual(found[3:], [*pairs, {"mul": [0, 2]}, {"neg": 7}])

    def test_periodic_columns_are_shared(self):
        one, other = self.air.periodic([1, -1]), self.air.periodic((1, P - 1))
        self.assertEqual(self.nodes(one - other), [{"periodic": 0}, {"sub": [0, 0]}])
        self.assertEqual(self.air.to_value()["periodic_columns"], [[1, P - 1]])

    def test_unused_ones_are_left_out(self):
        a, b, c = self.a, self.b, self.c
        self.assertIsNotNone(a * b + c)
        self.assertEqual(self.nodes(b * c), [{"local": 1}, {"local": 2}, {"mul": [0, 1]}])

    def test_constants_are_computed(self):
        a, five = self.a, self.air.constant(5)
        for same in (a + 0, 0 + a, a - 0, a * 1, 1 * a, a**1, sum([a]), a + P, a * (P + 1)):
            self.assertEqual(same._node, a._node)
        for number, expr in ((12, five + 7), (2, 7 - five), (35, 7 * five), (P - 5, -five)):
            self.assertEqual(expr._node, self.air.constant(number)._node)
        for number, expr in ((1, a**0), (3125, five**5), (P - 2, self.air.constant(-2))):
            self.assertEqual(expr._node, self.air.constant(number)._node)
        found = self.nodes(0 - a, a * 0)
        self.assertEqual(found[1:], [{"constant": 0}, {"sub": [1, 0]}, {"mul": [0, 1]}])

    def test_powers_take_few_nodes(self):
        self.assertEqual(len(self.nodes(self.a ** (2**20))), 21)
        self.assertEqual(len(self.nodes(self.a**3, self.a * self.a * self.a)), 22)

    def test_places(self):
        for place in ("first_row", "last_row", "transition", "every_row"):
            getattr(self.air, place).assert_bool(self.a, place)
        found = [it["when"] for it in self.air.to_value()["constraints"]]
        self.assertEqual(found, ["first", "last", "transition", "every"])
        names = "first_row", "last_row", "transition", "every_row"
        self.assertEqual(self.air.constraint_names, names)
        self.assertEqual(self.nodes()[1:], [{"mul": [0, 0]}, {"sub": [1, 0]}])

    def test_numbers_of_other_kinds(self):
        self.assertEqual((self.a + Number(3))._node, (Number(3) + self.a)._node)
        self.assertEqual((self.a ** Number(3))._node, (self.a**3)._node)

    @needs_numpy
    def test_numbers_and_arrays_of_numpy(self):
        three, a = numpy.int64(3), self.a
        self.assertEqual((three * a)._node, (a * 3)._node)
        self.assertEqual((three - a)._node, (3 - a)._node)
        self.assertEqual(self.air.periodic(numpy.array([1, -1]))._node, self.air.periodic([1, -1]))


class Faults(unittest.TestCase):
    def setUp(self):
        self.air = circle.Air(columns=1)
        self.a = self.air.columns[0]

    def test_what_is_no_operand(self):
        a = self.a
        for wrong in (1.0, "1", None, True, [1], Array([1])):
            for compute in reference.OPERATIONS.values():
                if compute.__code__.co_argcount == 2:
                    self.assertRaises(TypeError, compute, a, wrong)
                    self.assertRaises(TypeError, compute, wrong, a)
            told = f"a whole number, got {type(wrong).__name__}"
            with self.assertRaisesRegex(TypeError, told):
                self.air.every_row.assert_zero(wrong)
        self.assertRaises(TypeError, lambda: a**a)
        with self.assertRaisesRegex(ValueError, "at least 0, got -1"):
            a**-1

    def test_an_expression_is_no_truth(self):
        with self.assertRaisesRegex(TypeError, "neither true nor false"):
            self.assertTrue(self.a and self.a)
        with self.assertRaisesRegex(TypeError, "got bool"):
            self.air.every_row.assert_zero(self.a == self.a)

    def test_another_air(self):
        other = circle.Air(columns=1).columns[0]
        for make in (lambda: self.a + other, lambda: self.air.every_row.assert_zero(other)):
            with self.assertRaisesRegex(ValueError, "belongs to another AIR"):
                make()

    def test_what_makes_no_air(self):
        for wrong in ([], [1, 2, 3]):
            self.assertRaises(ValueError, self.air.periodic, wrong)
        for wrong in (1.0, True, None):
            self.assertRaises(TypeError, self.air.constant, wrong)
            self.assertRaises(TypeError, self.air.periodic, [wrong])
        self.assertRaises(TypeError, self.air.every_row.assert_zero, self.a, 7)
        for columns, public_values in ((0, 0), (1, -1)):
            self.assertRaises(ValueError, circle.Air, columns, public_values)

    def test_what_makes_no_statement(self):
        params, value = circle.Params(log_blowup=1, num_queries=2), self.air.to_value()
        with self.assertRaisesRegex(circle.Unreadable, "WrongKind at air: 7 isn't an Air"):
            stark.Statement(7, 2, [], params)
        with self.assertRaisesRegex(TypeError, "expected an Air, got dict"):
            stark.check(value, [[1]])
        for log_n, public, path in ((-1, [], "log_n"), (2, [P], r"public_values\[0\]")):
            with self.assertRaisesRegex(circle.Unreadable, f"OutOfRange at {path}: "):
                stark.Statement(self.air, log_n, public, params)


class Values(unittest.TestCase):
    """AIRs from and to JSON, and their equality."""

    def test_airs_are_read(self):
        for name in stand_in.names():
            value = stand_in.stored(name, "prove")["air"]
            air, due = circle.Air.from_value(value), WORKED["airs"][name.rsplit("_", 2)[0]]
            self.assertEqual((air.to_value(), air.digest()), (value, due["digest"]))
            self.assertEqual(circle.Air.from_json(json.dumps(value)), air)
            self.assertEqual(json.loads(air.to_json()), value)
            self.assertEqual({*air.constraint_names}, {None})

    def test_random_airs_are_read(self):
        for seed in range(COUNT):
            air = reference.Sample(random.Random(seed)).air()
            read = circle.Air.from_json(air.to_json())
            self.assertEqual(read, air)
            for it in (air, read):
                it.last_row.assert_zero(it.columns[0] * it.next_columns[0] - 1)
            found = [reference.node_values(it.to_value()["nodes"], self.at()) for it in (air, read)]
            nodes = [it.to_value()["constraints"][-1]["node"] for it in (air, read)]
            self.assertEqual(found[0][nodes[0]], found[1][nodes[1]])

    def at(self):
        rng = random.Random(7)
        return {kind: [rng.randrange(P) for _ in range(99)] for kind in reference.READS}

    def test_nodes_are_kept_as_they_are(self):
        nodes = [{"local": 0}, {"local": 0}, {"constant": 1}, {"add": [0, 2]}, {"add": [1, 2]}]
        value = {"constraints": [{"node": 3, "when": "last"}], "nodes": nodes}
        value.update(num_public_values=2, periodic_columns=[[5], [5]], width=3)
        air = circle.Air.from_value(value)
        self.assertEqual(air.to_value(), value)
        a, b, _ = air.columns
        self.assertEqual((air.public_values[1] - b)._node, (air.public_values[1] - b)._node)
        air.every_row.assert_eq(a + 1, b)
        self.assertEqual(air.to_value()["nodes"][:5], nodes)
        self.assertEqual(air.to_value()["nodes"][5:], [{"local": 1}, {"sub": [3, 5]}])

    def test_what_cant_be_read(self):
        value = fibonacci().to_value()
        node = ["nodes", 0]
        faults = (
            ([*node, {}], "MissingKey at nodes[0]"),
            ([*node, {"local": 0, "next": 0}], "UnknownKey at nodes[0].next"),
            ([*node, {"div": [0, 0]}], "UnknownKey at nodes[0].div"),
            ([*node, {"add": [0]}], "WrongKind at nodes[0].add"),
            ([*node, {"neg": [0]}], "WrongKind at nodes[0].neg"),
            ([*node, {"constant": P}], "OutOfRange at nodes[0].constant"),
            ([*node, 7], "WrongKind at nodes[0]"),
            (["constraints", 1, "when", "often"], "WrongKind at constraints[1].when"),
            (["periodic_columns", [[P]]], "OutOfRange at periodic_columns[0][0]"),
            (["width", -1], "OutOfRange at width"),
        )
        for change, told in faults:
            with self.assertRaises(circle.Unreadable) as raised:
                circle.Air.from_value(changed(value, *change))
            self.assertEqual(str(raised.exception).split(": ")[0], told)
        with self.assertRaisesRegex(circle.Unreadable, "^json"):
            circle.Air.from_json("{")

    def test_what_makes_no_air_is_refused(self):
        value = fibonacci().to_value()
        faults = (
            (["width", 0], "NoColumns"),
            (["periodic_columns", [[1, 2, 3]]], "PeriodicLength"),
            (["nodes", 1, {"neg": 1}], "NodeOutOfOrder"),
            (["nodes", 1, {"next": 2}], "ColumnOutOfRange"),
            (["nodes", 1, {"periodic": 0}], "PeriodicOutOfRange"),
            (["nodes", 1, {"public": 3}], "PublicOutOfRange"),
            (["constraints", 0, "node", 99], "ConstraintOutOfRange"),
        )
        for change, name in faults:
            with self.assertRaises(circle.Refused) as raised:
                circle.Air.from_value(changed(value, *change))
            self.assertEqual(raised.exception.name, name)

    def test_equality_is_by_value(self):
        params = circle.Params(log_blowup=1, num_queries=2)
        one, other = (stark.Statement(fibonacci(), 3, [1, 1, 34], params) for _ in range(2))
        self.assertEqual(one, other)
        self.assertEqual(repr(one.air), "<Air: columns=2, public_values=3, constraints=5>")
        other.air.every_row.assert_zero(other.air.columns[0])
        self.assertNotEqual(one, other)
        self.assertNotEqual(one.air, 7)
        self.assertRaises(TypeError, hash, one.air)


class Hints(unittest.TestCase):
    """What errors say beside their names."""

    def test_refusals(self):
        fault = circle.Refused("InputMmcsError")
        for found in (fault, pickle.loads(pickle.dumps(fault))):
            self.assertEqual(found.name, "InputMmcsError")
            self.assertRegex(str(found), "^InputMmcsError: opened rows don't authenticate: ")
        self.assertEqual(str(circle.Refused("NoColumns")), "NoColumns")

    def test_they_are_of_names(self):
        text = "".join((given.TOP / "docs" / f"{it}.md").read_text() for it in ("PROGRAM", "STARK"))
        for name in circle.errors._HINTS:
            is_there = f"`{name}`" in text or f'"{name}"' in text
            self.assertTrue(is_there or name == "ParametersDiffer", name)

    def test_comparisons(self):
        air = circle.Air(columns=1)
        with self.assertRaisesRegex(TypeError, "got bool .use assert_eq"):
            air.every_row.assert_zero(air.columns[0] == 1)
        self.assertIsInstance(air.every_row, circle.Place)


class Calls:
    """Tests of the calls, by the library or its stand-in."""

    def unsatisfied(self, due, told, call, *arguments):
        with self.assertRaises(circle.Unsatisfied) as raised:
            call(*arguments)
        fault = raised.exception
        for found in (fault, pickle.loads(pickle.dumps(fault))):
            self.assertEqual((found.row, found.constraint, found.constraint_name), due)
            self.assertEqual((found.name, str(found)), ("Unsatisfied", told))

    def refused(self, name, call, *arguments):
        with self.assertRaises(circle.Refused) as raised:
            call(*arguments)
        self.assertEqual(raised.exception.name, name)

    def test_rows_that_fail_are_named(self):
        air, stored = fibonacci(), stand_in.stored("fibonacci_8_rows", "prove")
        rows, public = stored["rows"], stored["public_values"]
        self.assertIsNone(stark.check(air, rows, public))
        rows[3][1] += 1
        due = (2, 3, "the sum of both"), "Unsatisfied: row 2 fails constraint 3 (the sum of both)"
        self.unsatisfied(*due, stark.check, air, rows, public)
        self.unsatisfied(*due, stark.prove, statement("fibonacci_8_rows", air), rows)
        rows[3][1], public[1] = 5, 2
        due = (0, 1, None), "Unsatisfied: row 0 fails constraint 1"
        self.unsatisfied(*due, stark.check, air, rows, public)

    def test_if_x_is_c(self):
        """The counter of docs/AIRS.md."""
        air = circle.Air(columns=3)
        x, flag, inverse = air.columns
        air.every_row.assert_eq((x - 5) * inverse, 1 - flag)
        air.every_row.assert_zero((x - 5) * flag)
        air.transition.assert_eq(air.next_columns[0], (1 - flag) * (x + 1))
        rows = [[it, int(it == 5), pow(it - 5, -1, P) if it != 5 else 0] for it in range(6)]
        rows = (rows * 3)[:16]
        self.assertIsNone(stark.check(air, rows))
        for row in range(16):
            for wrong in (1 - rows[row][1], 2):
                others = changed(rows, row, 1, wrong)
                self.assertRaises(circle.Unsatisfied, stark.check, air, others)

    def test_any_sequences_are_traces(self):
        air = circle.Air(columns=2)
        air.transition.assert_eq(air.next_columns[0], air.columns[1])
        rows = [[1, 2], [2, 3], [3, 4], [4, 5]]
        for same in (tuple(map(tuple, rows)), Array(rows), [range(it, it + 2) for it in (1, 2)]):
            self.assertIsNone(stark.check(air, same))
        self.assertIsNone(stark.check(air, [[Number(1), Number(2)], Array([2, 3])]))
        for wrong, path in (([[P, 0]], r"rows\[0\]\[0\]"), ([[1, -1]], r"rows\[0\]\[1\]")):
            with self.assertRaisesRegex(circle.Unreadable, f"OutOfRange at {path}: "):
                stark.check(air, wrong)

    @needs_numpy
    def test_arrays_of_numpy_are_traces(self):
        air = circle.Air(columns=2)
        air.transition.assert_eq(air.next_columns[0], air.columns[1])
        rows = numpy.array([[1, 2], [2, 3]], dtype=numpy.uint32)
        self.assertIsNone(stark.check(air, rows))
        rows[1, 0] = 7
        self.assertRaises(circle.Unsatisfied, stark.check, air, rows)

    def test_refusals(self):
        air, rows = fibonacci(), stand_in.stored("fibonacci_8_rows", "prove")["rows"]
        self.refused("RaggedRows", stark.check, air, [[1, 1], [1]], [1, 1, 1])
        self.refused("HeightNotPowerOfTwo", stark.check, air, rows[:7], [1, 1, 1])
        self.refused("HeightNotPowerOfTwo", stark.check, air, [], [1, 1, 1])
        self.refused("PublicValuesMismatch", stark.check, air, rows)
        self.refused("WidthMismatch", stark.check, air, [[1]], [1, 1, 1])
        with self.assertRaisesRegex(circle.Refused, "has 3 public values, but 2 were given"):
            stark.check(air, rows, [1, 1])
        with self.assertRaisesRegex(circle.Refused, "has 2 columns, but the rows have 1"):
            stark.check(air, [[1]], [1, 1, 1])
        self.refused("NoConstraints", stark.check, circle.Air(columns=2), rows)
        air.every_row.assert_zero(air.columns[0] ** (2**31))
        self.refused("DegreeTooHigh", stark.check, air, rows, [1, 1, 34])
        air = circle.Air(columns=1)
        air.every_row.assert_zero(air.periodic([0] * 8))
        self.refused("PeriodTooLong", stark.check, air, [[1]] * 4)

    def test_the_stored_proofs(self):
        for name in ("fibonacci_8_rows", "fibonacci_32_rows"):
            mine, stored = statement(name, fibonacci()), stand_in.stored(name, "verify")
            proof = stark.prove(mine, stand_in.stored(name, "prove")["rows"])
            self.assertEqual(proof.to_value(), stored["proof"])
            self.assertIsNone(stark.verify(mine, proof))
            self.assertIsNone(stark.verify(mine, stored["proof"]))
            self.assertEqual(stark.Proof.from_json(proof.to_json()), proof)
            self.assertEqual({**mine.to_value(), "proof": proof.to_value()}, stored)

    def test_texts(self):
        for name in stand_in.names():
            asked = given.compact(stand_in.stored(name, "prove"))
            self.assertIsNone(stark.check_text(asked))
            value = json.loads(stark.prove_text(asked.encode()))
            self.assertEqual(value, stand_in.stored(name, "verify"))
            proof = given.compact(value.pop("proof"))
            due = WORKED["airs"][name.rsplit("_", 2)[0]]["digest"]
            self.assertEqual(stark.verify_text(given.compact(value), proof), due)
            self.assertEqual(stark.Statement.from_value(value).air.digest(), due)
            value["log_n"] += 1
            self.assertRaises(circle.Refused, stark.verify_text, given.compact(value), proof)
        self.assertRaises(circle.Unreadable, stark.check_text, "")
        with self.assertRaisesRegex(circle.Unreadable, "^json at statement: "):
            stark.verify_text("", "")
        with self.assertRaisesRegex(circle.Unreadable, r"^MissingKey at proof\.opened_values$"):
            stark.verify_text(given.compact(value), "{}")

    def test_faults_of_texts_are_located(self):
        asked = stand_in.stored("fibonacci_8_rows", "prove")
        node = {"add": [0, -1]}
        changes = {
            "rows": ("MissingKey", lambda it: it.pop("rows")),
            "air.width": ("MissingKey", lambda it: it["air"].pop("width")),
            "air.nodes[0].add[1]": ("OutOfRange", lambda it: it["air"]["nodes"].insert(0, node)),
            "air.more": ("UnknownKey", lambda it: it["air"].update(more=1)),
            "params.log_blowup": ("MissingKey", lambda it: it["params"].pop("log_blowup")),
            "rows[1][0]": ("WrongKind", lambda it: it["rows"].insert(1, ["1", 1])),
        }
        for path, (name, change) in changes.items():
            value = json.loads(json.dumps(asked))
            change(value)
            for call in (stark.check_text, stark.prove_text):
                with self.assertRaises(circle.Unreadable) as raised:
                    call(given.compact(value))
                self.assertEqual((raised.exception.name, raised.exception.path), (name, path))
        large = {**asked["air"], "nodes": [{"neg": 0}], "width": 2**64 - 1}
        with self.assertRaisesRegex(circle.Unreadable, "^WrongKind at rows: "):
            stark.prove_text(given.compact({**asked, "rows": None, "air": large}))
        text = given.compact({"air": large, "params": {}, "public_values": []})
        with self.assertRaisesRegex(circle.Unreadable, r"^MissingKey at statement\.log_n$"):
            stark.verify_text(text, "{}")

    def test_statements_are_read(self):
        for name in stand_in.names():
            value = stand_in.stored(name, "verify")
            proof = value.pop("proof")
            mine = stark.Statement.from_json(json.dumps(value))
            self.assertEqual(mine.to_value(), value)
            self.assertEqual(mine, stark.Statement.from_value(value))
            self.assertIsNone(stark.verify(mine, proof))
            if name.startswith("fibonacci"):
                self.assertEqual(mine, statement(name, fibonacci()))

    def test_another_statement_is_refused(self):
        mine = statement("fibonacci_8_rows", fibonacci())
        proof = stand_in.stored("fibonacci_8_rows", "verify")["proof"]
        more = fibonacci()
        more.every_row.assert_bool(more.columns[0] * 0)
        params = circle.Params(log_blowup=1, num_queries=5)
        others = {"air": more, "log_n": 4, "public_values": [1, 1, 35], "params": params}
        for key, other in others.items():
            same = {it: getattr(mine, it) for it in others}
            changed = stark.Statement(**{**same, key: other})
            self.assertRaises(circle.Refused, stark.verify, changed, proof)
        proof["opened_values"]["trace_local"][0][0] ^= 1
        self.assertRaises(circle.Refused, stark.verify, mine, proof)

    def test_proofs_that_cant_be_read(self):
        mine = statement("fibonacci_8_rows", fibonacci())
        proof = stand_in.stored("fibonacci_8_rows", "verify")["proof"]
        proof["opening_proof"]["lambdas"][0][1] = -1
        told = r"OutOfRange at opening_proof\.lambdas\[0\]\[1\]"
        with self.assertRaisesRegex(circle.Unreadable, told):
            stark.verify(mine, proof)

    def test_rows_of_another_height(self):
        mine = statement("fibonacci_8_rows", fibonacci())
        for rows in ([], [[1, 1]] * 4, [[1, 1]] * 9, [[1, 1]] * 16):
            told = f"has 2\\^3 rows, but {len(rows)} were given"
            with self.assertRaisesRegex(ValueError, told):
                stark.prove(mine, rows)

    def found(self, sample):
        """What `check` finds of a random AIR and its trace."""
        try:
            return stark.check(sample.air(), sample.rows, sample.public_values)
        except circle.Unsatisfied as fault:
            return fault.row, fault.constraint, fault.constraint_name

    def test_random_airs(self):
        for seed in range(COUNT):
            sample = reference.Sample(random.Random(seed))
            self.assertIsNone(sample.due())
            self.assertIsNone(self.found(sample), seed)
            sample.damage()
            self.assertEqual(self.found(sample), sample.due(), seed)


@unittest.skipUnless(stand_in.library_fault(), "the library is there")
class CallsOfStandIn(Calls, unittest.TestCase):
    def setUp(self):
        stopped = stand_in.in_place()
        stopped.start()
        self.addCleanup(stopped.stop)


@needs_library
class CallsOfLibrary(Calls, unittest.TestCase):
    def test_examples_of_the_module(self):
        for text in (circle.__doc__, circle.air.__doc__):
            exec("\n".join(re.findall("^    (.*)$", text, re.M)), {})

    def test_cases(self):
        calls = {"stark check": self.checked, "stark prove": lambda text: stark.prove_text(text)}
        for case in given.verify_py.all_cases():
            if case["call"] in calls:
                case = given.verify_py.whole(case)
                text = given.given_text(case["given"])
                found = self.answer(calls[case["call"]], text)
                self.assertTrue(given.is_due(found, case["due"]), (case["name"], found))

    def checked(self, text):
        stark.check_text(text)
        return '{"satisfied":true}'

    def answer(self, call, text):
        """The line that is printed, as its value, and the status."""
        try:
            return json.loads(call(text)), 0
        except circle.Unsatisfied as fault:
            value = {"constraint": fault.constraint, "refused": fault.name, "row": fault.row}
            return value, 1
        except circle.Refused as refused:
            return {"refused": refused.name}, 1
        except circle.Unreadable as unreadable:
            return {"unreadable": unreadable.name}, 2


if __name__ == "__main__":
    unittest.main()
