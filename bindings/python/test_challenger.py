#!/usr/bin/env python3
"""Tests of challengers, and of proofs from one: what a protocol does on both sides.

States and points are held against hashlib, and proofs against examples/forge.py, which proves of a
column of sevens, and the verifiers in examples. Where the library isn't there, its stand-in takes
its place.
"""

import array
import copy
import hashlib
import json
import pickle
import random
import unittest
import unittest.mock

import stand_in
import test_circle as given
from test_air import fibonacci, needs_library, statement
from test_records import Array, Number, parts

import circle
from circle import stark

P = stand_in.verify.P
NAME = b"a protocol for tests"
PARAMS = circle.Params(log_blowup=1, num_queries=6)
SEVENS = [[7]] * 4
# The third column is the sum of the others.
SUMS = [[row * row, 2**row + 5, row * row + 2**row + 5] for row in range(16)]


def sha(*data):
    return hashlib.sha256(b"".join(data)).digest()


class Model:
    """A challenger by hashlib."""

    def __init__(self, state=bytes(32)):
        self.state = state

    def observe(self, data):
        self.state = sha(b"\0", self.state, data)

    def observe_elements(self, elements):
        for element in elements:
            self.observe(element.to_bytes(4, "big"))

    def sample(self):
        drawn, self.state = sha(b"\1", self.state), sha(b"\2", self.state)
        return int.from_bytes(drawn[:8], "big") % P

    def sample_point(self):
        return tuple(self.sample() for _ in range(3))


def expected_state(statement, proof, challenger):
    """The state in which the verifier of examples leaves a challenger, of what it accepts."""
    other = stand_in.challenger_of(challenger.to_bytes())
    members = {"batches": statement, "params": PARAMS, "proof": proof}
    value = {name: member.to_value() for name, member in members.items()}
    told = stand_in.verify_from(stand_in.compact(value), PARAMS, other)
    assert told == ({"verified": True}, 0), told
    return other.state


def claimed(commitment, log_n, point, values):
    """The statement that the committed columns have these values at a point."""
    matrix = circle.ClaimedMatrix(log_n, [circle.Claim(point, values)])
    return circle.Statement([circle.ClaimedBatch(commitment, [matrix])])


def challenger_with(*absorbed):
    """A challenger that has absorbed these, one after another."""
    challenger = circle.Challenger()
    for data in absorbed:
        challenger.observe(data)
    return challenger


class Named(circle.Challenger):
    """A challenger with another constructor."""

    def __init__(self, name):
        super().__init__()
        self.name = name


class States(unittest.TestCase):
    def test_bytes_and_copies(self):
        state = bytes(range(32))
        challenger = circle.Challenger.from_bytes(state)
        self.assertEqual(circle.Challenger().to_bytes(), bytes(32))
        self.assertEqual(challenger.to_bytes(), state)
        self.assertEqual(eval(repr(challenger), vars(circle)), challenger)
        self.assertNotEqual(challenger, circle.Challenger())
        self.assertNotEqual(challenger, state)
        self.assertRaises(TypeError, hash, challenger)
        for same in (bytearray(state), memoryview(state)):
            self.assertEqual(circle.Challenger.from_bytes(same), challenger)
        for wrong in (b"", bytes(31), bytes(33), memoryview(array.array("I", range(32)))):
            with self.assertRaisesRegex(ValueError, f"expected 32 bytes, got {len(bytes(wrong))}"):
                circle.Challenger.from_bytes(wrong)
        for wrong in ("0" * 32, [0] * 32, 32, circle.Commitment("00" * 32)):
            with self.assertRaisesRegex(TypeError, f"expected bytes, got {type(wrong).__name__}"):
                circle.Challenger.from_bytes(wrong)

    def test_a_copy_of_another_class(self):
        other = Named("one").copy()
        self.assertEqual((type(other), other.name), (Named, "one"))
        self.assertEqual(other, circle.Challenger())

    def test_commitments_are_texts(self):
        digits = "0A" * 32
        commitment = circle.Commitment(digits)
        self.assertEqual(commitment, digits.lower())
        self.assertEqual(bytes(commitment), b"\n" * 32)
        self.assertEqual(repr(commitment), f"Commitment('{digits.lower()}')")
        self.assertEqual(json.dumps(commitment), f'"{digits.lower()}"')
        self.assertEqual(type(pickle.loads(pickle.dumps(commitment))), circle.Commitment)
        batch = circle.ClaimedBatch(digits, [])
        self.assertEqual(type(batch.commitment), circle.Commitment)
        self.assertEqual(type(circle.ClaimedBatch(commitment, []).commitment), circle.Commitment)
        for wrong in ("", digits[1:], digits + "0", "g" * 64):
            with self.assertRaisesRegex(circle.Unreadable, "BadHex"):
                circle.Commitment(wrong)
        for wrong, told in ((bytes(32), r"got bytes \(use Commitment.from_bytes"), (7, "got int")):
            with self.assertRaisesRegex(TypeError, told):
                circle.Commitment(wrong)
            with self.assertRaisesRegex(circle.Unreadable, "WrongKind at commitment"):
                circle.ClaimedBatch(wrong, [])

    def test_commitments_of_bytes(self):
        data = bytes(range(32))
        for same in (data, bytearray(data), memoryview(data)):
            self.assertEqual(circle.Commitment.from_bytes(same), circle.Commitment(data.hex()))
        for wrong in (b"", data[1:], memoryview(array.array("I", range(32)))):
            with self.assertRaisesRegex(ValueError, f"expected 32 bytes, got {len(bytes(wrong))}"):
                circle.Commitment.from_bytes(wrong)
        for wrong in (data.hex(), 32, None):
            with self.assertRaisesRegex(TypeError, "expected bytes, got "):
                circle.Commitment.from_bytes(wrong)
        with self.assertRaises(AttributeError):
            circle.Commitment(data.hex()).more = 1


class Challengers:
    """Tests of challengers, by the library or its stand-in."""

    def test_bytes_are_absorbed(self):
        digits = "5a" * 32
        for data in (b"", b"\0", NAME, bytes(range(256)) * 40):
            for given_as in (data, bytearray(data), memoryview(data)):
                challenger, model = circle.Challenger(), Model()
                challenger.observe(given_as)
                model.observe(data)
                self.assertEqual(challenger.to_bytes(), model.state)
        commitment = circle.Commitment(digits)
        self.assertEqual(challenger_with(commitment), challenger_with(bytes.fromhex(digits)))
        self.assertNotEqual(challenger_with(b"ab"), challenger_with(b"a", b"b"))

    def test_elements_are_absorbed(self):
        model = Model()
        model.observe_elements([0, 1, 258, P - 1])
        for elements in ([0, 1, 258, P - 1], (0, 1, Number(258), P - 1), Array([0, 1, 258, P - 1])):
            challenger = circle.Challenger()
            challenger.observe_elements(elements)
            self.assertEqual(challenger.to_bytes(), model.state)
        challenger.observe_elements([])
        self.assertEqual(challenger.to_bytes(), model.state)

    def test_elements_are_absorbed_as_their_bytes(self):
        one, two = circle.Challenger(), circle.Challenger()
        one.observe_elements([7])
        self.assertEqual(one, challenger_with(b"\0\0\0\7"))
        two.observe_elements([7, 1])
        one.observe_elements([1])
        self.assertEqual(one, two)

    def test_points_are_drawn(self):
        challenger, model = challenger_with(NAME), Model()
        model.observe(NAME)
        for _ in range(20):
            self.assertEqual(challenger.sample_point(), model.sample_point())
            self.assertEqual(challenger.to_bytes(), model.state)

    def test_moves_in_any_order(self):
        rng = random.Random(7)
        for _ in range(20):
            state = rng.getrandbits(256).to_bytes(32, "big")
            challenger, model = circle.Challenger.from_bytes(state), Model(state)
            for _ in range(20):
                data = rng.getrandbits(80).to_bytes(10, "big")[: rng.randrange(11)]
                elements = [rng.randrange(P) for _ in range(rng.randrange(4))]
                move, *what = rng.choice(
                    [("observe", data), ("observe_elements", elements), ("sample_point",)]
                )
                found, expected = (getattr(it, move)(*what) for it in (challenger, model))
                self.assertEqual((found, challenger.to_bytes()), (expected, model.state))

    def test_what_cant_be_absorbed(self):
        challenger = challenger_with(NAME)
        for wrong in ("name", 7, None, [7], circle.Challenger()):
            with self.assertRaisesRegex(TypeError, "expected bytes or a Commitment, got "):
                challenger.observe(wrong)
        with self.assertRaisesRegex(TypeError, r"got str \(use Commitment\(text\)\)"):
            circle.Challenger().observe("0A" * 32)
        with self.assertRaisesRegex(TypeError, r"got str \(use `name.encode\(\)`\)"):
            challenger.observe("name")
        for wrong, told in (
            ([1, P], r"OutOfRange at \[1\]: 2147483647 isn't below 2\^31 - 1"),
            ([-1], r"OutOfRange at \[0\]: -1 is negative"),
            ([1, 2, True], r"WrongKind at \[2\]"),
            ([1.0], r"WrongKind at \[0\]"),
            (7, "WrongKind: 7 isn't a list"),
        ):
            with self.assertRaisesRegex(circle.Unreadable, told):
                challenger.observe_elements(wrong)
        self.assertEqual(challenger, challenger_with(NAME))

    def test_a_copy_goes_its_own_way(self):
        challenger = challenger_with(NAME)
        for make in (circle.Challenger.copy, copy.copy, copy.deepcopy):
            other = make(challenger)
            self.assertEqual(other, challenger)
            other.observe(b"more")
            self.assertNotEqual(other, challenger)
            self.assertEqual(challenger, challenger_with(NAME))
        self.assertEqual(pickle.loads(pickle.dumps(challenger)), challenger)


class Protocol:
    """Tests of a protocol that opens columns at a drawn point, by the library or its stand-in."""

    rows = SEVENS

    def setUp(self):
        super().setUp()
        [self.commitment] = circle.commit([[self.rows]], PARAMS)
        self.prover = challenger_with(NAME, self.commitment)
        self.point = self.prover.sample_point()
        self.before = self.prover.copy()
        self.batches = [[circle.Matrix([self.point], self.rows)]]
        self.statement, self.proof = self.prove(self.prover)
        self.values = self.statement.batches[0].matrices[0].points[0].values
        self.log_n = len(self.rows).bit_length() - 1

    def prove(self, challenger):
        return circle.prove(self.batches, PARAMS, challenger=challenger)

    def verify(self, challenger, claims=None, proof=None, params=PARAMS):
        circle.verify(claims or self.statement, proof or self.proof, params, challenger=challenger)

    def refused(self, challenger, *what, error=circle.Refused, **how):
        """A verifier's challenger is as it was where the verifier refuses."""
        before = challenger.copy()
        self.assertRaises(error, self.verify, challenger, *what, **how)
        self.assertEqual(challenger, before)

    def test_commitments(self):
        column = circle.Matrix([self.point], self.rows)
        for same in (column, {"points": [], "rows": self.rows}, Array(self.rows)):
            self.assertEqual(circle.commit([[same]] * 2, PARAMS), [self.commitment] * 2)
        self.assertEqual(type(self.commitment), circle.Commitment)
        self.assertEqual(circle.commit([[column]], PARAMS.to_value()), [self.commitment])

    def test_what_cant_be_committed_to(self):
        with self.assertRaisesRegex(circle.Refused, "HeightNotPowerOfTwo"):
            circle.commit([[self.rows[:3]]], PARAMS)
        for wrong, path in ((7, "rows"), ([[1], 7], r"rows\[1\]"), ([[P]], r"rows\[0\]\[0\]")):
            with self.assertRaisesRegex(circle.Unreadable, rf"batches\[0\]\[0\]\.{path}"):
                circle.commit([[wrong]], PARAMS)

    def test_both_sides_end_in_one_state(self):
        verifier = challenger_with(NAME, self.commitment)
        mine = claimed(self.commitment, self.log_n, verifier.sample_point(), self.values)
        self.assertEqual(mine, self.statement)
        self.verify(verifier, mine)
        self.assertEqual(verifier, self.prover)
        self.assertEqual(verifier.to_bytes(), expected_state(mine, self.proof, self.before))
        self.assertEqual(verifier.sample_point(), self.prover.sample_point())

    def test_values_of_json_are_taken(self):
        verifier = self.before.copy()
        values = self.statement.to_value(), self.proof.to_value(), PARAMS.to_value()
        circle.verify(*values, challenger=verifier)
        self.assertEqual(verifier, self.prover)

    def test_more_can_follow(self):
        verifier = self.before.copy()
        self.verify(verifier)
        statement, proof = self.prove(self.prover)
        self.assertNotEqual(verifier, self.prover)
        self.verify(verifier, statement, proof)
        self.assertEqual(verifier, self.prover)

    def test_a_line_that_is_longer_than_most(self):
        other = self.before.copy()
        with unittest.mock.patch.object(circle, "_RESULT_LEN", 8):
            made = self.prove(other)
        self.assertEqual((made, other), ((self.statement, self.proof), self.prover))

    def test_a_verdict_that_is_longer_than_most(self):
        """The call is repeated from the state before it, not from the one that it left."""
        verifier = self.before.copy()
        with unittest.mock.patch.object(circle, "_VERDICT_LEN", 1):
            self.verify(verifier)
            self.assertEqual(verifier, self.prover)
            self.refused(self.before, claimed("0a" * 32, self.log_n, self.point, self.values))

    def test_other_values_and_parameters_are_refused(self):
        [first, *others] = self.values
        values = [(first[0] ^ 1, *first[1:]), *others]
        self.refused(self.before, claimed(self.commitment, self.log_n, self.point, values))
        self.refused(self.before, claimed("0a" * 32, self.log_n, self.point, self.values))
        self.refused(self.before, params=circle.Params(log_blowup=1, num_queries=7))
        self.verify(self.before)

    def test_a_damaged_proof_is_refused(self):
        proof = self.proof.to_value()
        proof["lambdas"][0][0] ^= 1
        self.refused(self.before, proof=proof)
        proof["lambdas"][0][0] = P
        self.refused(self.before, proof=proof, error=circle.Unreadable)

    def test_what_cant_be_proved(self):
        challenger = self.before.copy()
        for rows, error in ((self.rows[:3], circle.Refused), ([[P]], circle.Unreadable)):
            self.batches = [[{"points": [self.point], "rows": rows}]]
            self.assertRaises(error, self.prove, challenger)
            self.assertEqual(challenger, self.before)

    def test_only_a_challenger_is_taken(self):
        for wrong in (self.before.to_bytes(), "name", circle.Challenger):
            for call in (self.prove, self.verify):
                with self.assertRaisesRegex(TypeError, "expected a Challenger, got "):
                    call(wrong)


class Starks:
    """Tests of a proof of a STARK from a challenger, by the library or its stand-in."""

    def setUp(self):
        super().setUp()
        self.mine = statement("fibonacci_8_rows", fibonacci())
        self.rows = stand_in.stored("fibonacci_8_rows", "prove")["rows"]
        self.stored = stand_in.stored("fibonacci_8_rows", "verify")["proof"]

    def expected_state(self, proof, challenger):
        """The state in which the verifier of examples leaves a challenger."""
        other = stand_in.challenger_of(challenger.to_bytes())
        texts = self.mine.to_json().encode(), stand_in.compact(proof)
        self.assertEqual(stand_in.verified(*texts, other)[1], 0)
        return other.state

    def test_an_unused_one_is_none(self):
        challenger = circle.Challenger()
        proof = stark.prove(self.mine, self.rows, challenger=challenger)
        self.assertEqual(proof.to_value(), self.stored)
        state = self.expected_state(self.stored, circle.Challenger())
        self.assertEqual(challenger.to_bytes(), state)
        verifier = circle.Challenger()
        stark.verify(self.mine, proof, challenger=verifier)
        self.assertEqual(verifier, challenger)
        self.assertIsNone(stark.verify(self.mine, proof))

    def test_lines_that_are_longer_than_most(self):
        challengers = circle.Challenger(), circle.Challenger()
        short = unittest.mock.patch.multiple(stark, _VERDICT_LEN=1, _PROOF_LEN=1)
        with short:
            proof = stark.prove(self.mine, self.rows, challenger=challengers[0])
            stark.verify(self.mine, proof, challenger=challengers[1])
        self.assertEqual(proof.to_value(), self.stored)
        for challenger in challengers:
            state = self.expected_state(self.stored, circle.Challenger())
            self.assertEqual(challenger.to_bytes(), state)

    def test_a_challenger_is_as_it_was(self):
        used, rows = challenger_with(NAME), [*self.rows[:7], [21, 35]]
        challenger = used.copy()
        for claims, proof in ((self.mine, self.stored), (self.mine, {**self.stored, "more": 1})):
            with self.assertRaises(circle.Error):
                stark.verify(claims, proof, challenger=challenger)
        with self.assertRaises(circle.Unsatisfied):
            stark.prove(self.mine, rows, challenger=challenger)
        with self.assertRaises(ValueError):
            stark.prove(self.mine, rows[:4], challenger=challenger)
        self.assertEqual(challenger, used)
        with self.assertRaisesRegex(TypeError, "expected a Challenger, got bytes"):
            stark.verify(self.mine, self.stored, challenger=NAME)


class InPlace(unittest.TestCase):
    """Tests by the stand-in."""

    def setUp(self):
        stopped = stand_in.in_place()
        stopped.start()
        self.addCleanup(stopped.stop)


without_library = unittest.skipUnless(stand_in.library_fault(), "the library is there")


@without_library
class ChallengersOfStandIn(Challengers, InPlace):
    pass


@without_library
class ProtocolOfStandIn(Protocol, InPlace):
    pass


@without_library
class StarksOfStandIn(Starks, InPlace):
    pass


@needs_library
class ChallengersOfLibrary(Challengers, unittest.TestCase):
    pass


@needs_library
class ProtocolOfLibrary(Protocol, unittest.TestCase):
    rows = SUMS

    def test_stored_statements(self):
        """A challenger that has absorbed the commitments alone makes the stored proofs."""
        for name in given.NAMES:
            asked = json.loads(given.stored(name, "prove"))
            batches, params = asked["batches"], asked["params"]
            commitments = circle.commit(batches, params)
            statement, proof, _ = parts(json.loads(given.stored(name, "verify")))
            self.assertEqual(commitments, [it.commitment for it in statement.batches])
            prover, verifier = challenger_with(*commitments), challenger_with(*commitments)
            made = circle.prove(batches, params, challenger=prover)
            self.assertEqual(made, (statement, proof))
            circle.verify(*made, params, challenger=verifier)
            self.assertEqual(verifier, prover)
            self.assertIsNone(circle.verify(*made, params))

    def test_sevens_are_proved_as_by_another_prover(self):
        [commitment], challenger = circle.commit([[SEVENS]], PARAMS), challenger_with(NAME)
        other = stand_in.challenger_of(challenger.to_bytes())
        point = stand_in.verify.Cubic(3, 1, 4)
        value = stand_in.forge.forged(6, point, stand_in.verify.Cubic(7), other)
        expected = circle.Proof.from_json(stand_in.compact(value["proof"]))
        made = circle.prove([[circle.Matrix([point], SEVENS)]], PARAMS, challenger=challenger)
        self.assertEqual(made, (claimed(commitment, 2, point, [(7, 0, 0)]), expected))
        self.assertEqual(challenger.to_bytes(), other.state)

    def test_another_state_is_refused(self):
        for absorbed in ([b"another", self.commitment], [NAME], [self.commitment, NAME], []):
            verifier = challenger_with(*absorbed)
            self.assertNotEqual(verifier.sample_point(), self.point)
            self.refused(verifier)
        self.refused(challenger_with(NAME, self.commitment))
        for move, *what in (("sample_point",), ("observe", b""), ("observe_elements", [0])):
            verifier = self.before.copy()
            getattr(verifier, move)(*what)
            self.refused(verifier)
        self.assertRaises(circle.Refused, circle.verify, self.statement, self.proof, PARAMS)

    def test_another_point_is_refused(self):
        other = tuple(it ^ 1 for it in self.point)
        self.refused(self.before, claimed(self.commitment, self.log_n, other, self.values))
        self.assertNotEqual(self.prover, self.before)


@needs_library
class StarksOfLibrary(Starks, unittest.TestCase):
    def test_a_name_is_absorbed(self):
        prover, verifier = challenger_with(NAME), challenger_with(NAME)
        proof = stark.prove(self.mine, self.rows, challenger=prover)
        self.assertNotEqual(proof.to_value(), self.stored)
        self.assertEqual(prover.to_bytes(), self.expected_state(proof.to_value(), verifier))
        stark.verify(self.mine, proof, challenger=verifier)
        self.assertEqual(verifier, prover)
        others = challenger_with(b"another"), challenger_with(NAME, b"")
        for other in (None, circle.Challenger(), *others):
            with self.assertRaises(circle.Refused):
                stark.verify(self.mine, proof, challenger=other)


if __name__ == "__main__":
    unittest.main()
