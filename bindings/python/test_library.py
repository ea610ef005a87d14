#!/usr/bin/env python3
"""Tests of a library that is at fault, or older than the package.

No input of the caller is to blame for a line that the library never returns: each call then raises
RuntimeError. A call that an older library lacks raises OSError, and the others can still be made.
"""

import os
import pathlib
import shutil
import subprocess
import sys
import tempfile
import unittest

import stand_in
import test_circle as given

import circle
from circle import stark

PARAMS = circle.Params(log_blowup=1, num_queries=6)
POINT, ROWS = (0, 1, 0), [[7]] * 4
DIGEST = "0a" * 32
# A library with one call, which says that no text is JSON.
OLDER = """
#include <stddef.h>
#include <stdint.h>
#include <string.h>
uint8_t circle_shape(const uint8_t *text, size_t text_len, uint8_t *line, size_t line_len,
                     size_t *needed) {
    static const char said[] = "{\\"unreadable\\":\\"json\\"}\\n";
    *needed = sizeof said - 1;
    if (*needed <= line_len) {
        memcpy(line, said, *needed);
    }
    return 2;
}
"""


def small_air():
    air = circle.Air(columns=1)
    air.every_row.assert_zero(air.columns[0])
    return air


class Faults(unittest.TestCase):
    def setUp(self):
        self.challenger = circle.Challenger.from_bytes(bytes(range(32)))
        self.statement = stark.Statement(small_air(), 1, [], PARAMS)
        stored = stand_in.stored("fibonacci_8_rows", "verify")["proof"]
        self.proof = stark.Proof.from_value(stored)

    def expect_fault(self, line, call, *arguments, status=0, **how):
        before = self.challenger.copy()
        with stand_in.in_place(stand_in.returning(line, status)):
            with self.assertRaisesRegex(RuntimeError, "the library returned ") as raised:
                call(*arguments, **how)
        self.assertEqual(self.challenger, before)
        return str(raised.exception)

    def test_of_commit(self):
        for line in (
            *(b"{}\n", b"[]\n", b"7\n", b"\n", b"", b"\xff\n", b'{"commitments":7}\n'),
            *(b'{"commitments":["00"]}\n', b'{"commitments":[7]}\n', b'{"commitments":[]}\n'),
            f'{{"commitments":["{DIGEST}"]}}'.encode(),
            f'{{"commitments":["{DIGEST}","{DIGEST}"]}}\n'.encode(),
        ):
            self.expect_fault(line, circle.commit, [[ROWS]], PARAMS)

    def test_of_prove(self):
        batches = [[circle.Matrix([POINT], ROWS)]]
        for line in (b"{}\n", b"[]\n", b'{"batches":[],"params":{},"proof":{}}\n', b"{"):
            for challenger in (None, self.challenger):
                how = {"challenger": challenger}
                self.expect_fault(line, circle.prove, batches, PARAMS, **how)

    def test_of_verify(self):
        statement, proof = circle.Statement([]), self.proof.opening_proof
        for line in (b"{}\n", b'{"verified":false}\n', b'{"verified":true}'):
            for challenger in (None, self.challenger):
                how = {"challenger": challenger}
                self.expect_fault(line, circle.verify, statement, proof, PARAMS, **how)
            self.expect_fault(line, circle.verify_as_stated, "{}")

    def test_of_starks(self):
        rows, how = [[0]] * 2, {"challenger": self.challenger}
        for line in (b"{}\n", b"[]\n", b'{"proof":{}}\n', b'{"verified":true}\n', b'{"proof":7}\n'):
            self.expect_fault(line, stark.check, self.statement.air, rows)
            self.expect_fault(line, stark.prove, self.statement, rows, **how)
            self.expect_fault(line, stark.verify, self.statement, self.proof, **how)
            self.expect_fault(line, stark.check_text, "{}")
            self.expect_fault(line, stark.verify_text, "{}", "{}")

    def test_of_texts(self):
        for call in (circle.values, circle.shape, circle.prove_text, stark.prove_text):
            for line in (b"", b"{}", b"\xff\n"):
                self.expect_fault(line, call, "{}")

    def test_other_statuses_and_lines(self):
        for status, line in (
            *((1, b'{"unreadable":"json"}\n'), (2, b'{"refused":"Memory"}\n'), (1, b"{}\n")),
            *((3, b'{"refused":"Memory"}\n'), (2, b"\xff\n"), (1, b'{"refused":"Memory"}')),
        ):
            self.expect_fault(line, circle.verify_as_stated, "{}", status=status)

    def test_a_long_line_is_cut(self):
        told = self.expect_fault(b"x" * 10**6 + b"\n", circle.verify_as_stated, "{}")
        self.assertLess(len(told), 300)

    def test_a_constraint_that_the_air_hasnt(self):
        line = b'{"constraint":7,"refused":"Unsatisfied","row":2}\n'
        with stand_in.in_place(stand_in.returning(line, 1)):
            with self.assertRaises(circle.Unsatisfied) as raised:
                stark.check(self.statement.air, [[0]] * 2)
        self.assertIsNone(raised.exception.constraint_name)

    def test_an_element_that_the_library_rejects(self):
        calls = {"circle_challenger_observe_element": staticmethod(lambda state, number: 1)}
        with stand_in.in_place(type("Rejecting", (), calls)):
            with self.assertRaisesRegex(RuntimeError, r"rejected 7: not below 2\^31 - 1"):
                self.challenger.observe_elements([7])


class Older(unittest.TestCase):
    def test_a_call_that_it_lacks(self):
        with stand_in.in_place():
            with self.assertRaisesRegex(OSError, "has no circle_values: it is older than this"):
                circle.values("{}")

    @unittest.skipUnless(shutil.which("cc"), "the C compiler cc isn't on the path")
    def test_the_calls_that_it_has(self):
        program = """if True:
            import circle
            for call in (circle.shape, circle.values, lambda _: circle.Challenger().observe(b"")):
                try:
                    call("")
                except Exception as fault:
                    print(repr(fault))
        """
        with tempfile.TemporaryDirectory() as folder:
            library = pathlib.Path(folder, "libcircle.so")
            words = ["cc", "-shared", "-fPIC", "-x", "c", "-", "-o", library]
            subprocess.run(words, input=OLDER, text=True, check=True)
            where = {"CIRCLE_LIBRARIES": folder, "PYTHONPATH": str(given.HERE)}
            how = {"capture_output": True, "text": True, "env": {**os.environ, **where}}
            ran = subprocess.run([sys.executable, "-B", "-c", program], check=True, **how)
        lacking = f"OSError('{library} has no circle_{{}}: it is older than this package')"
        names = "values", "challenger_observe"
        expected = ["Unreadable('json')", *(lacking.format(name) for name in names)]
        self.assertEqual(ran.stdout.splitlines(), expected)


if __name__ == "__main__":
    unittest.main()
