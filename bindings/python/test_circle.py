#!/usr/bin/env python3
"""Tests of the package circle, over the stored proofs and the cases of crates/test_cases/data.

What is due of the cases comes from outside of the library.
"""

import concurrent.futures
import copy
import importlib.machinery
import importlib.util
import json
import os
import pathlib
import subprocess
import sys
import tempfile
import threading
import unittest

sys.dont_write_bytecode = True
HERE = pathlib.Path(__file__).resolve().parent
sys.path.insert(0, str(HERE))

import circle  # noqa: E402

TOP = pathlib.Path(__file__).resolve().parent.parent.parent
DATA = TOP / "crates" / "test_cases" / "data"
PROOFS = TOP / "examples" / "proofs"
NAMES = sorted(path.name.split(".")[0] for path in PROOFS.glob("*.verify.json"))
SEVENS = {
    "batch_pow_bits": 0,
    "commit_pow_bits": 0,
    "log_blowup": 1,
    "max_log_arity": 1,
    "num_queries": 2,
    "query_pow_bits": 0,
}
LONG = 100_000_000


def script(name):
    """A script of checks/ as a module."""
    loader = importlib.machinery.SourceFileLoader(name, str(TOP / "checks" / name))
    module = importlib.util.module_from_spec(importlib.util.spec_from_loader(name, loader))
    loader.exec_module(module)
    return module


# It reads the cases.
verify_py = script("verify_py")


def stored(name, kind):
    return (PROOFS / f"{name}.{kind}.json").read_text().rstrip()


def compact(value):
    return json.dumps(value, separators=(",", ":"))


def change_of(parts):
    """A change of a JSON Patch: the value behind these parts of a path becomes the last one."""
    *path, value = parts
    return {"op": "replace", "path": "".join(f"/{part}" for part in path), "value": value}


def verdict(text):
    circle.verify_as_stated(text)
    return '{"verified":true}'


CALLS = {
    "values": circle.values,
    "prove": circle.prove_text,
    "verify": verdict,
    "shape": circle.shape,
    "prove | verify": lambda text: verdict(circle.prove_text(text)),
}


def answer(call, text):
    """The line that is printed, as its value, and the status."""
    try:
        return json.loads(CALLS[call](text)), 0
    except circle.Refused as refused:
        return {"refused": refused.name}, 1
    except circle.Unreadable as unreadable:
        return {"unreadable": unreadable.name}, 2


def given_text(given):
    """The text that a case gives."""
    return given["text"] if "text" in given else compact(verify_py.given_value(given))


def is_due(found, due):
    """Whether a result is what is due."""
    line, status = found
    if status != due["status"]:
        return False
    if "one_of" in due:
        return line.get("refused") in due["one_of"]
    if "members" in due:
        return {key: line.get(key) for key in due["members"]} == due["members"]
    return line == (due["line"] if "line" in due else json.loads((DATA / due["file"]).read_text()))


class Cases(unittest.TestCase):
    def test_cases_of_commands(self):
        count = 0
        for case in verify_py.all_cases():
            if case["call"] not in CALLS:
                continue
            count += 1
            case = verify_py.whole(case)
            found = answer(case["call"], given_text(case["given"]))
            with self.subTest(case["name"]):
                self.assertTrue(is_due(found, case["due"]), (found, case["due"]))
        self.assertGreater(count, 500)


class StoredProofs(unittest.TestCase):
    def test_they_are_accepted(self):
        for name in NAMES:
            self.assertIsNone(circle.verify_as_stated(stored(name, "verify")))
            self.assertIsNone(circle.verify_as_stated(stored(name, "verify").encode()))

    def test_statements_are_proved_by_the_same_bytes(self):
        for name in NAMES:
            self.assertEqual(circle.prove_text(stored(name, "prove")), stored(name, "verify"))


class Params(unittest.TestCase):
    def refused(self, name, error, text, params):
        with self.assertRaises(error) as raised:
            circle.verify_text(text, params)
        self.assertEqual(raised.exception.name, name)

    def test_each_is_compared(self):
        text = stored("sevens", "verify")
        self.assertIsNone(circle.verify_text(text, SEVENS))
        self.assertIsNone(circle.verify_text(text, {**SEVENS, "log_final_poly_len": 0}))
        self.assertIsNone(circle.verify_text(text, circle.Params(log_blowup=1, num_queries=2)))
        for name in [*SEVENS, "log_final_poly_len"]:
            for other in (3, 2**64 - 1):
                self.refused("ParametersDiffer", circle.Refused, text, {**SEVENS, name: other})

    def test_faults_of_the_form_come_first(self):
        value, other = json.loads(stored("sevens", "verify")), {**SEVENS, "num_queries": 3}
        value["params"]["max_log_arity"] = -1
        self.refused("OutOfRange", circle.Unreadable, compact(value), other)
        value["params"]["max_log_arity"] = 2
        self.refused("ParametersDiffer", circle.Refused, compact(value), other)
        same = {**SEVENS, "max_log_arity": 2}
        self.refused("UnsupportedFoldingCap", circle.Refused, compact(value), same)

    def test_what_are_no_parameters_is_told(self):
        text = stored("sevens", "verify")
        less = {name: number for name, number in SEVENS.items() if name != "num_queries"}
        self.refused("MissingKey", circle.Unreadable, text, less)
        self.refused("UnknownKey", circle.Unreadable, text, {**SEVENS, "queries": 2})
        for params in (None, 7, [2, 1], ((1, 2),)):
            self.refused("WrongKind", circle.Unreadable, text, params)
        wrong = {-1: "OutOfRange", 2**64: "WrongKind", 2.0: "WrongKind", "2": "WrongKind"}
        for number, name in [*wrong.items(), (None, "WrongKind")]:
            self.refused(name, circle.Unreadable, text, {**SEVENS, "num_queries": number})
        for params in (text, circle.Statement([])):
            with self.assertRaisesRegex(TypeError, "expected a Params or its JSON value, got "):
                circle.verify_text(text, params)

    def test_true_and_false_are_no_parameters(self):
        text = stored("sevens", "verify")
        for name in [*SEVENS, "log_final_poly_len"]:
            for wrong in (True, False):
                told = f"WrongKind at {name}: {wrong} isn't a whole number below 2"
                with self.assertRaisesRegex(ValueError, told):
                    circle.verify_text(text, {**SEVENS, name: wrong})


class Texts(unittest.TestCase):
    def unreadable(self, name, text):
        with self.assertRaises(circle.Unreadable) as raised:
            circle.verify_as_stated(text)
        self.assertEqual((raised.exception.name, raised.exception.path), (name, ""))

    def test_texts_that_are_no_json(self):
        for text in ("", " ", "\0", "\ufeff", "\ud800", b"", b"\xff", b"{\xc3\x28}"):
            self.unreadable("json", text)
        for value in (None, 7, {}, []):
            kind = type(value).__name__
            with self.assertRaisesRegex(TypeError, f"expected str or bytes, got {kind}"):
                circle.verify_as_stated(value)

    def test_the_path_of_what_cant_be_read(self):
        inputs = {kind: json.loads(stored("sevens", kind)) for kind in ("prove", "verify")}
        inputs["values"] = {"coefficients": [[7], [8]], "log_n": 1, "shift": [0, 1]}
        inputs["shape"] = json.loads((DATA / "one_claim.shape.json").read_text())
        for command, change, name, path in (
            ("verify", ["proof", "lambdas", 0, 1, -1], "OutOfRange", "proof.lambdas[0][1]"),
            ("verify", ["batches", 0, "commitment", "0"], "BadHex", "batches[0].commitment"),
            ("verify", ["params", "more", 1], "UnknownKey", "params.more"),
            ("prove", ["batches", 0, 0, "rows", 1, "7"], "WrongKind", "batches[0][0].rows[1]"),
            ("values", ["coefficients", 1, True], "WrongKind", "coefficients[1]"),
            ("shape", ["log_max_height", 1.5], "WrongKind", "log_max_height"),
        ):
            value = inputs[command]
            given = verify_py.patched(copy.deepcopy(value), [change_of(change)])
            with self.assertRaises(circle.Unreadable) as raised:
                CALLS[command](compact(given))
            self.assertEqual((raised.exception.name, raised.exception.path), (name, path))

    def test_bytes_of_all_kinds(self):
        text = stored("sevens", "verify").encode()
        for given in (text, bytearray(text), memoryview(text)):
            self.assertIsNone(circle.verify_as_stated(given))

    def test_long_texts(self):
        text = stored("sevens", "verify").encode()
        spaces = b" " * (LONG - len(text))
        self.assertIsNone(circle.verify_as_stated(spaces + text))
        self.assertIsNone(circle.verify_as_stated(text + spaces))
        self.unreadable("json", text + spaces + b"x")
        self.unreadable("json", b"[" * LONG)

    def test_a_result_longer_than_most(self):
        given = {"coefficients": [[7]], "log_n": 21, "shift": [0, 1]}
        line = circle.values(compact(given))
        self.assertEqual(len(line), len('{"rows":[]}') + len("[7],") * 2**21 - 1)
        self.assertEqual(line.count("[7]"), 2**21)


class Libraries(unittest.TestCase):
    def said(self, libraries):
        """What the first call says where the environment names these libraries."""
        program = "import circle\ntry: circle.shape('')\nexcept Exception as it: print(repr(it))"
        where = {**os.environ, "CIRCLE_LIBRARIES": libraries, "PYTHONPATH": str(HERE)}
        how = {"capture_output": True, "text": True, "env": where, "check": True}
        return subprocess.run([sys.executable, "-B", "-c", program], **how).stdout

    def test_a_folder_that_is_named(self):
        with tempfile.TemporaryDirectory() as folder:
            told = f"CIRCLE_LIBRARIES names {folder!r}, where there is no libcircle.so"
            self.assertIn(told, self.said(folder))
            built = pathlib.Path(os.environ.get("CIRCLE_LIBRARIES", TOP / "bindings" / "c" / "out"))
            (pathlib.Path(folder) / "libcircle.so").symlink_to(built / "libcircle.so")
            self.assertEqual(self.said(folder), "Unreadable('json')\n")

    def test_a_folder_that_is_relative_or_gone(self):
        for name in ("", ".", "bindings/c/out", "/nowhere"):
            told = "names" if name == "/nowhere" else "must be an absolute path:"
            self.assertIn(f"CIRCLE_LIBRARIES {told} {name!r}", self.said(name))


class Threads(unittest.TestCase):
    def test_eight_call_at_once(self):
        barrier = threading.Barrier(8)

        def calls(name):
            text, statement = stored(name, "verify"), stored(name, "prove")
            barrier.wait()
            for _ in range(20):
                self.assertIsNone(circle.verify_as_stated(text))
                self.assertEqual(circle.prove_text(statement), text)

        with concurrent.futures.ThreadPoolExecutor(8) as pool:
            list(pool.map(calls, (NAMES[it % len(NAMES)] for it in range(8))))

    def test_a_small_stack_is_enough(self):
        before = threading.stack_size(1 << 20)
        self.addCleanup(threading.stack_size, before)
        done = []
        thread = threading.Thread(target=lambda: done.append(verdict(stored("sevens", "verify"))))
        thread.start()
        thread.join()
        self.assertEqual(len(done), 1)

    def status_of_child(self):
        """How a forked child's call ends: 0 where it returns, 3 where it isn't allowed."""
        child = os.fork()
        if child == 0:
            try:
                circle.verify_as_stated(stored("sevens", "verify"))
                os._exit(0)
            except RuntimeError:
                os._exit(3)
            finally:
                os._exit(1)
        return os.WEXITSTATUS(os.waitpid(child, 0)[1])

    def test_a_forked_child(self):
        self.assertEqual(self.status_of_child(), 0)
        end = threading.Event()
        thread = threading.Thread(target=end.wait)
        thread.start()
        self.addCleanup(thread.join)
        self.addCleanup(end.set)
        self.assertEqual(self.status_of_child(), 3)


if __name__ == "__main__":
    unittest.main()
