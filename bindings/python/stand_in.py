"""A stand-in for the library, by which the package's own part is tested where there is no library.

It has the STARK calls, the challenger calls, and those scheme calls that a protocol makes. The last
prove what examples/forge.py can, a column of four sevens. What calls return comes from
reference.py, examples/verify.py, examples/verify_stark.py, examples/forge.py, the stored proofs of
examples/starks and hashlib, and nothing of it from the library.
"""

import ctypes
import itertools
import json
import unittest.mock

import reference
import test_circle as given

import circle

STARKS = given.TOP / "examples" / "starks"
# These read inputs, verify proofs and have challengers.
verify_stark = given.script("../examples/verify_stark.py")
verify = verify_stark.verify
# It proves that a column has the value 7.
forge = given.script("../examples/forge.py")
ROWS = {"public_values": [verify_stark.P], "rows": [[verify_stark.P]]}
CHECK = {"air": verify_stark.AIR, **ROWS}
PROVE = {**CHECK, "params": verify_stark.params}
PROOF = verify_stark.INPUT["proof"]
STATEMENT = {key: form for key, form in verify_stark.INPUT.items() if key != "proof"}
MATRICES = [[{"points": [verify.cubic], "rows": [[verify_stark.P]]}]]
BATCHES = {"batches": MATRICES, "params": verify.params}
REFUSED, UNREADABLE = 1, 2


def stored(name, kind):
    return json.loads((STARKS / f"{name}.{kind}.json").read_bytes())


def names():
    """The names of the stored proofs."""
    return sorted(path.name.split(".")[0] for path in STARKS.glob("*.verify.json"))


def is_power_of_two(count):
    return count > 0 and count & (count - 1) == 0


def refusals(value):
    """The refusals of an input of `check` but the last, in order, each with whether it applies."""
    air, rows = value["air"], value["rows"]
    yield from verify_stark.air_refusals(air, [])
    yield "RaggedRows", len(set(map(len, rows))) > 1 or [] in rows
    yield "HeightNotPowerOfTwo", not is_power_of_two(len(rows))
    yield "PublicValuesMismatch", len(value["public_values"]) != air["num_public_values"]
    yield "WidthMismatch", len(rows[0]) != air["width"]
    yield "PeriodTooLong", any(len(it) > len(rows) for it in air["periodic_columns"])


def checked(text):
    """The line and the status of `check`."""
    value = verify_stark.parse(text)
    has_params = isinstance(value, dict) and "params" in value
    read = verify_stark.read(PROVE if has_params else CHECK, value)
    for name, applies in refusals(read):
        if applies:
            return {"refused": name}, REFUSED
    found = reference.first_violation(value["air"], value["rows"], value["public_values"])
    if found is None:
        return {"satisfied": True}, 0
    return {"constraint": found[1], "refused": "Unsatisfied", "row": found[0]}, REFUSED


def proved(text):
    """The line and the status of `prove`, of the stored inputs and of rows that are refused."""
    line, status = checked(text)
    if status:
        return line, status
    asked = verify_stark.read(PROVE, json.loads(text))
    is_same = {it: verify_stark.read(PROVE, stored(it, "prove")) == asked for it in names()}
    return next(stored(it, "verify") for it in names() if is_same[it]), 0


def unread(name, form, text):
    """The line of a text that can't be read, and None of one that can."""
    try:
        verify_stark.read(form, verify_stark.parse(text))
    except verify_stark.Unreadable as why:
        return {"text": name, "unreadable": str(why)}
    return None


def verified(statement, proof, challenger=None):
    """The line and the status of `verify`."""
    line = unread("statement", STATEMENT, statement) or unread("proof", PROOF, proof)
    if line:
        return line, UNREADABLE
    value = {**json.loads(statement), "proof": json.loads(proof)}
    return verify_stark.answer(lambda: json.dumps(value).encode(), challenger=challenger)


def stark_prove_from(text, challenger):
    """The line and the status of `prove`, from a challenger that has absorbed nothing."""
    line, status = proved(text)
    if status == 0:
        assert not any(challenger.state), "no stored proof is from this challenger"
        statement, proof = dict(line), line["proof"]
        del statement["proof"]
        verified(compact(statement), compact(proof), challenger)
    return line, status


def compact(value):
    """The text of a value of JSON, as the library writes it."""
    return json.dumps(value, default=bytes.hex, separators=(",", ":"), sort_keys=True).encode()


def commit(text):
    """The line and the status of `commit`."""
    batches = verify.read(BATCHES, verify.parse(text))["batches"]
    rows = [matrix["rows"] for batch in batches for matrix in batch]
    if not all(is_power_of_two(len(it)) for it in rows):
        return {"refused": "HeightNotPowerOfTwo"}, REFUSED
    assert rows == [[[7]] * 2**forge.LOG_N] * len(batches), "these rows can't be committed to"
    return {"commitments": [forge.committed()[0][0].hex()] * len(batches)}, 0


def prove_from(text, challenger):
    """The line and the status of `prove`."""
    line, status = commit(text)
    if status:
        return line, status
    given = verify.read(BATCHES, json.loads(text))
    [[matrix]], seven = given["batches"], verify.Cubic(7)
    queries = given["params"]["num_queries"]
    value = forge.forged(queries, *matrix["points"], value=seven, challenger=challenger)
    return json.loads(compact(value)), 0


def verify_from(text, params, challenger):
    """The line and the status of `verify`."""
    given = verify.read(verify.INPUT, verify.parse(text))
    if any(number != getattr(params, name) for name, number in given["params"].items()):
        return {"refused": "ParametersDiffer"}, REFUSED
    run = verify.Run(**given)
    tests = verify.tests_from(run, challenger, lambda text, **values: None)
    for name, applies in itertools.chain(verify.tests_before(run), tests):
        if applies:
            return {"refused": name}, REFUSED
    return {"verified": True}, 0


def answer(call, *given):
    try:
        return call(*given)
    except verify_stark.Unreadable as why:
        return {"unreadable": str(why)}, UNREADABLE


def challenger_of(state):
    """The challenger of a state."""
    challenger = verify.Challenger()
    challenger.state = bytes(state)
    return challenger


def leave(state, challenger):
    """Puts a challenger's state into the place of another."""
    ctypes.memmove(ctypes.byref(state), challenger.state, len(challenger.state))


def as_call(call, leaves_if_short=False):
    """A function with the arguments of the library's call. If there is a result, a call from a
    challenger leaves its state: a prover's if the line fits, a verifier's even if it doesn't."""

    def made(*arguments):
        *given, line, line_len, needed = arguments
        given = [it for it in given if not isinstance(it, int)]
        states = [it for it in given if isinstance(it, circle.library.State)]
        challengers = [challenger_of(state) for state in states]
        value, status = answer(call, *given[: len(given) - len(states)], *challengers)
        told = json.dumps(value, separators=(",", ":")).encode() + b"\n"
        needed._obj.value = len(told)
        if len(told) <= line_len:
            ctypes.memmove(line, told, len(told))
        for state, challenger in zip(states, challengers):
            if status == 0 and (leaves_if_short or len(told) <= line_len):
                leave(state, challenger)
        return status

    return made


def observe(state, data, count):
    challenger = challenger_of(state)
    challenger.observe(data[:count])
    leave(state, challenger)


def observe_element(state, number):
    if number >= verify.P:
        return 1
    challenger = challenger_of(state)
    challenger.observe(number)
    leave(state, challenger)
    return 0


def sample(state, drawn):
    challenger = challenger_of(state)
    drawn[:] = [challenger.squeeze() % verify.P for _ in drawn]
    leave(state, challenger)


class Library:
    """The calls that there are."""

    circle_challenger_observe = staticmethod(observe)
    circle_challenger_observe_element = staticmethod(observe_element)
    circle_challenger_sample = staticmethod(sample)
    circle_commit = staticmethod(as_call(commit))
    circle_prove_from = staticmethod(as_call(prove_from))
    circle_verify_from = staticmethod(as_call(verify_from, leaves_if_short=True))
    circle_stark_check = staticmethod(as_call(checked))
    circle_stark_prove = staticmethod(as_call(proved))
    circle_stark_prove_from = staticmethod(as_call(stark_prove_from))
    circle_stark_verify = staticmethod(as_call(verified))
    circle_stark_verify_from = staticmethod(as_call(verified, leaves_if_short=True))


def library_fault():
    """Why the library's calls can't be made, and None if they can."""
    try:
        for name in circle.library._types():
            circle.library._call(name)
    except OSError as fault:
        return str(fault)
    return None


def in_place(library=Library):
    """Puts the stand-in into the library's place, until it is stopped."""
    return unittest.mock.patch.object(circle.library, "_library", library)


def returning(line, status=0):
    """A library whose calls by texts return this line, with its newline, and this status."""

    def call(*arguments):
        *_, into, into_len, needed = arguments
        needed._obj.value = len(line)
        if len(line) <= into_len:
            ctypes.memmove(into, line, len(line))
        return status

    calls = {f"circle_{name}": staticmethod(call) for name in circle.library._types()}
    return type("Returning", (), calls)
