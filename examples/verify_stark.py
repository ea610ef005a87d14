#!/usr/bin/env python3
"""Verifies proofs that rows of a trace satisfy constraints. Written from docs/STARK.md, in its
order, over the verifier of openings beside it (verify.py).

    python3 examples/verify_stark.py [--trace] [FILE]

reads FILE, or standard input if none is named, and writes the line that a verifier of the statement
in the file is due to write: status 0 where it accepts, 1 where it refuses, 2 where the file can't
be read. With --trace it writes to standard error each value of the STARK's own steps, and between
them the lines that verify.py writes of the scheme's.
"""
import functools, json, os, pathlib, sys

sys.path.insert(0, str(pathlib.Path(__file__).resolve().parent))
import verify
from verify import COUNT, DIGEST, P, PROOF, C, Challenger, Cubic, H, Run, Unreadable, add, be64
from verify import counted, cubic, expect, fold, from_line, gen, lift, natural_place, params, parse
from verify import read, sha, u

# 1. Constraints as data
OPERANDS = {"local": 1, "next": 1, "periodic": 1, "public": 1, "constant": 1, "add": 2, "sub": 2,
            "mul": 2, "neg": 1}
PLACES = ["every", "first", "last", "transition"]

def node(value):
    """A node as its name and its operands."""
    expect(type(value) is dict, "WrongKind")
    expect(value, "MissingKey")
    expect(len(value) == 1 and next(iter(value)) in OPERANDS, "UnknownKey")
    [(name, operands)] = value.items()
    if OPERANDS[name] == 1:
        return name, [read(P if name == "constant" else COUNT, operands)]
    expect(type(operands) is list and len(operands) == 2, "WrongKind")
    return name, read([COUNT], operands)

def place(value):
    expect(type(value) is str and value in PLACES, "WrongKind")
    return value

AIR = {"width": COUNT, "num_public_values": COUNT, "periodic_columns": [[P]], "nodes": [node],
       "constraints": [{"node": COUNT, "when": place}]}

def node_refusals(air, degrees, name, operands):
    """The refusals of a node behind nodes of these degrees, whose own is appended."""
    earlier = name in ("add", "sub", "mul", "neg")
    yield "NodeOutOfOrder", earlier and any(a >= len(degrees) for a in operands)
    yield "ColumnOutOfRange", name in ("local", "next") and operands[0] >= air["width"]
    yield "PeriodicOutOfRange", name == "periodic" and operands[0] >= len(air["periodic_columns"])
    yield "PublicOutOfRange", name == "public" and operands[0] >= air["num_public_values"]
    of = [degrees[a] for a in operands] if earlier else [name in ("local", "next", "periodic")]
    degrees.append(sum(of) if name == "mul" else max(of))
    yield "DegreeTooHigh", degrees[-1] > 2**30

def air_refusals(air, degrees):
    """The refusals of an AIR, in order. Its nodes' degrees are appended."""
    lengths = [len(column) for column in air["periodic_columns"]]
    yield "NoColumns", air["width"] == 0
    yield "PeriodicLength", any(n == 0 or n & (n - 1) for n in lengths)
    for name, operands in air["nodes"]:
        yield from node_refusals(air, degrees, name, operands)
    yield "NoConstraints", not air["constraints"]
    yield "ConstraintOutOfRange", any(c["node"] >= len(degrees) for c in air["constraints"])

def log_chunks(air, degrees):
    """The logarithm of the number of chunks of the quotient."""
    greatest = max(degrees[c["node"]] + (c["when"] != "every") for c in air["constraints"])
    return next(k for k in range(1, 64) if 2**k + 1 >= greatest)

def element(x): return x.to_bytes(4, "big")
def listed(texts): return be64(len(texts)) + b"".join(texts)
def node_text(name, operands):
    text = element if name == "constant" else be64
    return bytes([list(OPERANDS).index(name)]) + b"".join(map(text, operands))
def air_text(air):
    columns = [listed([element(x) for x in column]) for column in air["periodic_columns"]]
    nodes = [node_text(*node) for node in air["nodes"]]
    constraints = [bytes([PLACES.index(c["when"])]) + be64(c["node"]) for c in air["constraints"]]
    counts = be64(4) + be64(air["width"]) + be64(air["num_public_values"])
    lists = [listed(texts) for texts in (columns, nodes, constraints)]
    return b"".join([b"circle-air", bytes([1]), counts, *lists])
def digest(air): return sha(air_text(air))

# 2. The transcript
MESSAGE, CHALLENGE, ALGEBRA, OPAQUE, SCALAR, FIXED = 0, 1, 0, 1, 0, 1

def step(label, kind, value_type, parameter, form=SCALAR, length=1):
    head = bytes([0, kind, value_type]) + be64(parameter)
    return head + counted(label.encode()) + bytes([form]) + be64(length)

def seed_text(air, log_n, count):
    steps = [step("public_values", MESSAGE, ALGEBRA, 1, FIXED, count)] if count else []
    steps += [step("trace_commitment", MESSAGE, OPAQUE, 0),
              step("constraint_challenge", CHALLENGE, ALGEBRA, 3),
              step("quotient_commitment", MESSAGE, OPAQUE, 0),
              step("out_of_domain_point", CHALLENGE, ALGEBRA, 3)]
    head = bytes([1]) + counted(b"circle-stark") + be64(len(steps)) + b"".join(steps)
    return head + be64(2) + counted(digest(air)) + counted(be64(log_n))

def draw(challenger, statement, proof, trace):
    """The challenge that puts the constraints together, and the coordinate of the opened point."""
    def absorb(what, values):
        for value in values:
            challenger.observe(value)
        trace("stark", **{f"state_after_{what}": challenger.state})
    def drawn(what):
        value = Cubic(*[challenger.squeeze() for _ in range(3)])
        trace("stark", **{what: value, f"state_after_{what}": challenger.state})
        return value
    air, log_n, public = statement
    seed = seed_text(air, log_n, len(public))
    trace("stark", seed_bytes=len(seed), seed=seed)
    absorb("seed", seed)
    absorb("public_values", public)
    absorb("trace", [proof["trace_commitment"]])
    alpha = drawn("alpha")
    absorb("quotient", [proof["quotient_commitment"]])
    return alpha, drawn("zeta")

# 3. The opened point
def plus(p, q):
    """The sum of a point of the extension and one of the field."""
    return p[0] * q[0] - p[1] * q[1], p[0] * q[1] + p[1] * q[0]
def minus(p): return p[0], -p[1] % P
def to_line(p): return p[1] / (p[0] + 1)
def double(p): return plus(p, p)
def vanishing(n, p): return functools.reduce(lambda x, _: 2 * x * x - 1, range(n - 1), p[0])
def next_coordinate(log_n, zeta):
    """The coordinate of the point that follows, or None where zeta or it can't be opened."""
    if 1 + zeta * zeta == Cubic(0) or vanishing(log_n, from_line(zeta)) == Cubic(0):
        return None
    following = plus(from_line(zeta), gen(log_n))
    return None if following[0] + 1 == Cubic(0) else to_line(following)

# 4. The constraints put together
def selectors(n, q):
    """Those of the first row, of the last one and of all others at a point q."""
    s, x = gen(n + 1), vanishing(n, q)
    first, last = [x / to_line(plus(q, minus(p))) for p in (s, minus(s))]
    turned = functools.reduce(lambda p, _: add(p, p), range(n - 1), minus(s))
    return {"every": Cubic(1), "first": first, "last": last,
            "transition": 1 - last / lift(-(2**n) * turned[1])}

def periodic_value(n, column, q):
    """The value at q of the column that repeats over 2^n rows."""
    j = len(column).bit_length() - 1
    at = functools.reduce(lambda p, _: double(p), range(n - j), q)
    values = [lift(column[natural_place(j, i)]) for i in range(2**j)]
    for m in reversed(range(1, j + 1)):
        beta = at[1] if m == j else vanishing(j - m, at)
        pairs = enumerate(zip(values[::2], values[1::2]))
        values = [fold(*pair, C(j, gen(j + 1), 2 * i)[1] if m == j else H(m, gen(m + 2), 2 * i)[0],
                       beta) for i, pair in pairs]
    return values[0]

def node_values(air, window):
    """The values of the nodes over a window, each a list of elements by the nodes that read it."""
    values = []
    for name, operands in air["nodes"]:
        a, *b = [values[i] for i in operands] if name in ("add", "sub", "mul", "neg") else [0]
        values.append({"add": lambda: a + b[0], "sub": lambda: a - b[0], "mul": lambda: a * b[0],
                       "neg": lambda: 0 - a, "constant": lambda: lift(operands[0])}
                      .get(name, lambda: window[name][operands[0]])())
    return values

def composition(statement, values, alpha, q, trace):
    air, n, public = statement
    window = {"local": values["trace_local"], "next": values["trace_next"],
              "periodic": [periodic_value(n, column, q) for column in air["periodic_columns"]],
              "public": [lift(x) for x in public]}
    nodes, at = node_values(air, window), selectors(n, q)
    trace("stark", **{f"is_{place}_row_at_zeta": at[place] for place in ("first", "last")},
          is_transition_at_zeta=at["transition"])
    trace("stark", **{f"periodic {i}": value for i, value in enumerate(window["periodic"])},
          **{f"constraint {j}": nodes[c["node"]] for j, c in enumerate(air["constraints"])})
    return functools.reduce(lambda total, c: alpha * total + at[c["when"]] * nodes[c["node"]],
                            air["constraints"], Cubic(0))

# 5. The quotient
def recomposition(n, k, chunks, q, trace):
    point, at = gen(n + k + 1), []
    for _ in range(2**k):
        at.append(vanishing(n, point) % P)
        point = add(point, gen(n + k))
    total, x, values = Cubic(0), vanishing(n, q), []
    for own, chunk in zip(at, chunks):
        factors = [(x - other) / lift(own - other) for other in at if other != own]
        basis = [Cubic(*(i == j for j in range(3))) for i in range(3)]
        values.append(sum((b * c for b, c in zip(basis, chunk)), Cubic(0)))
        total = total + functools.reduce(Cubic.__mul__, factors, Cubic(1)) * values[-1]
    trace("stark", vanishing_of_parts=at, **{f"chunk {j}": value for j, value in enumerate(values)},
          recomposition_at_zeta=total)
    return total

# 6. The tests
def tests_before(statement, parameters, k, values):
    """The refusals before the seed."""
    air, n, public = statement
    width, chunks = air["width"], values["quotient_chunks"]
    yield "PublicValuesMismatch", len(public) != air["num_public_values"]
    yield "HeightTooSmall", n < 2 + parameters["log_final_poly_len"]
    yield "HeightTooLarge", n + max(parameters["log_blowup"], k) >= 31
    yield "PeriodTooLong", any(len(column) > 2**n for column in air["periodic_columns"])
    yield "TraceLocalLength", len(values["trace_local"]) != width
    yield "TraceNextLength", len(values["trace_next"]) != width
    yield "QuotientChunkCount", len(chunks) != 2**k
    yield "QuotientChunkLength", any(len(chunk) != 3 for chunk in chunks)

def claims(n, proof, zeta, following):
    values = proof["opened_values"]
    def matrix(*points): return {"log_n": n, "points": [{"point": t, "values": v} for t, v in points]}
    trace = matrix((zeta, values["trace_local"]), (following, values["trace_next"]))
    chunks = [matrix((zeta, chunk)) for chunk in values["quotient_chunks"]]
    return [{"commitment": proof["trace_commitment"], "matrices": [trace]},
            {"commitment": proof["quotient_commitment"], "matrices": chunks}]

def tests(statement, parameters, proof, trace, challenger):
    """All refusals in order, each with whether its reason holds."""
    air, n, public = statement
    values, degrees = proof["opened_values"], []
    yield from air_refusals(air, degrees)
    k = log_chunks(air, degrees)
    yield from tests_before(statement, parameters, k, values)
    text = air_text(air)
    trace("stark", k=k, air_text_bytes=len(text), air_text=text, air_digest=digest(air))
    alpha, zeta = draw(challenger, statement, proof, trace)
    following = next_coordinate(n, zeta)
    yield "UnfitPoint", following is None
    q = from_line(zeta)
    trace("stark", q=q, next_of_zeta=following, x_at_zeta=vanishing(n, q))
    run = Run(claims(n, proof, zeta, following), parameters, proof["opening_proof"])
    yield from verify.tests_before(run)
    yield from verify.tests_from(run, challenger, trace)
    combined = composition(statement, values, alpha, q, trace)
    trace("stark", composition_at_zeta=combined)
    recomposed = recomposition(n, k, values["quotient_chunks"], q, trace)
    yield "OodEvaluationMismatch", combined != vanishing(n, q) * recomposed

# 7. The program
OPENED = {"trace_local": [cubic], "trace_next": [cubic], "quotient_chunks": [[cubic]]}
STARK = {"trace_commitment": DIGEST, "quotient_commitment": DIGEST, "opened_values": OPENED,
         "opening_proof": PROOF}
INPUT = {"air": AIR, "log_n": COUNT, "params": params, "proof": STARK, "public_values": [P]}

def answer(load, trace=lambda text, **values: None, challenger=None):
    """The line for the input whose bytes `load` returns, as a value, and the status. Without a
    challenger it is by one that has observed nothing."""
    try:
        given = read(INPUT, parse(load()))
    except OSError:
        return {"unreadable": "input"}, 2
    except Unreadable as why:
        return {"unreadable": str(why)}, 2
    statement = given["air"], given["log_n"], given["public_values"]
    challenger = challenger or Challenger()
    for name, holds in tests(statement, given["params"], given["proof"], trace, challenger):
        if holds:
            return {"refused": name}, 1
    name = digest(given["air"]).hex()
    return {"air_digest": name, "log_n": given["log_n"], "verified": True}, 0

def main(args):
    names, is_traced = [arg for arg in args if arg != "--trace"], "--trace" in args
    def load():
        expect(len(names) < 2 and not "".join(names).startswith("--"), "usage")
        with open(names[0] if names else 0, "rb") as file:
            return file.read()
    found, status = answer(load, verify.write_trace) if is_traced else answer(load)
    os.write(1, json.dumps(found, separators=(",", ":")).encode() + b"\n")  # status 1 if it fails
    return status

if __name__ == "__main__":
    sys.exit(main(sys.argv[1:]))
