#!/usr/bin/env python3
"""Verifies proofs of Circle STARK openings. Written from docs/FORMAT.md, in its order.

    python3 examples/verify.py [--trace] [FILE]

reads FILE, or standard input if none is named, and writes the line that `circle_tool verify`
writes, with the same status. With --trace it writes to standard error each step of the transcript
and each value of each query's chain of folds.
"""
import collections, functools, hashlib, itertools, json, os, re, sys

# 1. The field and its extension
P = 2**31 - 1

class Cubic(tuple):
    """The element c0 + c1 X + c2 X^2, where X^3 = 5."""
    def __new__(cls, c0, c1=0, c2=0):
        return tuple.__new__(cls, (c0 % P, c1 % P, c2 % P))
    def __add__(self, other):
        (a, b, c), (d, e, f) = self, lift(other)
        return Cubic(a + d, b + e, c + f)
    def __mul__(self, other):
        (a, b, c), (d, e, f) = self, lift(other)
        return Cubic(a * d + 5 * (b * f + c * e), a * e + b * d + 5 * c * f, a * f + b * e + c * d)
    def __truediv__(self, other):
        a, b, c = other
        adjugate = Cubic(a * a - 5 * b * c, 5 * c * c - a * b, b * b - a * c)
        return self * adjugate * inverse((adjugate * other)[0])
    def __sub__(self, other): return self + lift(other) * -1
    def __rsub__(self, other): return lift(other) - self
    __radd__, __rmul__ = __add__, __mul__

def lift(a): return a if isinstance(a, Cubic) else Cubic(a)
def inverse(a): return pow(a, P - 2, P)
def power(alpha, n): return functools.reduce(Cubic.__mul__, [alpha] * n, Cubic(1))
def to_bytes(a): return b"".join(c.to_bytes(4, "big") for c in (a if type(a) is Cubic else [a]))

# 2. The circle. H(m, s, i) and C(n, s, i) are entry i of the lists H(m, s) and C(n, s).
def add(p, q): return (p[0] * q[0] - p[1] * q[1]) % P, (p[0] * q[1] + p[1] * q[0]) % P
def u(k, x): return x if k == 0 else u(k - 1, (2 * x * x - 1) % P)
def from_line(t): return (1 - t * t) / (1 + t * t), 2 * t / (1 + t * t)

@functools.lru_cache(maxsize=None)
def gen(k):
    return (311014874, 1584694829) if k == 31 else add(gen(k + 1), gen(k + 1))
def H(m, s, i):
    return functools.reduce(add, [gen(k + 1) for k in range(m) if i >> k & 1], s)
def C(n, s, i):
    x, y = H(n - 1, s, i >> 1)
    return x, -y % P if i % 2 else y
def natural_place(n, i):
    return int(format(2**n - 1 - (i >> 1) if i % 2 else i >> 1, f"0{n}b")[::-1], 2)

# 3. The run
class Run:
    """Claims, parameters and a proof, with the numbers that claims and parameters fix."""
    def __init__(self, batches, params, proof):
        self.batches, self.params, self.proof = batches, params, proof
        self.fri, self.inputs = proof["fri_proof"], proof["fri_proof"]["input_openings"]
        self.B, self.f = params["log_blowup"], params["log_final_poly_len"]
        self.matrices = [matrix for batch in batches for matrix in batch["matrices"]]
        self.claims = [claim for matrix in self.matrices for claim in matrix["points"]]
        self.heights = sorted({matrix["log_n"] + self.B for matrix in self.matrices})
        self.top = max(self.heights, default=0)
        self.rounds = self.top - 1 - self.B - self.f

# 4. The challenger
def sha(*parts): return hashlib.sha256(b"".join(parts)).digest()

class Challenger:
    state = bytes(32)
    def observe(self, value):
        self.state = sha(b"\0", self.state, value if type(value) is bytes else to_bytes(value))
    def squeeze(self):
        drawn, self.state = sha(b"\1", self.state), sha(b"\2", self.state)
        return int.from_bytes(drawn[:8], "big")

# 5. The steps
MESSAGE, CHALLENGE, POW = ALGEBRA, OPAQUE, BITS = 0, 1, 2
SCALAR, FIXED = 0, 1
Step = collections.namedtuple("Step", "label kind type parameter form length values")

def steps(run):
    """The steps, each with the values that it absorbs."""
    def work(phase, witness):
        bits = run.params[f"{phase}_pow_bits"]
        return [Step(f"{phase}_pow", POW, ALGEBRA, 1, FIXED, bits, [witness])] if bits > 0 else []
    fri, first = run.fri, run.proof["first_layer_commitment"]
    for claim in run.claims:
        point, values = from_line(claim["point"]), claim["values"]
        yield Step("opening_point", MESSAGE, ALGEBRA, 3, FIXED, 2, point)
        yield Step("opened_values", MESSAGE, ALGEBRA, 3, FIXED, len(values), values)
    yield from work("batch", run.proof["batch_pow_witness"])
    yield Step("batch_challenge", CHALLENGE, ALGEBRA, 3, SCALAR, 1, [])
    yield Step("first_layer_commitment", MESSAGE, OPAQUE, 0, SCALAR, 1, [first])
    yield Step("bivariate_challenge", CHALLENGE, ALGEBRA, 3, SCALAR, 1, [])
    for commitment, witness in zip(fri["commit_phase_commits"], fri["commit_pow_witnesses"]):
        yield Step("commit_phase_commitment", MESSAGE, OPAQUE, 0, SCALAR, 1, [commitment])
        yield from work("commit", witness)
        yield Step("fold_challenge", CHALLENGE, ALGEBRA, 3, SCALAR, 1, [])
    form = FIXED if run.f > 0 else SCALAR
    yield Step("final_poly", MESSAGE, ALGEBRA, 3, form, 2**run.f, fri["final_poly"])
    yield from work("query", fri["pow_witness"])
    yield Step("query_indices", CHALLENGE, BITS, run.top, FIXED, run.params["num_queries"], [])

# 6. The seed
def be64(n): return n.to_bytes(8, "big")
def counted(data): return be64(len(data)) + data
def step_text(step):
    head = bytes([0, step.kind, step.type]) + be64(step.parameter)
    return head + counted(step.label.encode()) + bytes([step.form]) + be64(step.length)
def layout(run):
    of_batches = [[len(matrix["points"]) for matrix in batch["matrices"]] for batch in run.batches]
    numbers = [len(of_batches)] + [n for of in of_batches for n in [len(of), *of]]
    return b"".join(map(be64, numbers))
def seed_text(run):
    texts = [step_text(step) for step in steps(run)]
    labels = [be64(run.B), layout(run)] + ([be64(run.f)] if run.f > 0 else [])
    head = bytes([2 if run.f > 0 else 1]) + counted(b"p3-circle-pcs") + be64(len(texts))
    return b"".join([head, *texts, be64(len(labels)), *map(counted, labels)])

# 7. The transcript. Refusals are yielded in order, each with whether its reason holds.
def draw(run, challenger, trace):
    """Seeds, and plays all steps but the last: alpha, the bivariate challenge and the betas."""
    drawn, seed = [], seed_text(run)
    trace(f"seed of {len(seed)} bytes: {seed.hex()}")
    for byte in seed:
        challenger.observe(byte)
    trace(f"  state {challenger.state.hex()}")
    for step in list(steps(run))[:-1]:
        for value in step.values:
            trace(f"absorb {step.label}: {value.hex() if type(value) is bytes else value}")
            for part in value if type(value) is Cubic else [value]:
                challenger.observe(part)
        if step.kind == POW:
            yield "InvalidPowWitness", challenger.squeeze() % 2**step.length != 0
        if step.kind == CHALLENGE:
            drawn.append(Cubic(*[challenger.squeeze() for _ in range(3)]))
            trace(f"draw {step.label}: {drawn[-1]}")
        trace(f"  state {challenger.state.hex()}")
    return drawn

# 8. The Merkle scheme. The dims of matrices are, for each, its width and the log of its height.
def authenticates(commitment, dims, indices, rows, proof):
    """Whether rows[k][j] is the row of matrix j at indices[k], for all k and j."""
    def rows_digest(h, i):
        at = [rows_at[j, i] for j, (_, height) in enumerate(dims) if height == h]
        return sha(b"\0", *[to_bytes(entry) for row in at for entry in row])
    top, widths, rows_at = max([h for _, h in dims], default=0), [width for width, _ in dims], {}
    if not widths or not indices or len(rows) != len(indices) or any(i >> top for i in indices):
        return False
    if any([len(row) for row in opened] != widths for opened in rows):
        return False
    for i, opened in zip(indices, rows):
        for j, (row, (_, h)) in enumerate(zip(opened, dims)):
            if rows_at.setdefault((j, i >> (top - h)), row) != row:
                return False
    left, known = list(reversed(proof)), {i: rows_digest(top, i) for i in indices}
    for h in reversed(range(top)):
        above = {}
        for i in sorted(known):
            if i ^ 1 not in known and not left:
                return False
            known[i ^ 1] = known[i ^ 1] if i ^ 1 in known else left.pop()
            above[i >> 1] = sha(b"\1", known[i & ~1], known[i | 1])
            if any(height == h for _, height in dims):
                above[i >> 1] = sha(b"\2", above[i >> 1], rows_digest(h, i >> 1))
        known = above
    return not left and known[0] == commitment

# 9. The reduced values
def quotient(alpha, x, z, row, values):
    """Of a row at the point x under values claimed at z, which isn't x."""
    re, im, total = 1 - (x[0] * z[0] + x[1] * z[1]), x[0] * z[1] - x[1] * z[0], Cubic(0)
    for r, c in zip(reversed(row), reversed(values)):
        total = total * alpha + (r - c)
    return (re - power(alpha, len(row)) * im) / (2 * re) * total

def reduced_value(run, alpha, h, k, x):
    """Of height h at query k, whose point is x."""
    total, offset = Cubic(0), Cubic(1)
    for batch, opening in zip(run.batches, run.inputs["input_openings"]):
        for matrix, row in zip(batch["matrices"], opening["opened_values"][k]):
            for claim in matrix["points"] if matrix["log_n"] + run.B == h else []:
                z = from_line(claim["point"])
                yield "OpeningPointMatchesQueryPoint", z == (lift(x[0]), lift(x[1]))
                total = total + offset * quotient(alpha, x, z, row, claim["values"])
                offset = offset * power(alpha, 2 * len(row))
    return total

# 10. The folds
def fold(a, b, t, beta): return (a + b + beta * (a - b) * inverse(t)) * inverse(2)
def in_order(i, value, sibling): return [sibling, value] if i % 2 else [value, sibling]

def first_layer(run, alpha, bivariate, indices, trace):
    """What the pairs of the queries fold to, by height."""
    pairs, folded = [[] for _ in indices], {h: [] for h in run.heights}
    for place, h in enumerate(run.heights):
        for k, q in enumerate(indices):
            i, sibling = q >> (run.top - h), run.inputs["first_layer_siblings"][k][place]
            x, t = C(h, gen(h + 1), i), C(h, gen(h + 1), i & ~1)[1]
            reduced = yield from reduced_value(run, alpha, h, k, x)
            value = reduced - run.proof["lambdas"][place] * u(h - run.B - 1, x[0])
            pairs[k].append(in_order(i, value, sibling))
            folded[h].append(fold(*pairs[k][place], t, bivariate))
            trace(f"query {k} height {h}", position=i, natural_place=natural_place(h, i), point=x,
                  reduced=reduced, value=value, sibling=sibling, t=t, folded=folded[h][k])
    dims, places = [(2, h - 1) for h in run.heights], [q >> 1 for q in indices]
    commitment, proof = run.proof["first_layer_commitment"], run.inputs["first_layer_proof"]
    yield "FirstLayerMmcsError", not authenticates(commitment, dims, places, pairs, proof)
    return folded

def fold_rounds(run, betas, indices, folded, trace):
    """The values of the queries in the last codeword."""
    values = folded[run.top]
    for r, opening in enumerate(run.fri["commit_phase_openings"]):
        siblings, m = [sibling for [sibling] in opening["sibling_values"]], run.top - 1 - r
        rows = [[in_order(q >> (r + 1), v, s)] for q, v, s in zip(indices, values, siblings)]
        commitment, places = run.fri["commit_phase_commits"][r], [q >> (r + 2) for q in indices]
        yield "CommitPhaseMmcsError", not authenticates(
            commitment, [(2, m - 1)], places, rows, opening["opening_proof"])
        for k, j in enumerate(places):
            t, joining = H(m, gen(m + 2), 2 * j)[0], folded[m][k] if m in folded else Cubic(0)
            values[k] = fold(*rows[k][0], t, betas[r]) + joining
            trace(f"query {k} round {r}", position=indices[k] >> (r + 1), sibling=siblings[k], t=t,
                  joining=joining, value=values[k])
    return values

# 11. The final polynomial
def x_value(c, x):
    pairs = zip(c[::2], c[1::2])
    return c[0] if len(c) == 1 else x_value([a + b * x for a, b in pairs], u(1, x))

def last_codeword(run, indices, values, trace):
    m = run.B + run.f
    for k, position in enumerate([q >> (run.rounds + 1) for q in indices]):
        x = H(m, gen(m + 2), position)[0]
        due = x_value(run.fri["final_poly"], x)
        trace(f"query {k} last codeword", position=position, x=x, due=due)
        yield "FinalPolyMismatch", values[k] != due

# 12. JSON
class Unreadable(Exception): pass
STRING = re.compile(r'"[^"\\]*(?:\\.[^"\\]*)*"')

def number(text):
    """The number that a text stands for: a float unless it is an integer of 64 bits."""
    whole = re.fullmatch("-?[0-9]{1,20}", text) and text != "-0" and -(2**63) <= int(text) < 2**64
    if not whole and abs(float(text)) == float("inf"):
        raise ValueError("it is too large")
    return int(text) if whole else float(text)

def parse(data):
    try:
        text = data.decode("utf-8")
        brackets = re.findall(r"[][{}]", STRING.sub("", text))
        depths = itertools.accumulate(1 if bracket in "[{" else -1 for bracket in brackets)
        if max(depths, default=0) > 127:
            raise ValueError("it nests too deep")
        for string in STRING.findall(text):
            json.loads(string).encode("utf-8")
        return json.loads(text, parse_int=number, parse_float=number, parse_constant=int)
    except ValueError:
        raise Unreadable("json")

def expect(holds, name):
    if not holds:
        raise Unreadable(name)

def read(form, value):
    """What a value stands for. A form is a bound of numbers, a pattern of hexadecimal digits, a
    list of the form of all items, an object of the forms of its members, or a function."""
    if callable(form):
        return form(value)
    expect(type(value) is type(form), "WrongKind")
    if type(form) is int:
        expect(0 <= value < form, "OutOfRange")
        return value
    if type(form) is str:
        expect(re.fullmatch(form, value), "BadHex")
        return bytes.fromhex(value)
    if type(form) is list:
        return [read(form[0], item) for item in value]
    expect(all(key in value for key in form), "MissingKey")
    expect(len(value) == len(form), "UnknownKey")
    return {key: read(form[key], value[key]) for key in form}

def cubic(value):
    expect(type(value) is list and len(value) == 3, "WrongKind")
    return Cubic(*read([P], value))
def final_poly(value):
    several = type(value) is list and (not value or type(value[0]) is list)
    return read([cubic], value) if several else [cubic(value)]
def params(value):
    value = {"log_final_poly_len": 0, **value} if type(value) is dict else value
    return read(dict.fromkeys(PARAMS, COUNT), value)

COUNT, DIGEST = 2**64, "[0-9a-fA-F]{64}"
PARAMS = ["log_final_poly_len", "log_blowup", "max_log_arity", "num_queries", "batch_pow_bits",
          "commit_pow_bits", "query_pow_bits"]
MATRIX = {"log_n": COUNT, "points": [{"point": cubic, "values": [cubic]}]}
INPUTS = {"input_openings": [{"opened_values": [[[P]]], "opening_proof": [DIGEST]}],
          "first_layer_siblings": [[cubic]], "first_layer_proof": [DIGEST]}
ROUND = {"opening_proof": [DIGEST], "sibling_values": [[cubic]]}
FRI_PROOF = {"commit_phase_commits": [DIGEST], "commit_pow_witnesses": [P],
             "input_openings": INPUTS, "commit_phase_openings": [ROUND],
             "final_poly": final_poly, "pow_witness": P}
PROOF = {"batch_pow_witness": P, "first_layer_commitment": DIGEST, "lambdas": [cubic],
         "fri_proof": FRI_PROOF}
INPUT = {"batches": [{"commitment": DIGEST, "matrices": [MATRIX]}], "params": params,
         "proof": PROOF}

# 13. The tests
def tests_before(run):
    """The refusals before the seed."""
    params, proof, fri = run.params, run.proof, run.fri
    batch, commit, query = [params[f"{phase}_pow_bits"] for phase in ("batch", "commit", "query")]
    yield "NoCommittedMatrices", not run.matrices
    yield "DomainTooSmall", any(matrix["log_n"] <= run.f for matrix in run.matrices)
    yield "GlobalMaxHeightTooLarge", run.top >= 31
    yield "UnsupportedGrinding", max(batch, commit, query) > 30
    yield "ZeroQueries", params["num_queries"] == 0
    yield "ZeroBlowup", run.B == 0
    yield "UnsupportedFoldingCap", params["max_log_arity"] != 1
    yield "CommitRoundCountMismatch", len(fri["commit_phase_commits"]) != run.rounds
    yield "CommitPowWitnessCountMismatch", len(fri["commit_pow_witnesses"]) != run.rounds
    yield "NonCanonicalPowWitness", commit == 0 and any(fri["commit_pow_witnesses"])
    yield "NonCanonicalPowWitness", query == 0 and fri["pow_witness"] != 0
    yield "CommitPhaseOpeningsCountMismatch", len(fri["commit_phase_openings"]) != run.rounds
    for siblings in [opening["sibling_values"] for opening in fri["commit_phase_openings"]]:
        yield "CommitPhaseQueryCountMismatch", len(siblings) != params["num_queries"]
        yield "SiblingValuesLengthMismatch", any(len(values) != 1 for values in siblings)
    yield "FinalPolyLengthMismatch", len(fri["final_poly"]) != 2**run.f
    yield "NonCanonicalPowWitness", batch == 0 and proof["batch_pow_witness"] != 0
    yield "PointAtInfinity", Cubic(-1) in [claim["point"] * claim["point"] for claim in run.claims]

def tests_of_shape(run):
    """The refusals after the seed that need no query index."""
    opened = [opening["opened_values"] for opening in run.inputs["input_openings"]]
    siblings, lambdas = run.inputs["first_layer_siblings"], run.proof["lambdas"]
    lengths = [(len(run.batches), len(opened)), (len(run.heights), len(lambdas))]
    lengths += [(run.params["num_queries"], len(of_queries)) for of_queries in [*opened, siblings]]
    lengths += [(len(run.heights), len(of_query)) for of_query in siblings]
    for batch, of_queries in zip(run.batches, opened):
        for rows in of_queries:
            lengths += [(len(batch["matrices"]), len(rows))]
            for matrix, row in zip(batch["matrices"], rows):
                lengths += [(len(claim["values"]), len(row)) for claim in matrix["points"]]
    yield "InputShapeError", any(due != got for due, got in lengths)
    yield "MatrixWithoutOpeningPoints", any(not matrix["points"] for matrix in run.matrices)
    yield "UnconsumedReducedOpenings", run.B + run.f + 1 in run.heights

def tests(run, trace):
    """All refusals in order, each with whether its reason holds."""
    yield from tests_before(run)
    challenger = Challenger()
    for batch in run.batches:
        trace(f"absorb commitment: {batch['commitment'].hex()}")
        challenger.observe(batch["commitment"])
    yield from tests_from(run, challenger, trace)

def tests_from(run, challenger, trace):
    """The refusals from the seed on, by a challenger that has absorbed the commitments."""
    alpha, bivariate, *betas = yield from draw(run, challenger, trace)
    yield from tests_of_shape(run)
    indices = [challenger.squeeze() % 2**run.top for _ in range(run.params["num_queries"])]
    trace(f"draw query_indices: {indices}")
    for batch, opening in zip(run.batches, run.inputs["input_openings"]):
        dims = [(len(m["points"][0]["values"]), m["log_n"] + run.B) for m in batch["matrices"]]
        places = [q >> (run.top - max([h for _, h in dims], default=0)) for q in indices]
        rows, proof = opening["opened_values"], opening["opening_proof"]
        yield "InputMmcsError", not authenticates(batch["commitment"], dims, places, rows, proof)
    folded = yield from first_layer(run, alpha, bivariate, indices, trace)
    values = yield from fold_rounds(run, betas, indices, folded, trace)
    yield from last_codeword(run, indices, values, trace)

# 14. The program
def answer(load, trace=lambda text, **values: None):
    """The line for the input whose bytes `load` returns, as a value, and the status."""
    try:
        run = Run(**read(INPUT, parse(load())))
    except OSError:
        return {"unreadable": "input"}, 2
    except Unreadable as why:
        return {"unreadable": str(why)}, 2
    for name, holds in tests(run, trace):
        if holds:
            return {"refused": name}, 1
    return {"verified": True}, 0

def shown(value): return value.hex() if type(value) is bytes else value
def write_trace(text, **values):
    for line in [f"{text} {name}: {shown(value)}" for name, value in values.items()] or [text]:
        print(line, file=sys.stderr)

def main(args):
    names, is_traced = [arg for arg in args if arg != "--trace"], "--trace" in args
    def load():
        expect(len(names) < 2 and not "".join(names).startswith("--"), "usage")
        with open(names[0] if names else 0, "rb") as file:
            return file.read()
    found, status = answer(load, write_trace) if is_traced else answer(load)
    os.write(1, json.dumps(found, separators=(",", ":")).encode() + b"\n")  # status 1 if it fails
    return status

if __name__ == "__main__":
    sys.exit(main(sys.argv[1:]))
