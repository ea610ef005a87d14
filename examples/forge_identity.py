#!/usr/bin/env python3
"""Forges proofs that nothing but the identity at zeta refuses: why a verifier must test it.

    python3 examples/forge_identity.py KIND FILE

reads FILE, an input of `stark_tool prove` whose rows satisfy its AIR, and writes an input of
`stark_tool verify`. It commits to rows and to the chunks of a quotient, all of low degree, and
opens their true values, so the scheme accepts. But rows, quotient and statement don't fit together:
no refusal has a reason but `OodEvaluationMismatch` (docs/STARK.md). KIND says what is forged:

    entry    the middle row's first entry is raised by one, and the quotient is still FILE's
    public   so is the last public value
    period   so is the last entry of the AIR's last periodic column
    zeros    the chunks are zeros
    swapped  the first two chunks take each other's place
    alpha    the quotient is that under alpha plus one
    honest   nothing: it writes what `stark_tool prove` writes
"""
import copy, itertools, json, pathlib, sys

sys.dont_write_bytecode = True
sys.path.insert(0, str(pathlib.Path(__file__).resolve().parent))

import verify_stark as stark
from forge import opened, tree
from verify import Challenger, Cubic, Run, C, H, P, add, fold, from_line, gen, inverse, lift
from verify import natural_place, params, power, quotient, read, seed_text, sha, to_bytes, u

KINDS = ["entry", "public", "period", "zeros", "swapped", "alpha", "honest"]


def quiet(text, **values):
    """Writes no trace."""


def points(log_n, shift):
    return [C(log_n, shift, i) for i in range(2**log_n)]


def coordinates(m):
    """The x coordinates of a codeword of 2^m entries in a round."""
    return [H(m, gen(m + 2), i)[0] for i in range(2**m)]


def pairs(word):
    return list(zip(word[::2], word[1::2]))


def tree_of(rows):
    return tree([sha(b"\0", *map(to_bytes, row)) for row in rows])


# Columns


class Column:
    """The polynomial of 2^log_n coefficients with these values at the points C(log_n, shift)."""

    def __init__(self, log_n, shift, values):
        self.values, domain = [lift(it) for it in values], points(log_n, shift)[::2]
        self.divisors, xs = [[y for _, y in domain]], [x for x, _ in domain]
        while len(xs) > 1:
            self.divisors.append(xs[::2])
            xs = [u(1, x) for x in xs[::2]]

    def at(self, point):
        """Its value at a point: one fold by y, and one by x for each doubling of the point."""
        point, word = (lift(point[0]), lift(point[1])), self.values
        for k, divisors in enumerate(self.divisors):
            beta = stark.vanishing(k, point) if k else point[1]
            word = [fold(*pair, t, beta) for pair, t in zip(pairs(word), divisors)]
        return word[0]


class Batch:
    """Matrices of 2^top committed rows, each given by its columns."""

    def __init__(self, top, matrices):
        domain = points(top, gen(top + 1))
        self.rows = [[[it.at(x)[0] for it in columns] for columns in matrices] for x in domain]
        self.tree = tree_of([sum(rows, []) for rows in self.rows])
        self.commitment = self.tree[0][0]

    def opened(self, queries):
        rows = [self.rows[q] for q in queries]
        return {"opened_values": rows, "opening_proof": opened(self.tree, queries)}


def columns_of(n, rows):
    places = [natural_place(n, i) for i in range(2**n)]
    return [Column(n, gen(n + 1), [values[i] for i in places]) for values in zip(*rows)]


def values_at(n, columns, q):
    """What the constraints read at a point."""
    following = stark.plus(q, gen(n))
    return {"trace_local": [it.at(q) for it in columns],
            "trace_next": [it.at(following) for it in columns]}


def chunks_of(statement, k, rows, alpha):
    """The quotient's chunks, each as the three columns of its part of the larger domain."""
    n, chunks, columns = statement[1], [], columns_of(statement[1], rows)
    shift = gen(n + k + 1)
    for _ in range(2**k):
        values = []
        for x, y in points(n, shift):
            q = lift(x), lift(y)
            combined = stark.composition(statement, values_at(n, columns, q), alpha, q, quiet)
            values.append(combined / stark.vanishing(n, q))
        chunks.append([Column(n, shift, coefficients) for coefficients in zip(*values)])
        shift = add(shift, gen(n + k))
    return chunks


# What a prover and its challenger do


def observe(challenger, values):
    for value in values:
        for part in value if type(value) is Cubic else [value]:
            challenger.observe(part)


def challenge(challenger):
    return Cubic(*[challenger.squeeze() for _ in range(3)])


def witness(challenger, bits):
    """The least witness that passes, which the challenger has then checked."""
    state = challenger.state
    for found in itertools.count() if bits else []:
        challenger.state = state
        challenger.observe(found)
        if challenger.squeeze() % 2**bits == 0:
            return found
    return 0


# The scheme's proof, of claims on matrices of one height


def reduced(run, rows, alpha, x):
    """The reduced value at a point, of these rows."""
    total, offset = Cubic(0), Cubic(1)
    for matrix, row in zip(run.matrices, rows):
        for claim in matrix["points"]:
            z, values = from_line(claim["point"]), claim["values"]
            total = total + offset * quotient(alpha, x, z, row, values)
            offset = offset * power(alpha, 2 * len(row))
    return total


def first_word(run, batches, alpha):
    """The lambda and the codeword: the reduced values without their part along v_n."""
    domain = points(run.top, gen(run.top + 1))
    rows = [sum(parts, []) for parts in zip(*(batch.rows for batch in batches))]
    word = [reduced(run, its_rows, alpha, x) for its_rows, x in zip(rows, domain)]
    vanishing = [u(run.top - run.B - 1, x) for x, _ in domain]
    products = [value * v for value, v in zip(word, vanishing)]
    found = sum(products, Cubic(0)) * inverse(2 ** (run.top - 1))
    return found, [value - found * v for value, v in zip(word, vanishing)]


def coefficients_of(word, xs):
    """Those of the polynomial in x that has these values."""
    if len(word) == 1:
        return word
    even = [(a + b) * inverse(2) for a, b in pairs(word)]
    odd = [(a - b) * inverse(2 * x) for (a, b), x in zip(pairs(word), xs[::2])]
    halves = [coefficients_of(half, [u(1, x) for x in xs[::2]]) for half in (even, odd)]
    return [it for pair in zip(*halves) for it in pair]


def fold_all(run, word, challenger):
    """Plays the folds. Returns each layer: its word and the tree over its pairs."""
    fri, layers, divisors = run.fri, [], [y for _, y in points(run.top, gen(run.top + 1))]
    for r in range(-1, run.rounds):
        layers.append((word, tree_of(pairs(word))))
        observe(challenger, layers[-1][1][0])
        if r >= 0:
            fri["commit_pow_witnesses"][r] = witness(challenger, run.params["commit_pow_bits"])
        beta = challenge(challenger)
        word = [fold(*pair, t, beta) for pair, t in zip(pairs(word), divisors[::2])]
        divisors = coordinates(run.top - 2 - r)
    commitments = [levels[0][0] for _, levels in layers]
    run.proof["first_layer_commitment"], *fri["commit_phase_commits"] = commitments
    fri["final_poly"] = coefficients_of(word, divisors)[: 2**run.f]
    observe(challenger, fri["final_poly"])
    return layers


def opening_proof(claims, parameters, batches, challenger):
    rounds = claims[0]["matrices"][0]["log_n"] - 1 - parameters["log_final_poly_len"]
    fri = {"commit_phase_commits": [bytes(32)] * rounds, "commit_pow_witnesses": [0] * rounds,
           "final_poly": [], "input_openings": {}, "pow_witness": 0}
    proof = {"batch_pow_witness": 0, "first_layer_commitment": bytes(32), "fri_proof": fri}
    run = Run(claims, parameters, proof)
    observe(challenger, seed_text(run))
    for claim in run.claims:
        observe(challenger, [*from_line(claim["point"]), *claim["values"]])
    proof["batch_pow_witness"] = witness(challenger, parameters["batch_pow_bits"])
    found, word = first_word(run, batches, challenge(challenger))
    proof["lambdas"], layers = [found], fold_all(run, word, challenger)
    fri["pow_witness"] = witness(challenger, parameters["query_pow_bits"])
    queries = [challenger.squeeze() % 2**run.top for _ in range(parameters["num_queries"])]

    openings = [{"opening_proof": opened(levels, [q >> r + 1 for q in queries]),
                 "sibling_values": [[word[q >> r ^ 1]] for q in queries]}
                for r, (word, levels) in enumerate(layers)]
    fri["commit_phase_openings"] = openings[1:]
    fri["input_openings"] = {"first_layer_proof": openings[0]["opening_proof"],
                             "first_layer_siblings": openings[0]["sibling_values"],
                             "input_openings": [batch.opened(queries) for batch in batches]}
    fri["final_poly"] = fri["final_poly"] if run.f else fri["final_poly"][0]
    return proof


# The forged proof


def claimed_by(given, kind):
    """The input of `prove` after what is forged of its rows and its statement."""
    claimed = copy.deepcopy(given)

    def raise_one(values, place):
        values[place] = (values[place] + 1) % P

    if kind == "entry":
        raise_one(claimed["rows"][len(given["rows"]) // 2], 0)
    if kind == "public":
        raise_one(claimed["public_values"], -1)
    if kind == "period":
        raise_one(claimed["air"]["periodic_columns"][-1], -1)
    return claimed


def statement_of(given):
    log_n = len(given["rows"]).bit_length() - 1
    return stark.read(stark.AIR, given["air"]), log_n, given["public_values"]


def forged_chunks(given, kind, k, alpha):
    n, rows = statement_of(given)[1], given["rows"]
    if kind == "zeros":
        return [[Column(n, gen(n + 1), [0] * len(rows))] * 3] * 2**k
    chunks = chunks_of(statement_of(given), k, rows, alpha + (kind == "alpha"))
    return [chunks[1], chunks[0], *chunks[2:]] if kind == "swapped" else chunks


def forged(given, kind):
    """The input of `verify`."""
    claimed, degrees = claimed_by(given, kind), []
    statement, parameters = statement_of(claimed), read(params, given["params"])
    (air, n, _), columns = statement, columns_of(statement[1], claimed["rows"])
    list(stark.air_refusals(air, degrees))
    k, top = stark.log_chunks(air, degrees), n + parameters["log_blowup"]
    trace, challenger = Batch(top, [columns]), Challenger()
    proof = {"trace_commitment": trace.commitment, "quotient_commitment": bytes(32)}
    alpha, _ = stark.draw(Challenger(), statement, proof, quiet)
    chunks = forged_chunks(given, kind, k, alpha)
    batches = [trace, Batch(top, chunks)]
    proof["quotient_commitment"] = batches[1].commitment
    _, zeta = stark.draw(challenger, statement, proof, quiet)
    q = from_line(zeta)
    proof["opened_values"] = values_at(n, columns, q)
    proof["opened_values"]["quotient_chunks"] = [[it.at(q) for it in chunk] for chunk in chunks]
    claims = stark.claims(n, proof, zeta, stark.next_coordinate(n, zeta))
    proof["opening_proof"] = opening_proof(claims, parameters, batches, challenger)
    del claimed["rows"]
    return {**claimed, "log_n": n, "proof": proof}


if __name__ == "__main__":
    if len(sys.argv) != 3 or sys.argv[1] not in KINDS:
        sys.exit(__doc__)
    told = forged(json.loads(pathlib.Path(sys.argv[2]).read_text()), sys.argv[1])
    print(json.dumps(told, default=bytes.hex, separators=(",", ":"), sort_keys=True))
