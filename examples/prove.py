#!/usr/bin/env python3
"""Proves Circle STARK openings by plain definitions. Written from docs/FORMAT.md.

    python3 examples/prove.py < INPUT

reads an input of `circle_tool prove` that isn't refused, and writes the line that the program must
write: the commitments, the values at the points, and the proof. Values are made of coefficients,
quotients are computed row by row on whole domains, and codewords fold entry by entry.
"""
import json, operator, sys

sys.dont_write_bytecode = True

from forge import next_value, opened
from verify import Challenger, Cubic, Run, C, H, P, add, draw, fold, from_line, gen, inverse
from verify import natural_place, params, power, quotient, sha, to_bytes, u, x_value

FINAL = "log_final_poly_len"


def pairs(word):
    return list(zip(word[::2], word[1::2]))


def joined(evens, odds):
    return [it for both in zip(evens, odds) for it in both]


def halves(word, places):
    """What a word is, at its pairs, of the sum of a part and of another times its place."""
    half = inverse(2)
    return ([(a + b) * half for a, b in pairs(word)],
            [(a - b) * (half * inverse(t) % P) for (a, b), t in zip(pairs(word), places)])


def x_coefficients(m, s, word):
    """Those of the polynomial in x with these values at the points H(m, s)."""
    if m == 0:
        return word
    parts = halves(word, [H(m, s, 2 * j)[0] for j in range(2 ** (m - 1))])
    return joined(*(x_coefficients(m - 1, add(s, s), part) for part in parts))


def coefficients(n, word):
    """Those of the polynomial with these values at the points of the standard domain C(n, s)."""
    s = gen(n + 1)
    parts = halves(word, [C(n, s, 2 * j)[1] for j in range(2 ** (n - 1))])
    return joined(*(x_coefficients(n - 1, s, part) for part in parts))


def basis(n, x, y):
    """The values at a point of the 2^n polynomials that coefficients belong to."""
    values, factor = [Cubic(1)], y
    for k in range(n):
        values += [factor * it for it in values]
        factor = x if k == 0 else 2 * factor * factor - 1
    return values


def value(coeffs, x, y):
    """The value of a polynomial at a point of the base field."""
    return (x_value(coeffs[::2], x) + y * x_value(coeffs[1::2], x)) % P


def tree(rows):
    """The levels of a tree over rows by the logarithms of their numbers, the root's first."""
    levels = []
    for h in range(max(rows), -1, -1):
        leaves = [sha(b"\0", *map(to_bytes, row)) for row in rows.get(h, [])]
        level = [sha(b"\1", *it) for it in pairs(levels[0])] if levels else []
        levels.insert(0, [sha(b"\2", *it) for it in zip(level, leaves)] or level or leaves)
    return levels


class Matrix:
    """A matrix with its coefficients, column by column, and its rows as they are committed to."""

    def __init__(self, rows, points, blowup):
        self.log_n, self.points = len(rows).bit_length() - 1, [Cubic(*it) for it in points]
        self.height = self.log_n + blowup
        placed = [rows[natural_place(self.log_n, i)] for i in range(len(rows))]
        columns = [coefficients(self.log_n, list(it)) for it in zip(*placed)]
        self.columns = [[it % P for it in column] for column in columns]
        at = [C(self.height, gen(self.height + 1), i) for i in range(2**self.height)]
        self.rows = [[value(it, *point) for it in self.columns] for point in at]

    def claims(self):
        return [{"point": it, "values": self.values(basis(self.log_n, *from_line(it)))}
                for it in self.points]

    def values(self, powers):
        return [Cubic(*(sum(map(operator.mul, column, it)) for it in zip(*powers)))
                for column in self.columns]


def batch_tree(batch):
    """The tree over the rows of a batch's matrices, side by side where they are of one height."""
    rows = {}
    for it in batch:
        before = rows.get(it.height, [[]] * 2**it.height)
        rows[it.height] = [left + right for left, right in zip(before, it.rows)]
    return tree(rows)


def played(run):
    """What is drawn before the queries, whether each witness fails, and the challenger."""
    challenger, failures = Challenger(), []
    for batch in run.batches:
        challenger.observe(batch["commitment"])
    steps = draw(run, challenger, lambda text: None)
    while True:
        try:
            failures.append(next(steps)[1])
        except StopIteration as end:
            return end.value, failures, challenger


def grind(run, bits, place, put):
    """Puts the least witness that passes the proof of work at this place."""
    witness = 0
    put(witness)
    while bits and played(run)[1][place]:
        witness += 1
        put(witness)


def reduced_word(run, matrices, alpha, h):
    """The quotients of the claims on the matrices of a height, summed at each point."""
    word, offset, at = [Cubic(0)] * 2**h, Cubic(1), [C(h, gen(h + 1), i) for i in range(2**h)]
    for matrix, claims in matrices:
        for claim in claims["points"] if matrix.height == h else []:
            z, values = from_line(claim["point"]), claim["values"]
            parts = [quotient(alpha, x, z, row, values) for x, row in zip(at, matrix.rows)]
            word = [it + offset * part for it, part in zip(word, parts)]
            offset = offset * power(alpha, 2 * len(values))
    return word


def first_layer(run, matrices, alpha):
    """The codewords of all heights without their lambdas, which go into the proof."""
    words = {}
    for h in run.heights:
        word, n = reduced_word(run, matrices, alpha, h), h - run.B
        above = coefficients(h, word)[2**n :]
        assert not any(map(any, above[1:])), "the degree is too high"
        run.proof["lambdas"].append(above[0])
        words[h] = [it - above[0] * u(n - 1, C(h, gen(h + 1), i)[0]) for i, it in enumerate(word)]
    return words


def play_rounds(run, words, works):
    """Commits to the rounds' codewords and folds them. Returns each with its tree, and the last."""
    bivariate = played(run)[0][1]
    folded = {h: [fold(*it, C(h, gen(h + 1), 2 * j)[1], bivariate)
                  for j, it in enumerate(pairs(word))] for h, word in words.items()}
    word, rounds = folded[run.top], []
    for r, m in enumerate(range(run.top - 1, run.B + run.f, -1)):
        rounds.append((word, tree({m - 1: pairs(word)})))
        run.fri["commit_phase_commits"][r] = rounds[r][1][0][0]
        witnesses, bits = run.fri["commit_pow_witnesses"], run.params["commit_pow_bits"]
        grind(run, bits, works + r, lambda it: witnesses.__setitem__(r, it))
        beta, joining = played(run)[0][2 + r], folded.get(m, [Cubic(0)] * len(word))
        word = [fold(*it, H(m, gen(m + 2), 2 * j)[0], beta) + joining[j]
                for j, it in enumerate(pairs(word))]
    return rounds, word


def proved(batches, params):
    """The claims on the matrices, with the proof."""
    B, f = params["log_blowup"], params["log_final_poly_len"]
    batches = [[Matrix(it["rows"], it["points"], B) for it in batch] for batch in batches]
    trees = [batch_tree(batch) for batch in batches]
    claimed = [{"commitment": levels[0][0], "matrices": [
        {"log_n": it.log_n, "points": it.claims()} for it in batch]}
        for batch, levels in zip(batches, trees)]
    fri = {"input_openings": {}, "commit_phase_commits": [], "commit_pow_witnesses": [],
           "final_poly": [Cubic(0)] * 2**f, "pow_witness": 0}
    proof = {"batch_pow_witness": 0, "first_layer_commitment": bytes(32), "lambdas": [],
             "fri_proof": fri}
    run = Run(claimed, params, proof)
    fri["commit_phase_commits"] = [bytes(32)] * run.rounds
    fri["commit_pow_witnesses"] = [0] * run.rounds

    matrices = [it for pair in zip(batches, claimed) for it in zip(pair[0], pair[1]["matrices"])]
    grind(run, params["batch_pow_bits"], 0, lambda it: proof.update(batch_pow_witness=it))
    words = first_layer(run, matrices, played(run)[0][0])
    layer = tree({h - 1: pairs(word) for h, word in words.items()})
    proof["first_layer_commitment"] = layer[0][0]
    rounds, word = play_rounds(run, words, int(params["batch_pow_bits"] > 0))
    last = x_coefficients(B + f, gen(B + f + 2), word)
    assert not any(map(any, last[2**f :])), "the degree is too high"
    fri["final_poly"] = last[: 2**f]
    grind(run, params["query_pow_bits"], -1, lambda it: fri.update(pow_witness=it))

    challenger = played(run)[2]
    queries = [challenger.squeeze() % 2**run.top for _ in range(params["num_queries"])]
    fri["input_openings"] = {
        "first_layer_proof": opened(layer, [q >> 1 for q in queries]),
        "first_layer_siblings": [[words[h][q >> run.top - h ^ 1] for h in run.heights]
                                 for q in queries],
        "input_openings": [
            {"opened_values": [[it.rows[q >> run.top - it.height] for it in batch]
                               for q in queries],
             "opening_proof": opened(levels, [q >> run.top + 1 - len(levels) for q in queries])}
            for batch, levels in zip(batches, trees)]}
    fri["commit_phase_openings"] = [
        {"opening_proof": opened(levels, [q >> r + 2 for q in queries]),
         "sibling_values": [[word[q >> r + 1 ^ 1]] for q in queries]}
        for r, (word, levels) in enumerate(rounds)]
    if f == 0:
        fri["final_poly"] = fri["final_poly"][0]
    return {"batches": claimed, "proof": proof}


def main():
    given = json.load(sys.stdin)
    told = proved(given["batches"], params(given["params"]))
    told["params"] = {key: it for key, it in given["params"].items() if key != FINAL or it > 0}
    print(json.dumps(told, default=bytes.hex, separators=(",", ":"), sort_keys=True))


if __name__ == "__main__":
    main()
