#!/usr/bin/env python3
"""Prints what circle_bench must print for the circle transform, values at a point, tables of
periodic columns and commitments, computed from the definition.

A value is the plain sum of the coefficients times the basis at the point. Coefficients solve that
system of linear equations, by elimination. Nothing is computed by layers. Digests are hashlib's.
Compressions of a proof are counted message by message, by docs/FORMAT.md.
"""

import hashlib

ORDER = 2**31 - 1
ROOT = (311014874, 1584694829)
START, STEP = 123456789, 987654321
LOG_ROWS = 6
WIDTHS = (1, 8, 64)
INDICES, FACTOR = 40, 2654435761


def plus(p, q):
    return (p[0] * q[0] - p[1] * q[1]) % ORDER, (p[0] * q[1] + p[1] * q[0]) % ORDER


def times(count, p):
    total = (1, 0)
    for _ in range(count):
        total = plus(total, p)
    return total


def generator(log_order):
    """A point of order 2^log_order."""
    point = ROOT
    for _ in range(31 - log_order):
        point = plus(point, point)
    return point


def reversed_bits(index, bits):
    return int(format(index, f"0{bits}b")[::-1], 2) if bits else 0


def points(log_n):
    """The points of the standard domain in the order of the transform: pairs of opposite points, the
    first ones by the reversed bits of their place."""
    shift, step = generator(log_n + 1), generator(log_n - 1)
    for place in range(2 ** (log_n - 1)):
        x, y = plus(shift, times(reversed_bits(place, log_n - 1), step))
        yield x, y
        yield x, -y % ORDER


def basis(index, point):
    """y for bit 0 of the index, x for bit 1, and the doubled point's x for each further bit."""
    x, product = point[0], point[1] if index % 2 else 1
    index //= 2
    while index:
        if index % 2:
            product = product * x % ORDER
        x = (2 * x * x - 1) % ORDER
        index //= 2
    return product


def evaluate(log_n, coeffs):
    result = []
    for point in points(log_n):
        factors = [basis(j, point) for j in range(len(coeffs))]
        columns = zip(*coeffs)
        result.append([sum(map(int.__mul__, factors, column)) % ORDER for column in columns])
    return result


def interpolate(log_n, values):
    """Gauss's elimination on the matrix of the basis at the points, with the values beside it."""
    size = 2**log_n
    system = [
        [basis(j, point) for j in range(size)] + row for point, row in zip(points(log_n), values)
    ]
    for j in range(size):
        pivot = next(i for i in range(j, size) if system[i][j])
        system[j], system[pivot] = system[pivot], system[j]
        inverse = pow(system[j][j], -1, ORDER)
        system[j] = [entry * inverse % ORDER for entry in system[j]]
        for i in range(size):
            if i != j and system[i][j]:
                factor = system[i][j]
                system[i] = [(a - factor * b) % ORDER for a, b in zip(system[i], system[j])]
    return [row[size:] for row in system]


def cubic(base):
    return base % ORDER, 0, 0


def cubic_sum(a, b):
    return tuple((x + y) % ORDER for x, y in zip(a, b))


def cubic_product(a, b):
    """By X^3 = 5."""
    product = [0] * 3
    for i, x in enumerate(a):
        for j, y in enumerate(b):
            product[(i + j) % 3] += x * y * (5 if i + j > 2 else 1)
    return tuple(entry % ORDER for entry in product)


def cubic_power(a, exponent):
    power = cubic(1)
    for bit in bin(exponent)[2:]:
        power = cubic_product(power, power)
        if bit == "1":
            power = cubic_product(power, a)
    return power


def on_line(t):
    """The point ((1 - t^2) / (1 + t^2), 2t / (1 + t^2)); inverses are powers."""
    square = cubic_product(t, t)
    inverse = cubic_power(cubic_sum(cubic(1), square), ORDER**3 - 2)
    x = cubic_sum(cubic(1), cubic_product(cubic(-1), square))
    return cubic_product(x, inverse), cubic_product(cubic_sum(t, t), inverse)


def cubic_basis(index, point):
    x, product = point[0], point[1] if index % 2 else cubic(1)
    index //= 2
    while index:
        if index % 2:
            product = cubic_product(product, x)
        x = cubic_sum(cubic_product(cubic(2), cubic_product(x, x)), cubic(-1))
        index //= 2
    return product


def evaluate_at_point(log_n, values, point):
    """The coefficients of the values, a row for each column."""
    totals = [cubic(0)] * len(values[0])
    for j, row in enumerate(interpolate(log_n, values)):
        factor = cubic_basis(j, point)
        totals = [cubic_sum(a, cubic_product(factor, cubic(b))) for a, b in zip(totals, row)]
    return totals


def other_order(log_n, rows):
    """Rows in natural order in that of the transform, and the other way about."""
    places = (i // 2 if i % 2 == 0 else 2**log_n - 1 - i // 2 for i in range(2**log_n))
    return [rows[reversed_bits(place, log_n)] for place in places]


def table(log_n, columns):
    """The columns on a domain of twice the size; its doubled points are those of a standard domain."""
    coeffs = interpolate(log_n, other_order(log_n, columns))
    return other_order(log_n + 1, evaluate(log_n + 1, coeffs))


def matrix(rows, width):
    """Each entry is the square of the one before it plus the step."""
    entries, x = [], START
    for _ in range(rows * width):
        entries.append(x)
        x = (x * x + STEP) % ORDER
    return [entries[row * width : (row + 1) * width] for row in range(rows)]


def digest(rows):
    total = 0
    for row in rows:
        for entry in row:
            total = (total * STEP + entry) % ORDER
    return total


def sha256(first, *pieces):
    return hashlib.sha256(bytes([first]) + b"".join(pieces)).digest()


def number(digest):
    """The first four bytes, greatest first."""
    return int.from_bytes(digest[:4], "big")


def commit(rows):
    """The digests of a tree over the rows, position by position, by level from the lowest."""
    level = [sha256(0, *(entry.to_bytes(4, "big") for entry in row)) for row in rows]
    tree = {(0, place): digest for place, digest in enumerate(level)}
    for log in range(1, len(rows).bit_length()):
        for place in range(len(rows) >> log):
            below = tree[log - 1, 2 * place], tree[log - 1, 2 * place + 1]
            tree[log, place] = sha256(1, *below)
    return tree


def openings(size, tree):
    """The digests of positions beside those above the indices, which aren't above one themselves."""
    known = {place * FACTOR % size for place in range(INDICES)}
    for log in range(size.bit_length() - 1):
        for place in sorted(known):
            if place ^ 1 not in known:
                yield tree[log, place ^ 1]
        known = {place // 2 for place in known}


def seed_length(points, rounds):
    """The bytes of the seed's text of one matrix, folded to a constant."""
    labels = ["opening_point", "opened_values"] * points
    labels += ["batch_challenge", "first_layer_commitment", "bivariate_challenge"]
    labels += ["commit_phase_commitment", "fold_challenge"] * rounds + ["final_poly", "query_indices"]
    steps = sum(3 + 8 + 8 + len(label) + 1 + 8 for label in labels)
    name, blowup, layout = 8 + len("p3-circle-pcs"), 8 + 8, 8 + 3 * 8
    return 1 + name + 8 + steps + 8 + blowup + layout


def messages(log_rows, width, points):
    """The bytes of each message that proving a matrix at a blowup of two hashes."""
    rows, rounds = 2 ** (log_rows + 1), log_rows - 1
    yield from [1 + 4 * width] * rows + [65] * (rows - 1)
    for log_pairs in range(log_rows, 0, -1):
        yield from [1 + 24] * 2**log_pairs + [65] * (2**log_pairs - 1)
    elements = seed_length(points, rounds) + points * (6 + 3 * width) + 3
    squeezes = 3 * (2 + rounds) + INDICES
    yield from [65] * (2 + rounds) + [37] * elements + [33] * 2 * squeezes


def main():
    passes = {
        "interpolate": lambda rows: interpolate(LOG_ROWS, rows),
        "evaluate": lambda rows: evaluate(LOG_ROWS, rows),
        "extrapolate": lambda rows: evaluate(LOG_ROWS + 1, interpolate(LOG_ROWS, rows)),
    }
    for name, transform in passes.items():
        for width in WIDTHS:
            result = transform(matrix(2**LOG_ROWS, width))
            print(f"Mersenne31 {name} {2**LOG_ROWS} x {width}: [{digest(result)}]")
    at = on_line((START, STEP, START**2 % ORDER))
    for width in WIDTHS:
        result = evaluate_at_point(LOG_ROWS, matrix(2**LOG_ROWS, width), at)
        print(f"Cubic evaluate_at_point {2**LOG_ROWS} x {width}: [{digest(result)}]")
    for width in WIDTHS:
        result = table(LOG_ROWS, matrix(2**LOG_ROWS, width))
        print(f"PeriodicLdeTable build {2**LOG_ROWS} x {width}: [{digest(result)}]")
    for width in WIDTHS:
        size = 2**LOG_ROWS
        tree = commit(matrix(size, width))
        proof = sum(map(number, openings(size, tree)))
        print(f"ShaMmcs commit {size} x {width}: [{number(tree[LOG_ROWS, 0])}]")
        print(f"ShaMmcs open {size} x {width}: [{proof}]")
        print(f"ShaMmcs verify {size} x {width}: [1]")
    for points in (1, 2):
        count = sum((length + 9 + 63) // 64 for length in messages(LOG_ROWS, WIDTHS[1], points))
        print(f"Sha256 compressions of a proof {2**LOG_ROWS} x {WIDTHS[1]} at {points}: [{count}]")


main()
