"""How many bits of security parameters have, by the formulas of docs/SECURITY.md.

Nothing of it is proved: read that page, and the papers that it names, before a number matters.
"""

from dataclasses import dataclass
from itertools import combinations
from math import log2
from typing import Iterable, Optional, Union, overload

from .records import Params

__all__ = ["Bits", "Level", "SeveralHeights", "bits"]

# The binary logarithm of the number of elements of the challenge field, `Cubic`.
FIELD_BITS = 93.0
# The logarithm of the greatest domain of the circle's group.
_GREATEST_HEIGHT = 30
# The least m that the Johnson bound is for, and the end of those that are tried.
_LEAST_M, _END_OF_M = 3, 1 << 10


@dataclass(frozen=True)
class Level:
    """A level of security: after the work of T digests a prover of false claims succeeds with
    probability about T / 2^bits at most.

    `queries` are the bits that the queries leave by themselves, and `field` those that the field
    leaves.
    """

    bits: float
    queries: float
    field: float


@dataclass(frozen=True)
class Bits:
    """The levels of claims of one height, in a run of their own: conjectured, by theorems within
    unique decoding, and by theorems up to the Johnson bound, with the m that it is by."""

    conjectured: Level
    unique_decoding: Level
    johnson: Level
    m: int


@dataclass(frozen=True)
class SeveralHeights:
    """What claims of several heights in one run have in place of levels: no level is conjectured or
    proved for them, and a forgery is known (docs/SECURITY.md, "Several heights are weak").

    `at_most` are the bits of the work that it takes, which the run's security doesn't exceed, and
    `each` those that a query counts at most. Open each height in a run of its own.
    """

    at_most: float
    each: float


@overload
def bits(
    params: Params,
    log_n: int,
    values: int,
    *,
    field_bits: float = FIELD_BITS,
    m: Optional[int] = None,
) -> Bits: ...


@overload
def bits(
    params: Params,
    log_n: int,
    values: int,
    *,
    other_log_n: Iterable[int],
    field_bits: float = FIELD_BITS,
    m: Optional[int] = None,
) -> Union[Bits, SeveralHeights]: ...


def bits(
    params: Params,
    log_n: int,
    values: int,
    *,
    other_log_n: Iterable[int] = (),
    field_bits: float = FIELD_BITS,
    m: Optional[int] = None,
) -> Union[Bits, SeveralHeights]:
    """The levels of claims on matrices of 2^log_n rows, at which `values` values are claimed:
    one for each column and point. They are those of a run in which nothing else is claimed.

    `other_log_n` has the logarithms of the numbers of rows of all other matrices that the run
    claims. If one of them is another, the result is a `SeveralHeights`, which has no level.
    `field_bits` is the binary logarithm of the number of elements of the challenge field. Without m
    the Johnson bound is by the m that gives most. Of the proofs of work only the queries' one
    counts.
    """
    if min(params.num_queries, params.log_blowup, values) < 1:
        raise ValueError("num_queries, log_blowup and values must be at least 1")
    if m is not None and m < _LEAST_M:
        raise ValueError(f"m must be at least {_LEAST_M}, got {m}")
    heights = sorted({log_n, *other_log_n})
    for rows in heights:
        if rows < 0 or rows + params.log_blowup > _GREATEST_HEIGHT:
            raise ValueError(f"2^{rows} rows can't be extended to 2^{rows + params.log_blowup}")
    if len(heights) > 1:
        return _several_heights(params, heights, field_bits)
    height, tried = log_n + params.log_blowup, range(_LEAST_M, _END_OF_M) if m is None else [m]
    johnson = {it: _johnson(params, height, values, field_bits, it) for it in tried}
    most = max(johnson, key=lambda it: johnson[it].bits)
    unique = _unique_decoding(params, height, values, field_bits)
    return Bits(_conjectured(params, height, field_bits), unique, johnson[most], most)


def _several_heights(params: Params, heights: Iterable[int], field_bits: float) -> SeveralHeights:
    """By the best forgery that is known for two of the ascending heights."""
    pairs = combinations((it + params.log_blowup for it in heights), 2)
    found = [(_forged_share(params.log_blowup, low, high), high) for low, high in pairs]
    each, greatest = -log2(max(share for share, _ in found)), max(high for _, high in found)
    # The first query is free where it is the only one.
    queries = params.num_queries * each if params.num_queries > 1 else 0.0
    return SeveralHeights(min(queries + params.query_pow_bits, field_bits - greatest), each)


def _forged_share(blowup: int, low: int, high: int) -> float:
    """The share of the positions that a forged proof of claims of two heights passes at."""
    gap = high - low
    if blowup == 1:
        return {1: 2 / 3, 2: 7 / 12}.get(gap, 0.5)
    one_more = 2.0**-high if blowup > 2 else 0.0
    false_at_the_greater = 2.0**-blowup + 2.0 ** -(gap + 1) + one_more
    false_at_the_lower = 0.25 if gap <= 2 else 2.0**-gap
    return max(false_at_the_greater, false_at_the_lower)


def _queries(params: Params, each: float) -> float:
    """The bits that the queries leave, of which one counts for nothing."""
    return (params.num_queries - 1) * each + params.query_pow_bits


def _conjectured(params: Params, height: int, field_bits: float) -> Level:
    queries, field = _queries(params, float(params.log_blowup)), field_bits - height
    return Level(min(queries, field) - 1, queries, field)


def _by_theorems(queries: float, field: float) -> Level:
    """The level where the errors of both add up."""
    least, most = sorted((queries, field))
    return Level(least - log2(1 + 2 ** (least - most)), queries, field)


def _unique_decoding(params: Params, height: int, values: int, field_bits: float) -> Level:
    queries = _queries(params, log2(2 / (1 + 2**-params.log_blowup)))
    return _by_theorems(queries, field_bits - height - log2(2 * values))


def _johnson(params: Params, height: int, values: int, field_bits: float, m: int) -> Level:
    blowup, k = params.log_blowup, 2 * values
    folds = max(0, height - blowup - params.log_final_poly_len)
    by_alpha = (k - 1) * (m + 0.5) ** 7 * 2 ** (2 * height + 1.5 * blowup) / 2
    by_folds = (2 * m + 1) * (2**height + 1) * 2 ** (blowup / 2) * 2 * folds
    queries = _queries(params, blowup / 2 - log2(1 + 1 / (2 * m)))
    return _by_theorems(queries, field_bits - log2(by_alpha + by_folds))
