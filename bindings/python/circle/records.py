"""What is proved, as records: parameters, statements and proofs, from and to JSON."""

from dataclasses import dataclass, field
from typing import Any, Sequence, Union

from .forms import (
    COMMITMENT,
    COMMITMENTS,
    COUNT,
    CUBIC,
    CUBICS,
    DIGESTS,
    ELEMENT,
    ELEMENTS,
    LISTS_OF_CUBICS,
    ROWS,
    Commitment,
    Cubic,
    Record,
    by,
    coefficients,
    count,
    element,
    list_of,
    record,
    written,
)

__all__ = [
    "BatchOpening",
    "Claim",
    "ClaimedBatch",
    "ClaimedMatrix",
    "FriProof",
    "InputOpenings",
    "Matrix",
    "Params",
    "Proof",
    "RoundOpening",
    "Statement",
]


@dataclass(frozen=True)
class Params(Record):
    """The parameters of proofs, which the verifier chooses (docs/SECURITY.md).

    Its JSON value has every member, except that `log_final_poly_len` may be missing if it is 0.
    """

    log_blowup: int = field(metadata=COUNT)
    num_queries: int = field(metadata=COUNT)
    log_final_poly_len: int = field(default=0, metadata=by(count, may_be_missing=True))
    max_log_arity: int = field(default=1, metadata=COUNT)
    batch_pow_bits: int = field(default=0, metadata=COUNT)
    commit_pow_bits: int = field(default=0, metadata=COUNT)
    query_pow_bits: int = field(default=0, metadata=COUNT)

    def to_value(self) -> Any:
        value = super().to_value()
        if not self.log_final_poly_len:
            del value["log_final_poly_len"]
        return value


@dataclass(frozen=True)
class Matrix(Record):
    """Rows to commit to, and the points to open them at: each by one coordinate of the projective
    line."""

    points: Sequence[Cubic] = field(metadata=CUBICS)
    rows: Sequence[Sequence[int]] = field(metadata=ROWS)


@dataclass(frozen=True)
class Claim(Record):
    """The values that a matrix's columns are said to have at a point."""

    point: Cubic = field(metadata=CUBIC)
    values: Sequence[Cubic] = field(metadata=CUBICS)


@dataclass(frozen=True)
class ClaimedMatrix(Record):
    """The claims on a matrix of 2^log_n rows."""

    log_n: int = field(metadata=COUNT)
    points: Sequence[Claim] = field(metadata=by(list_of(record(Claim))))


@dataclass(frozen=True)
class ClaimedBatch(Record):
    """The claims on the matrices that were committed to at once. The commitment may be given as 64
    hexadecimal digits, and is kept as a Commitment."""

    commitment: Union[Commitment, str] = field(metadata=COMMITMENT)
    matrices: Sequence[ClaimedMatrix] = field(metadata=by(list_of(record(ClaimedMatrix))))


@dataclass(frozen=True)
class Statement(Record):
    """What a proof shows: the claims, batch by batch. Its JSON value is a text's `batches`."""

    batches: Sequence[ClaimedBatch] = field(metadata=by(list_of(record(ClaimedBatch))))

    @classmethod
    def from_value(cls, value: Any) -> "Statement":
        return cls(value)

    def to_value(self) -> Any:
        return written(self.batches)


@dataclass(frozen=True)
class BatchOpening(Record):
    """The rows of a batch at the queries: by query, matrix and column."""

    opened_values: Sequence[Sequence[Sequence[int]]] = field(
        metadata=by(list_of(list_of(list_of(element))))
    )
    opening_proof: Sequence[str] = field(metadata=DIGESTS)


@dataclass(frozen=True)
class InputOpenings(Record):
    """What is opened of the batches and of the first layer."""

    input_openings: Sequence[BatchOpening] = field(metadata=by(list_of(record(BatchOpening))))
    first_layer_siblings: Sequence[Sequence[Cubic]] = field(metadata=LISTS_OF_CUBICS)
    first_layer_proof: Sequence[str] = field(metadata=DIGESTS)


@dataclass(frozen=True)
class RoundOpening(Record):
    """What is opened of a round: the siblings, by query."""

    opening_proof: Sequence[str] = field(metadata=DIGESTS)
    sibling_values: Sequence[Sequence[Cubic]] = field(metadata=LISTS_OF_CUBICS)


@dataclass(frozen=True)
class FriProof(Record):
    """The rounds, what is opened at the queries, and the final polynomial's coefficients."""

    commit_phase_commits: Sequence[Commitment] = field(metadata=COMMITMENTS)
    commit_pow_witnesses: Sequence[int] = field(metadata=ELEMENTS)
    input_openings: InputOpenings = field(metadata=by(record(InputOpenings)))
    commit_phase_openings: Sequence[RoundOpening] = field(
        metadata=by(list_of(record(RoundOpening)))
    )
    final_poly: Sequence[Cubic] = field(metadata=by(coefficients))
    pow_witness: int = field(metadata=ELEMENT)

    def to_value(self) -> Any:
        value = super().to_value()
        if len(self.final_poly) == 1:
            value["final_poly"] = written(self.final_poly[0])
        return value


@dataclass(frozen=True)
class Proof(Record):
    """A proof of claims. Its JSON value is a text's `proof`."""

    batch_pow_witness: int = field(metadata=ELEMENT)
    first_layer_commitment: Commitment = field(metadata=COMMITMENT)
    lambdas: Sequence[Cubic] = field(metadata=CUBICS)
    fri_proof: FriProof = field(metadata=by(record(FriProof)))
