"""Proofs that the rows of a trace satisfy an AIR.

    statement = circle.stark.Statement(air, log_n=10, public_values=[1, 1, last], params=params)
    proof = circle.stark.prove(statement, rows)
    circle.stark.verify(statement, proof)

A prover and a verifier write the statement each for itself: nothing but the proof is the other's.
`check_text`, `prove_text` and `verify_text` take texts of JSON, which docs/STARK.md describes. A
verifier may also keep its statement as a text, `statement.to_json()`, and read it with
`Statement.from_json`.
"""

import collections.abc
import re
from dataclasses import dataclass, field
from typing import Any, Callable, Dict, Mapping, Optional, Sequence, Type, TypeVar, Union

from . import records
from .air import Air
from .challenger import Challenger, advance
from .errors import Refused, Unreadable, Unsatisfied
from .forms import (
    COMMITMENT,
    COUNT,
    CUBICS,
    ELEMENTS,
    LISTS_OF_CUBICS,
    ROWS,
    Commitment,
    Cubic,
    Record,
    by,
    compact,
    record,
    wrong,
)
from .inputs import located
from .library import State, Text, line, read_answer, unexpected
from .parts import Parts
from .records import Params

__all__ = [
    "OpenedValues",
    "Proof",
    "Statement",
    "check",
    "check_text",
    "prove",
    "prove_text",
    "verify",
    "verify_text",
]

# More bytes than a verdict and each refusal have.
_VERDICT_LEN = 256
# More than most proofs have. If one is longer, the call is repeated.
_PROOF_LEN = 1 << 22
_SATISFIED = '{"satisfied":true}'
_VERIFIED = re.compile(r'\{"air_digest":"([0-9a-f]{64})","log_n":\d+,"verified":true\}')


_R = TypeVar("_R")


def _air(value: Any) -> Air:
    """An AIR, which may be given as its JSON value."""
    if isinstance(value, Air):
        return value
    if not isinstance(value, collections.abc.Mapping):
        raise wrong(value, "an Air or its JSON value")
    return Air.from_value(value)


def _own(value: Any) -> Air:
    if not isinstance(value, Air):
        raise TypeError(f"expected an Air, got {type(value).__name__}")
    return value


@dataclass(frozen=True)
class Statement(Record):
    """What a proof shows: that 2^log_n rows satisfy an AIR of these public values. The parameters
    are the verifier's (docs/SECURITY.md).

    The JSON value has no names of constraints, and is read as that of an Air is. A statement has no
    hash, since its AIR has none; `statement.air.digest()` can be a key.
    """

    air: Air = field(metadata=by(_air))
    log_n: int = field(metadata=COUNT)
    public_values: Sequence[int] = field(metadata=ELEMENTS)
    params: Params = field(metadata=by(record(Params)))

    def to_value(self) -> Any:
        return {**super().to_value(), "air": self.air.to_value()}


@dataclass(frozen=True)
class OpenedValues(Record):
    """The values of the trace's columns and of the quotient's chunks at the opened points."""

    quotient_chunks: Sequence[Sequence[Cubic]] = field(metadata=LISTS_OF_CUBICS)
    trace_local: Sequence[Cubic] = field(metadata=CUBICS)
    trace_next: Sequence[Cubic] = field(metadata=CUBICS)


@dataclass(frozen=True)
class Proof(Record):
    """A proof of a statement. Its JSON value is a text's `proof`."""

    opened_values: OpenedValues = field(metadata=by(record(OpenedValues)))
    opening_proof: records.Proof = field(metadata=by(record(records.Proof)))
    quotient_commitment: Commitment = field(metadata=COMMITMENT)
    trace_commitment: Commitment = field(metadata=COMMITMENT)


@dataclass(frozen=True)
class _Trace(Record):
    rows: Sequence[Sequence[int]] = field(metadata=ROWS)
    public_values: Sequence[int] = field(metadata=ELEMENTS)


# What texts have: only to find where one can't be read, so the AIR isn't built.
@dataclass(frozen=True)
class _CheckText(Record):
    air: Parts = field(metadata=by(record(Parts)))
    public_values: Sequence[int] = field(metadata=ELEMENTS)
    rows: Sequence[Sequence[int]] = field(metadata=ROWS)
    params: Optional[Params] = field(
        default=None,
        metadata=by(lambda value: value if value is None else record(Params)(value), True),
    )


@dataclass(frozen=True)
class _ProveText(Record):
    air: Parts = field(metadata=by(record(Parts)))
    params: Params = field(metadata=by(record(Params)))
    public_values: Sequence[int] = field(metadata=ELEMENTS)
    rows: Sequence[Sequence[int]] = field(metadata=ROWS)


@dataclass(frozen=True)
class _StatementText(Record):
    air: Parts = field(metadata=by(record(Parts)))
    log_n: int = field(metadata=COUNT)
    params: Params = field(metadata=by(record(Params)))
    public_values: Sequence[int] = field(metadata=ELEMENTS)


def check(air: Air, rows: Sequence[Sequence[int]], public_values: Sequence[int] = ()) -> None:
    """Returns None if the rows satisfy the AIR with these public values; raises otherwise:
    Unsatisfied if a constraint doesn't hold at a row."""
    value = {**_Trace(rows, public_values).to_value(), "air": _own(air).to_value()}
    answer = _line(air, "stark_check", value, _VERDICT_LEN)
    if answer != _SATISFIED:
        raise unexpected(answer)


def prove(
    statement: Statement,
    rows: Sequence[Sequence[int]],
    *,
    challenger: Optional[Challenger] = None,
) -> Proof:
    """Returns a proof of the statement if the rows satisfy its AIR; raises otherwise: Unsatisfied
    if a constraint doesn't hold at a row, ValueError if the number of rows isn't the statement's.

    A challenger must have absorbed what the application requires, such as its name, and ends in the
    state that the proof leaves; unchanged if this raises. Without one, the proof starts from a
    challenger that has absorbed nothing.
    """
    value = {**statement.to_value(), **_Trace(rows, statement.public_values).to_value()}
    height, log_n = len(value["rows"]), value.pop("log_n")
    if height != 2 ** min(log_n, 64):
        raise ValueError(f"the statement has 2^{log_n} rows, but {height} were given")
    with advance(challenger) as state:
        answer = _line(statement.air, "stark_prove", value, _PROOF_LEN, state)
        return read_answer(answer, lambda made: Proof.from_value(made["proof"]))


def verify(
    statement: Statement,
    proof: Union[Proof, Mapping[str, Any]],
    *,
    challenger: Optional[Challenger] = None,
) -> None:
    """Returns None if the proof of the statement is accepted; raises otherwise.

    The statement is the caller's own; only the proof may be a stranger's. The proof may also be its
    JSON value, as `json.loads` returns it.

    A challenger must have absorbed what the prover's had, and ends in the prover's state; unchanged
    if this raises. Without one, the proof starts from a challenger that has absorbed nothing.
    """
    read = proof if isinstance(proof, Proof) else Proof.from_value(proof)
    verified = {"air_digest": statement.air.digest(), "log_n": statement.log_n, "verified": True}
    texts = statement.to_json(), read.to_json()
    with advance(challenger) as state:
        try:
            answer = line("stark_verify", *texts, room=_VERDICT_LEN, state=state)
        except Refused as found:
            raise _told_more(found, statement.air, statement.public_values) from None
        if answer != compact(verified):
            raise unexpected(answer)


def check_text(text: Text) -> None:
    """Returns None if the rows in a text satisfy its AIR; raises otherwise. The text is an input of
    the program's `check`."""
    answer = _told(_CheckText, text, lambda: line("stark_check", text, room=_VERDICT_LEN))
    if answer != _SATISFIED:
        raise unexpected(answer)


def prove_text(text: Text) -> str:
    """A statement with its proof, as the program's `prove` writes them."""
    return _told(_ProveText, text, lambda: line("stark_prove", text, room=_PROOF_LEN))


def verify_text(statement: Text, proof: Text) -> str:
    """Returns the digest of the statement's AIR if the proof is accepted; raises otherwise. Compare
    it with that of your AIR unless the statement's text is your own.

    The statement is an input of the program's `verify` without its proof. If a text can't be read,
    `path` begins with `statement` or `proof`."""
    try:
        answer = line("stark_verify", statement, proof, room=_VERDICT_LEN)
    except Unreadable as fault:
        raise _located_in(fault, statement, proof) from None
    found = _VERIFIED.fullmatch(answer)
    if not found:
        raise unexpected(answer)
    return found[1]


def _located_in(fault: Unreadable, statement: Text, proof: Text) -> Unreadable:
    """The library's fault of one of two texts, with the path that leads to it."""
    kinds: Dict[Optional[str], Any]
    kinds = {"statement": (_StatementText, statement), "proof": (Proof, proof)}
    if fault.path not in kinds:
        return fault
    kind, text = kinds[fault.path]
    return located(Unreadable(fault.name), kind, text).under(fault.path)


def _told(kind: Type[Record], text: Text, call: Callable[[], _R]) -> _R:
    """The result of a call. If the text can't be read, the error has the path of the fault."""
    try:
        return call()
    except Unreadable as fault:
        raise located(fault, kind, text) from None


def _line(
    air: Air, name: str, value: Dict[str, Any], room: int, state: Optional[State] = None
) -> str:
    """The line of a call. An error has the name of the constraint that doesn't hold, or the
    numbers that differ."""
    try:
        return line(name, compact(value), room=room, state=state)
    except Unsatisfied as found:
        names = dict(enumerate(air.constraint_names))
        name_of = names.get(found.constraint)
        raise Unsatisfied(found.row, found.constraint, name_of) from None
    except Refused as found:
        raise _told_more(found, air, value["public_values"], value["rows"]) from None


def _told_more(
    fault: Refused, air: Air, public_values: Sequence[int], rows: Sequence[Sequence[int]] = ()
) -> Refused:
    """A refusal, with the numbers that differ where an AIR doesn't fit what was given."""
    if fault.name == "PublicValuesMismatch":
        due, given = len(air.public_values), len(public_values)
        return Refused(fault.name, f"the AIR has {due} public values, but {given} were given")
    if fault.name == "WidthMismatch" and rows:
        due, given = len(air.columns), len(rows[0])
        return Refused(fault.name, f"the AIR has {due} columns, but the rows have {given}")
    return fault
