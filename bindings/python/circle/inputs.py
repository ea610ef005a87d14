"""What the calls by texts read, as records: they find where a text can't be read."""

import collections.abc
from dataclasses import dataclass, field
from typing import Any, Sequence, Type

from .errors import Unreadable
from .forms import COUNT, ELEMENTS, ROWS, Record, by, count, list_of, record
from .library import Text
from .records import ClaimedBatch, Matrix, Params, Proof

__all__ = ["CommitInput", "ProveInput", "ShapeInput", "ValuesInput", "VerifyInput", "located"]


@dataclass(frozen=True)
class ValuesInput(Record):
    """An input of the program's `values`."""

    coefficients: Sequence[Sequence[int]] = field(metadata=ROWS)
    log_n: int = field(metadata=COUNT)
    shift: Sequence[int] = field(metadata=ELEMENTS)


def _committed(value: Any) -> Matrix:
    """A matrix, of which the rows alone may be given."""
    is_whole = isinstance(value, (Matrix, collections.abc.Mapping))
    return record(Matrix)(value) if is_whole else Matrix((), value)


@dataclass(frozen=True)
class CommitInput(Record):
    """An input of the program's `prove`, whose points don't count."""

    batches: Sequence[Sequence[Matrix]] = field(metadata=by(list_of(list_of(_committed))))
    params: Params = field(metadata=by(record(Params)))


@dataclass(frozen=True)
class ProveInput(Record):
    """An input of the program's `prove`."""

    batches: Sequence[Sequence[Matrix]] = field(metadata=by(list_of(list_of(record(Matrix)))))
    params: Params = field(metadata=by(record(Params)))


@dataclass(frozen=True)
class VerifyInput(Record):
    """An input of the program's `verify`."""

    batches: Sequence[ClaimedBatch] = field(metadata=by(list_of(record(ClaimedBatch))))
    params: Params = field(metadata=by(record(Params)))
    proof: Proof = field(metadata=by(record(Proof)))


@dataclass(frozen=True)
class ShapeInput(Record):
    """An input of the program's `shape`."""

    log_max_height: int = field(metadata=COUNT)
    opened_widths: Sequence[Sequence[Sequence[int]]] = field(
        metadata=by(list_of(list_of(list_of(count))))
    )
    params: Params = field(metadata=by(record(Params)))


def located(fault: Unreadable, kind: Type[Record], text: Text) -> Unreadable:
    """The library's fault of a text, with the path that leads to it where that is found."""
    try:
        kind.from_json(text)
    except Unreadable as found:
        if found.name == fault.name:
            return found
    return Unreadable("json", "") if fault.name == "json" else fault
