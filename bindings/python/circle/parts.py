"""The parts of an AIR as its JSON value has them (docs/STARK.md), and whether they make an AIR."""

import collections.abc
from dataclasses import dataclass, field
from typing import Any, Iterator, Sequence, Tuple

from .errors import Unreadable
from .forms import COUNT, ROWS, Record, by, count, element, list_of, record, wrong

__all__ = ["KINDS", "PLACES", "Node", "Parts", "refusals"]

# A node's kind and its operands: numbers of earlier nodes, or of what it reads, or an element.
Node = Tuple[Any, ...]

# The kinds of nodes and the places of constraints, each by the byte that stands for it in a digest.
KINDS = ("local", "next", "periodic", "public", "constant", "add", "sub", "mul", "neg")
PLACES = ("every", "first", "last", "transition")
_PAIRS = ("add", "sub", "mul")


def _place(value: Any) -> str:
    if value not in PLACES:
        raise wrong(value, f"one of {', '.join(PLACES)}")
    return str(value)


def _operands(kind: str, value: Any) -> Sequence[int]:
    if kind not in _PAIRS:
        return [element(value) if kind == "constant" else count(value)]
    found: Sequence[int] = list_of(count)(value)
    if len(found) != 2:
        raise Unreadable("WrongKind", "", f"expected two numbers, got {len(found)}")
    return found


def _node(value: Any) -> Node:
    if not isinstance(value, collections.abc.Mapping):
        raise wrong(value, "an object")
    if not value:
        raise Unreadable("MissingKey", "", "a node has one key")
    kind = next((key for key in value if key not in KINDS), [*value][-1])
    if kind not in KINDS or len(value) > 1:
        raise Unreadable("UnknownKey", str(kind))
    try:
        return (kind, *_operands(kind, value[kind]))
    except Unreadable as fault:
        raise fault.under(kind) from None


@dataclass(frozen=True)
class _Constraint(Record):
    node: int = field(metadata=COUNT)
    when: str = field(metadata=by(_place))


@dataclass(frozen=True)
class Parts(Record):
    """What an AIR's JSON value has. The nodes are read as tuples."""

    constraints: Sequence[_Constraint] = field(metadata=by(list_of(record(_Constraint))))
    nodes: Sequence[Node] = field(metadata=by(list_of(_node)))
    num_public_values: int = field(metadata=COUNT)
    periodic_columns: Sequence[Sequence[int]] = field(metadata=ROWS)
    width: int = field(metadata=COUNT)


def refusals(parts: Parts) -> Iterator[Tuple[str, bool]]:
    """The reasons for which parts make no AIR, in order, each with whether it applies.

    Parts without constraints make one that is still to get them, and degrees aren't tested here.
    """
    lengths = [len(it) for it in parts.periodic_columns]
    bounds = {
        "local": ("ColumnOutOfRange", parts.width),
        "next": ("ColumnOutOfRange", parts.width),
        "periodic": ("PeriodicOutOfRange", len(lengths)),
        "public": ("PublicOutOfRange", parts.num_public_values),
    }
    yield "NoColumns", parts.width == 0
    yield "PeriodicLength", any(it == 0 or it & (it - 1) for it in lengths)
    for number, (kind, *operands) in enumerate(parts.nodes):
        name, bound = bounds.get(kind, ("NodeOutOfOrder", number))
        yield name, kind != "constant" and max(operands) >= bound
    yield "ConstraintOutOfRange", any(it.node >= len(parts.nodes) for it in parts.constraints)
