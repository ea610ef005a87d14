"""How records read their members and write them: numbers, lists, digests, and texts of JSON.

A record reads its members when it is made. Of a member that can't be read it raises `Unreadable`,
with the name that the library has for the fault and the path of the member. A member that is a
record may be given as its JSON value, and a list as any sequence, such as a numpy array. What is
read is kept as tuples.
"""

import collections.abc
import json
import math
import numbers
import operator
import re
import reprlib
from dataclasses import dataclass, field, fields
from typing import Any, Callable, Dict, Sequence, Tuple, Type, TypeVar, Union

from .errors import Unreadable

__all__ = [
    "CUBIC",
    "COMMITMENT",
    "COMMITMENTS",
    "CUBICS",
    "COUNT",
    "DIGESTS",
    "ELEMENT",
    "ELEMENTS",
    "LISTS_OF_CUBICS",
    "ORDER",
    "ROWS",
    "Commitment",
    "Cubic",
    "Record",
    "by",
    "coefficients",
    "commitments",
    "compact",
    "count",
    "element",
    "list_of",
    "parsed",
    "record",
    "written",
    "wrong",
]

# An element of the challenge field: its three coefficients, each from 0 to 2^31 - 2.
Cubic = Sequence[int]

# The number of elements of the base field.
ORDER = (1 << 31) - 1

_BYTES = (bytes, bytearray, memoryview)
_DIGEST_LEN = 32

_Read = Callable[[Any], Any]
_R = TypeVar("_R", bound="Record")


def wrong(value: Any, wanted: str) -> Unreadable:
    """The fault of a value that is of another kind."""
    is_long = isinstance(value, (list, tuple, collections.abc.Mapping))
    shown = f"a {type(value).__name__}" if is_long else reprlib.repr(value)
    return Unreadable("WrongKind", "", f"{shown} isn't {wanted}")


def _number(value: Any, wanted: str) -> int:
    """A whole number from 0, where True and False are none."""
    try:
        found = operator.index(value)
    except TypeError:
        raise wrong(value, wanted) from None
    if isinstance(value, bool) or not -(1 << 63) <= found < 1 << 64:
        raise wrong(value, wanted)
    if found < 0:
        raise Unreadable("OutOfRange", "", f"{found} is negative")
    return found


def count(value: Any) -> int:
    return _number(value, "a whole number below 2^64")


def element(value: Any) -> int:
    """An element of the base field."""
    if type(value) is int and 0 <= value < ORDER:
        return value
    found = _number(value, "a whole number below 2^31 - 1")
    if found >= ORDER:
        raise Unreadable("OutOfRange", "", f"{found} isn't below 2^31 - 1")
    return found


def _digest(value: Any) -> str:
    if not isinstance(value, str):
        raise wrong(value, "a string of 64 hexadecimal digits")
    if not re.fullmatch("[0-9A-Fa-f]{64}", value):
        raise Unreadable("BadHex", "", f"{reprlib.repr(value)} isn't 64 hexadecimal digits")
    return value.lower()


class Commitment(str):
    """A commitment: 64 hexadecimal digits, as in JSON. Digits in upper case are converted to lower
    case. `bytes(commitment)` returns its 32 bytes, which a challenger absorbs."""

    __slots__ = ()

    def __new__(cls, digits: str) -> "Commitment":
        if not isinstance(digits, str):
            kind = type(digits).__name__
            use = " (use Commitment.from_bytes)" if isinstance(digits, _BYTES) else ""
            raise TypeError(f"expected a str of 64 hexadecimal digits, got {kind}{use}")
        return super().__new__(cls, _digest(digits))

    @classmethod
    def from_bytes(cls, data: Union[bytes, bytearray, memoryview]) -> "Commitment":
        """The commitment with these 32 bytes."""
        if not isinstance(data, _BYTES):
            raise TypeError(f"expected bytes, got {type(data).__name__}")
        found = bytes(data)
        if len(found) != _DIGEST_LEN:
            raise ValueError(f"expected {_DIGEST_LEN} bytes, got {len(found)}")
        return cls(found.hex())

    def __bytes__(self) -> bytes:
        return bytes.fromhex(self)

    def __repr__(self) -> str:
        return f"Commitment({str(self)!r})"


def _commitment(value: Any) -> Commitment:
    return Commitment(_digest(value))


def _items(value: Any) -> Any:
    """The items of a sequence."""
    if isinstance(value, (list, tuple)):
        return value
    found = value.tolist() if hasattr(value, "tolist") else value
    if isinstance(found, (str, bytes)) or not isinstance(found, collections.abc.Sequence):
        raise wrong(value, "a list")
    return found


def list_of(item: _Read) -> _Read:
    def read(value: Any) -> Tuple[Any, ...]:
        found = []
        for given in _items(value):
            try:
                found.append(item(given))
            except Unreadable as fault:
                raise fault.under(f"[{len(found)}]") from None
        return tuple(found)

    return read


def _cubic(value: Any) -> Cubic:
    length = len(_items(value))
    if length != 3:
        raise Unreadable("WrongKind", "", f"expected three numbers, got {length}")
    return list_of(element)(value)


def coefficients(value: Any) -> Tuple[Cubic, ...]:
    """A final polynomial. One coefficient may stand for the list of it."""
    items = _items(value)
    is_one = len(items) > 0 and isinstance(items[0], numbers.Integral)
    return (_cubic(items),) if is_one else list_of(_cubic)(items)


def record(kind: Type[_R]) -> _Read:
    return lambda value: value if isinstance(value, kind) else kind.from_value(value)


def by(read: _Read, may_be_missing: bool = False) -> Dict[str, Any]:
    """How a member of a record is read, and whether a value of JSON may leave it out."""
    return {"read": read, "may_be_missing": may_be_missing}


commitments = list_of(_commitment)
COUNT, ELEMENT, COMMITMENT, CUBIC = map(by, (count, element, _commitment, _cubic))
ELEMENTS, COMMITMENTS, CUBICS = map(by, (list_of(element), commitments, list_of(_cubic)))
DIGESTS = by(list_of(_digest))
ROWS, LISTS_OF_CUBICS = (by(list_of(list_of(it))) for it in (element, _cubic))


def written(value: Any) -> Any:
    """The value of JSON that stands for a member."""
    if isinstance(value, tuple):
        return [written(item) for item in value]
    return value.to_value() if isinstance(value, Record) else value


def _real(digits: str) -> float:
    found = float(digits)
    if math.isinf(found):
        raise ValueError(f"{reprlib.repr(digits)} is too large")
    return found


def _whole(digits: str) -> Union[int, float]:
    """A number without a point. The library takes no number that a float doesn't hold, and -0 as
    none that is whole."""
    found = _real(digits)
    return found if digits == "-0" else int(digits)


def _constant(word: str) -> None:
    raise ValueError(f"{word} isn't JSON")


def parsed(text: Union[str, bytes]) -> Any:
    """The value of a text of JSON, as the library reads it."""
    hooks: Dict[str, Any]
    hooks = {"parse_int": _whole, "parse_float": _real, "parse_constant": _constant}
    try:
        return json.loads(text if isinstance(text, str) else bytes(text).decode(), **hooks)
    except (ValueError, RecursionError) as fault:
        raise Unreadable("json", "", str(fault)) from None


def compact(value: Any) -> str:
    """The text of a value of JSON, as the library writes it."""
    return json.dumps(value, separators=(",", ":"), sort_keys=True)


@dataclass(frozen=True)
class Record:
    """What all records have in common."""

    def __post_init__(self) -> None:
        for member in fields(self):
            try:
                found = member.metadata["read"](getattr(self, member.name))
            except Unreadable as fault:
                raise fault.under(member.name) from None
            object.__setattr__(self, member.name, found)

    @classmethod
    def from_value(cls: Type[_R], value: Any) -> _R:
        """The record with this JSON value, as `json.loads` returns it."""
        if not isinstance(value, collections.abc.Mapping):
            raise wrong(value, "an object")
        members = {it.name: it.metadata["may_be_missing"] for it in fields(cls)}
        required = [name for name, may_be_missing in members.items() if not may_be_missing]
        missing = next((name for name in required if name not in value), None)
        unknown = next((name for name in value if name not in members), None)
        if missing is not None:
            raise Unreadable("MissingKey", missing)
        if unknown is not None:
            raise Unreadable("UnknownKey", str(unknown))
        return cls(**value)

    @classmethod
    def from_json(cls: Type[_R], text: Union[str, bytes]) -> _R:
        """The record with this JSON text."""
        return cls.from_value(parsed(text))

    def to_value(self) -> Any:
        """The record's JSON value."""
        return {member.name: written(getattr(self, member.name)) for member in fields(self)}

    def to_json(self) -> str:
        """The record's JSON text, with ascending keys."""
        return compact(self.to_value())
