"""Constraints on the rows of a trace, written as arithmetic on its columns.

    import circle

    air = circle.Air(columns=2, public_values=1)
    a, b = air.columns
    next_a, next_b = air.next_columns
    air.first_row.assert_eq(a * b, air.public_values[0])
    air.transition.assert_eq(next_a, a + 1, "a counts")
    air.every_row.assert_bool(b)

docs/STARK.md says what an AIR is, when the rows of a trace satisfy it, and which text is hashed.
"""

import hashlib
import operator
from typing import Any, Callable, Dict, Iterator, List, NamedTuple, Optional, Sequence, Tuple, Union

from .errors import Refused
from .forms import ORDER, compact, parsed
from .parts import KINDS, PLACES, Node, Parts, refusals

__all__ = ["Air", "Expr", "Place"]

# What stands for an expression: a whole number is a constant.
Operand = Union["Expr", int]
# The operations on two nodes, and of each the constant that changes nothing behind it.
_OPERATIONS: Dict[str, Tuple[Callable[[int, int], int], int]] = {
    "add": (operator.add, 0),
    "sub": (operator.sub, 0),
    "mul": (operator.mul, 1),
}
_COMMUTATIVE = ("add", "mul")


class _Constraint(NamedTuple):
    node: int
    when: str
    name: Optional[str]


def _whole(value: Any) -> Optional[int]:
    """The whole number that a value is; None for others, and for True and False."""
    if isinstance(value, bool):
        return None
    try:
        return operator.index(value)
    except TypeError:
        return None


def _element(value: Any) -> int:
    """The element that a whole number is modulo ORDER."""
    number = _whole(value)
    if number is None:
        raise TypeError(f"expected a whole number, got {type(value).__name__}")
    return number % ORDER


class Expr:
    """What has a value at each row of a trace: a column or what is computed of columns.

    `+`, `-` and `*` take expressions of one AIR and whole numbers, and `**` takes a whole number
    from 0 on. All of it is modulo ORDER.
    """

    __slots__ = ("_air", "_node")

    def __init__(self, air: "Air", node: int) -> None:
        self._air, self._node = air, node

    def __add__(self, other: Operand) -> "Expr":
        return self._air._combined("add", self, other)

    def __radd__(self, other: int) -> "Expr":
        return self._air._combined("add", other, self)

    def __sub__(self, other: Operand) -> "Expr":
        return self._air._combined("sub", self, other)

    def __rsub__(self, other: int) -> "Expr":
        return self._air._combined("sub", other, self)

    def __mul__(self, other: Operand) -> "Expr":
        return self._air._combined("mul", self, other)

    def __rmul__(self, other: int) -> "Expr":
        return self._air._combined("mul", other, self)

    def __neg__(self) -> "Expr":
        return self._air._opposite(self)

    def __pow__(self, exponent: int) -> "Expr":
        count = _whole(exponent)
        if count is None:
            return NotImplemented
        if count < 0:
            raise ValueError(f"expected an exponent of at least 0, got {count}")
        power: Operand = 1
        for bit in f"{count:b}":
            power = power * power * (self if bit == "1" else 1)
        return self._air.expression(power)

    def __bool__(self) -> bool:
        raise TypeError("an expression is neither true nor false: it has a value at each row")


class Place:
    """The rows at which a constraint holds.

    Each call takes a name of the constraint, by which an error calls it.
    """

    def __init__(self, air: "Air", when: str) -> None:
        self._air, self._when = air, when

    def assert_zero(self, value: Operand, name: Optional[str] = None) -> None:
        """Requires an expression to be 0."""
        self._air._require(self._when, self._air.expression(value), name)

    def assert_eq(self, left: Operand, right: Operand, name: Optional[str] = None) -> None:
        """Requires two expressions to be equal."""
        self.assert_zero(self._air.expression(left) - self._air.expression(right), name)

    def assert_bool(self, value: Operand, name: Optional[str] = None) -> None:
        """Requires an expression to be 0 or 1."""
        given = self._air.expression(value)
        self.assert_zero(given * given - given, name)


class Air:
    """The constraints of a trace, with its numbers of columns and public values.

    `columns` are the entries of a row, `next_columns` those of the row after it (after the last
    comes the first) and `public_values` what prover and verifier both know. Constraints are made at
    a place: `first_row`, `last_row`, `every_row`, or `transition`, which is every row but the last.

    Equal expressions are one, such as a + b and b + a, and those that no constraint uses are left
    out. Constants are computed, and x + 0, x - 0 and x * 1 are x.
    """

    def __init__(self, columns: int, public_values: int = 0) -> None:
        if columns < 1 or public_values < 0:
            raise ValueError("expected at least 1 column and 0 public values")
        self._begin([], [])
        self._add_reads(columns, public_values)

    def periodic(self, entries: Sequence[int]) -> Expr:
        """A column that both sides know: row i has the entry i modulo their number, which is a
        power of two."""
        column = tuple(map(_element, entries))
        if len(column) == 0 or len(column) & (len(column) - 1):
            raise ValueError(f"a period of {len(column)} rows isn't a power of two")
        if column not in self._periodic_columns:
            self._periodic_columns.append(column)
        return self._expr("periodic", self._periodic_columns.index(column))

    def constant(self, value: int) -> Expr:
        """The same value at each row."""
        return self._expr("constant", _element(value))

    def expression(self, value: Operand) -> Expr:
        """The expression that a value stands for: itself, or a constant."""
        if not self._is_operand(value):
            use = " (use assert_eq: `==` compares objects)" if isinstance(value, bool) else ""
            kind = type(value).__name__
            raise TypeError(f"expected an expression or a whole number, got {kind}{use}")
        return value if isinstance(value, Expr) else self.constant(value)

    @property
    def constraint_names(self) -> Tuple[Optional[str], ...]:
        """The names of the constraints, by number, and None for one without a name."""
        return tuple(it.name for it in self._constraints)

    @classmethod
    def from_value(cls, value: Any) -> "Air":
        """The AIR with this JSON value, as `json.loads` returns it. It has the same digest, and its
        constraints have no names. The value is the caller's own: its numbers of columns and public
        values aren't limited.

        Raises Unreadable if the value can't be read, and Refused, by the name in docs/STARK.md, if
        it makes no AIR.
        """
        parts = Parts.from_value(value)
        for name, applies in refusals(parts):
            if applies:
                raise Refused(name)
        air = cls.__new__(cls)
        air._begin([*parts.nodes], [*parts.periodic_columns])
        air._constraints = [_Constraint(it.node, it.when, None) for it in parts.constraints]
        air._add_reads(parts.width, parts.num_public_values)
        return air

    @classmethod
    def from_json(cls, text: Union[str, bytes]) -> "Air":
        """The AIR with this JSON text."""
        return cls.from_value(parsed(text))

    def to_json(self) -> str:
        """The AIR's JSON text, with ascending keys."""
        return compact(self.to_value())

    def to_value(self) -> Dict[str, Any]:
        """The AIR's JSON value (docs/STARK.md)."""
        kept, required = self._kept(), self._constraints
        numbers = {node: number for number, node in enumerate(kept)}
        return {
            "constraints": [{"node": numbers[it.node], "when": it.when} for it in required],
            "nodes": [_node_value(self._nodes[it], numbers) for it in kept],
            "num_public_values": len(self.public_values),
            "periodic_columns": [list(column) for column in self._periodic_columns],
            "width": len(self.columns),
        }

    def digest(self) -> str:
        """The digest of the AIR, which `stark_tool verify` writes: 64 hexadecimal digits."""
        return hashlib.sha256(_text(self.to_value())).hexdigest()

    def __eq__(self, other: object) -> bool:
        if not isinstance(other, Air):
            return NotImplemented
        return self.to_value() == other.to_value()

    # It grows while constraints are added to it. Its digest can be a key.
    __hash__ = None  # type: ignore[assignment]

    def __repr__(self) -> str:
        counts = len(self.columns), len(self.public_values), len(self._constraints)
        return "<Air: columns={}, public_values={}, constraints={}>".format(*counts)

    def _begin(self, nodes: List[Node], periodic_columns: List[Tuple[int, ...]]) -> None:
        """Takes nodes, which are kept as they are, and periodic columns."""
        self._nodes, self._read = nodes, len(nodes)
        self._numbers: Dict[Node, int] = {}
        for number, node in enumerate(nodes):
            self._numbers.setdefault(_key(node), number)
        self._periodic_columns = periodic_columns
        self._constraints: List[_Constraint] = []

    def _add_reads(self, columns: int, public_values: int) -> None:
        """Adds what is read, and the places."""
        self.columns = self._reads("local", columns)
        self.next_columns = self._reads("next", columns)
        self.public_values = self._reads("public", public_values)
        self.every_row, self.first_row, self.last_row, self.transition = (
            Place(self, when) for when in PLACES
        )

    def _reads(self, kind: str, count: int) -> Tuple[Expr, ...]:
        return tuple(self._expr(kind, it) for it in range(count))

    def _expr(self, kind: str, *operands: int) -> Expr:
        """The expression of a node, which is appended unless there is an equal one."""
        node = (kind, *operands)
        key = _key(node)
        if key not in self._numbers:
            self._numbers[key] = len(self._nodes)
            self._nodes.append(node)
        return Expr(self, self._numbers[key])

    def _is_operand(self, value: Any) -> bool:
        """Whether a value stands for an expression of this AIR."""
        if isinstance(value, Expr) and value._air is not self:
            raise ValueError("the expression belongs to another AIR")
        return isinstance(value, Expr) or _whole(value) is not None

    def _known(self, value: Operand) -> Optional[int]:
        """The element that an operand is at each row, if it is a constant."""
        if not isinstance(value, Expr):
            return _element(value)
        kind, operand, *_ = self._nodes[value._node]
        return operand if kind == "constant" else None

    def _combined(self, kind: str, left: Operand, right: Operand) -> Any:
        """The expression of an operation on two operands, and NotImplemented where one is none."""
        if not self._is_operand(left) or not self._is_operand(right):
            return NotImplemented
        compute, neutral = _OPERATIONS[kind]
        known, behind = self._known(left), self._known(right)
        if known is not None and behind is not None:
            return self.constant(compute(known, behind))
        if behind == neutral:
            return left
        if known == neutral and kind in _COMMUTATIVE:
            return right
        return self._expr(kind, self.expression(left)._node, self.expression(right)._node)

    def _opposite(self, expr: Expr) -> Expr:
        known = self._known(expr)
        return self._expr("neg", expr._node) if known is None else self.constant(-known)

    def _require(self, when: str, expr: Expr, name: Optional[str]) -> None:
        if name is not None and not isinstance(name, str):
            raise TypeError(f"expected a str as the constraint's name, got {type(name).__name__}")
        self._constraints.append(_Constraint(expr._node, when, name))

    def _kept(self) -> List[int]:
        """The nodes that constraints use or that were read, in ascending order."""
        used = {it.node for it in self._constraints}.union(range(self._read))
        for node in reversed(range(len(self._nodes))):
            if node in used:
                used.update(_earlier(self._nodes[node]))
        return sorted(used)


def _key(node: Node) -> Node:
    """What equal nodes have in common."""
    kind, *operands = node
    return (kind, *sorted(operands)) if kind in _COMMUTATIVE else node


def _earlier(node: Node) -> Tuple[int, ...]:
    """The nodes that a node is computed of."""
    kind, *operands = node
    return tuple(operands) if kind in _OPERATIONS or kind == "neg" else ()


def _node_value(node: Node, numbers: Dict[int, int]) -> Dict[str, Any]:
    """The value of JSON that stands for a node, of nodes with these numbers."""
    kind, operand, *_ = node
    earlier = [numbers[it] for it in _earlier(node)]
    return {kind: earlier if len(earlier) == 2 else earlier[0] if earlier else operand}


def _be64(number: int) -> bytes:
    return number.to_bytes(8, "big")


def _listed(items: Sequence[bytes]) -> bytes:
    return _be64(len(items)) + b"".join(items)


def _element_text(value: int) -> bytes:
    return value.to_bytes(4, "big")


def _node_text(node: Dict[str, Any]) -> bytes:
    [(kind, operands)] = node.items()
    if kind == "constant":
        return bytes([KINDS.index(kind)]) + _element_text(operands)
    numbers = operands if isinstance(operands, list) else [operands]
    return bytes([KINDS.index(kind)]) + b"".join(map(_be64, numbers))


def _parts_of_text(air: Dict[str, Any]) -> Iterator[bytes]:
    yield b"circle-air" + bytes([1])
    yield _be64(len(_element_text(0))) + _be64(air["width"]) + _be64(air["num_public_values"])
    yield _listed([_listed(list(map(_element_text, it))) for it in air["periodic_columns"]])
    yield _listed(list(map(_node_text, air["nodes"])))
    yield _listed(
        [bytes([PLACES.index(it["when"])]) + _be64(it["node"]) for it in air["constraints"]]
    )


def _text(air: Dict[str, Any]) -> bytes:
    """The text that spells an AIR, which its digest is of."""
    return b"".join(_parts_of_text(air))
