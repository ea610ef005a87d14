"""Challengers: what both sides of a protocol absorb, and the points that they draw after it."""

import contextlib
import copy
import re
from typing import Iterator, Optional, Sequence, Union

from .forms import Commitment, Cubic, element, list_of
from .library import STATE_LEN, State, absorb, absorb_element, draw

__all__ = ["Challenger", "advance"]


class Challenger:
    """Absorbs what both sides of a protocol know, and draws points after it.

    Prover and verifier have one each. If both absorb the same in the same order, both draw the
    same, and `prove` and `verify` leave them equal. A challenger is its state of 32 bytes:
    challengers with the same state are equal. Don't share one between threads: of two calls at the
    same time, one can be lost without an error.

        challenger = circle.Challenger()
        challenger.observe(b"the name of a protocol")
        challenger.observe(commitment)
        point = challenger.sample_point()
    """

    def __init__(self) -> None:
        self._state = bytes(STATE_LEN)

    @classmethod
    def from_bytes(cls, state: Union[bytes, bytearray, memoryview]) -> "Challenger":
        """The challenger with this state of 32 bytes."""
        if not isinstance(state, (bytes, bytearray, memoryview)):
            raise TypeError(f"expected bytes, got {type(state).__name__}")
        data = bytes(state)
        if len(data) != STATE_LEN:
            raise ValueError(f"expected {STATE_LEN} bytes, got {len(data)}")
        challenger = cls()
        challenger._state = data
        return challenger

    def to_bytes(self) -> bytes:
        """The state."""
        return self._state

    def copy(self) -> "Challenger":
        """A challenger with the same state, which is independent of this one."""
        return copy.copy(self)

    def __eq__(self, other: object) -> bool:
        if not isinstance(other, Challenger):
            return NotImplemented
        return self._state == other._state

    def __repr__(self) -> str:
        return f"Challenger.from_bytes(bytes.fromhex({self._state.hex()!r}))"

    def observe(self, data: Union[bytes, bytearray, memoryview, Commitment]) -> None:
        """Absorbs bytes, or the 32 bytes of a commitment, as one piece: `observe(b"ab")` isn't
        `observe(b"a")` then `observe(b"b")`. Encode a name: `observe(name.encode())`."""
        if not isinstance(data, (bytes, bytearray, memoryview, Commitment)):
            use = ""
            if isinstance(data, str):
                is_commitment = re.fullmatch("[0-9A-Fa-f]{64}", data)
                use = " (use Commitment(text))" if is_commitment else " (use `name.encode()`)"
            raise TypeError(f"expected bytes or a Commitment, got {type(data).__name__}{use}")
        with advance(self) as state:
            absorb(state, bytes(data))

    def observe_elements(self, elements: Sequence[int]) -> None:
        """Absorbs whole numbers from 0 to 2^31 - 2, each as its four bytes, the greatest first:
        `observe_elements([7])` is `observe(b"\\0\\0\\0\\7")`. The list's length isn't absorbed:
        `observe_elements([1, 2])` is `observe_elements([1])` then `observe_elements([2])`."""
        numbers = list_of(element)(elements)
        with advance(self) as state:
            for number in numbers:
                absorb_element(state, number)

    def sample_point(self) -> Cubic:
        """Draws an element of the challenge field: a point for claims, by one coordinate of the
        projective line. It also serves as a challenge, such as one that combines columns."""
        with advance(self) as state:
            return draw(state)


@contextlib.contextmanager
def advance(challenger: Optional[Challenger]) -> Iterator[Optional[State]]:
    """The state of a challenger, for a call to advance; None without a challenger. The challenger
    ends in the state that the call leaves; unchanged if this raises."""
    if challenger is None:
        yield None
        return
    if not isinstance(challenger, Challenger):
        raise TypeError(f"expected a Challenger, got {type(challenger).__name__}")
    state = State.from_buffer_copy(challenger._state)
    yield state
    challenger._state = bytes(state)
