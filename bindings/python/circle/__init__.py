"""Circle STARKs, proved: verifiers and provers, called from Python.

`circle.stark` proves that the rows of a table satisfy constraints, an `Air` (docs/AIRS.md):

    import circle

    air = circle.Air(columns=1, public_values=1)
    air.first_row.assert_eq(air.columns[0], 1)
    air.transition.assert_eq(air.next_columns[0], air.columns[0] * 2, "each row doubles")
    air.last_row.assert_eq(air.columns[0], air.public_values[0])

    params = circle.Params(log_blowup=1, num_queries=89)
    statement = circle.stark.Statement(air, log_n=3, public_values=[128], params=params)
    proof = circle.stark.prove(statement, [[2**row] for row in range(8)])
    circle.stark.verify(statement, proof)

`prove` and `verify` are of the polynomial commitments below it: they show the values that columns
have at points:

    params = circle.Params(log_blowup=1, num_queries=89)
    matrix = circle.Matrix(points=[(0, 1, 0)], rows=[[7], [7], [7], [7]])
    statement, proof = circle.prove([[matrix]], params)
    circle.verify(statement, proof, params)

If there is no result, a call raises Refused or Unreadable, whose `name` is the reason's in
docs/PROGRAM.md or docs/STARK.md. Arguments that aren't of their types raise TypeError or
ValueError. The calls are those of a library in the language Rattle, whose functions are proved to
meet their contracts: `verify` returns exactly if the relation of an accepted opening holds, unless
it runs out of memory. That is proved of the library. This package is tested and not proved:
docs/BINDINGS.md says what remains.

`prove_text`, `verify_text`, `verify_as_stated`, `shape` and `values` take texts, as str or as the
bytes of UTF-8, which docs/PROGRAM.md describes.

`bits` returns how many bits of security parameters give to claims of one height. Claims of several
heights in one run are weak (docs/SECURITY.md): open each height in a run of its own.

A protocol commits with `commit`, and has a `Challenger` on each side, which absorbs the commitments
and then draws the points; `prove` and `verify` start from it (docs/BINDINGS.md).

The library is libcircle.so, of the wheel that the package comes from, or in ../../c/out, where
bindings/c/build leaves it. If the environment's CIRCLE_LIBRARIES names a folder, by its absolute
path, the library is the one that is there. A call that an older library lacks raises OSError. A
line that the library never returns raises RuntimeError.

A call keeps nothing, may be made from any thread, and lets other threads run meanwhile. Its thread
needs enough stack: 1 MiB suffices. In the forked child of a multithreaded process, each call raises
RuntimeError.
"""

from typing import Any, Callable, List, Mapping, Optional, Sequence, Tuple, Type, TypeVar, Union

from . import stark
from .air import Air, Expr, Place
from .challenger import Challenger
from .challenger import advance as _advance
from .errors import Error, Refused, Unreadable, Unsatisfied
from .forms import ORDER, Commitment, Cubic
from .forms import Record as _Record
from .forms import commitments as _commitments
from .inputs import CommitInput as _CommitInput
from .inputs import ProveInput as _ProveInput
from .inputs import ShapeInput as _ShapeInput
from .inputs import ValuesInput as _ValuesInput
from .inputs import VerifyInput as _VerifyInput
from .inputs import located as _located
from .library import State as _State
from .library import Text as _Text
from .library import line as _line
from .library import read_answer as _read_answer
from .library import unexpected as _unexpected
from .records import (
    BatchOpening,
    Claim,
    ClaimedBatch,
    ClaimedMatrix,
    FriProof,
    InputOpenings,
    Matrix,
    Params,
    Proof,
    RoundOpening,
    Statement,
)
from .security import Bits, Level, SeveralHeights, bits

__all__ = [
    "Air",
    "BatchOpening",
    "Bits",
    "Challenger",
    "Claim",
    "ClaimedBatch",
    "ClaimedMatrix",
    "Commitment",
    "Cubic",
    "Error",
    "Expr",
    "FriProof",
    "InputOpenings",
    "Level",
    "Matrix",
    "ORDER",
    "Params",
    "Place",
    "Proof",
    "Refused",
    "RoundOpening",
    "SeveralHeights",
    "Statement",
    "Unreadable",
    "Unsatisfied",
    "bits",
    "commit",
    "prove",
    "prove_text",
    "shape",
    "stark",
    "values",
    "verify",
    "verify_as_stated",
    "verify_text",
]

__version__ = "0.1.0"

# The library's CIRCLE_LINE_LEN: a verdict and each refusal have at most that many bytes.
_VERDICT_LEN = 64
# More than most results have. If a result is longer, the call is repeated.
_RESULT_LEN = 1 << 22
# Upper bounds: a list without its commitments, and one commitment.
_LIST_LEN, _COMMITMENT_LEN = 64, 67

_R = TypeVar("_R", bound=_Record)


def verify(
    statement: Union[Statement, Sequence[Any]],
    proof: Union[Proof, Mapping[str, Any]],
    params: Union[Params, Mapping[str, Any]],
    *,
    challenger: Optional[Challenger] = None,
) -> None:
    """Returns None if the proof of the statement is accepted by these parameters; raises otherwise.

    Statement and parameters are the caller's own; only the proof may be a stranger's. Each argument
    may also be its JSON value, as `json.loads` returns it.

    A challenger must have absorbed and drawn what the prover's had. The statement's points must be
    the ones you drew from it; this isn't checked. The challenger ends in the prover's state;
    unchanged if this raises. Without one, the proof starts from a challenger that has absorbed only
    the commitments.
    """
    batches, params = _made(Statement, statement).batches, _made(Params, params)
    text = _VerifyInput(batches, params, _made(Proof, proof)).to_json()
    _verify(text, params, challenger)


def verify_text(text: _Text, params: Union[Params, Mapping[str, Any]]) -> None:
    """Returns None if a text's proof of its claims is accepted by these parameters; raises
    otherwise.

    A text with other parameters is refused as `ParametersDiffer`. The claims are the text's own, so
    compare them with the statement (docs/SECURITY.md).
    """
    _verify(text, _made(Params, params), None)


def verify_as_stated(text: _Text) -> None:
    """Returns None if a text's proof of its claims is accepted by the parameters that the text
    itself states; raises otherwise.

    That says only that the text fits itself: who wrote it chose the parameters, under some of which
    every claim has a proof (docs/SECURITY.md). For a stranger's proof call `verify`.
    """
    _expect_verified(_told(_VerifyInput, text, lambda: _line("verify", text, room=_VERDICT_LEN)))


def commit(
    batches: Sequence[Sequence[Union[Matrix, Mapping[str, Any], Sequence[Sequence[int]]]]],
    params: Union[Params, Mapping[str, Any]],
) -> List[Commitment]:
    """The commitments to batches of matrices, in order: those that `prove` has in the statement.

    A matrix may be its rows alone, since its points don't count here.
    """
    # The record reads a matrix from each form that the annotation lists.
    given = _CommitInput(batches, _made(Params, params))  # type: ignore[arg-type]
    text, room = given.to_json(), _LIST_LEN + _COMMITMENT_LEN * len(given.batches)
    answer = _told(_CommitInput, text, lambda: _line("commit", text, room=room))
    found = _read_answer(answer, lambda value: _commitments(value["commitments"]))
    if len(found) != len(given.batches):
        raise _unexpected(answer)
    return list(found)


def prove(
    batches: Sequence[Sequence[Union[Matrix, Mapping[str, Any]]]],
    params: Union[Params, Mapping[str, Any]],
    *,
    challenger: Optional[Challenger] = None,
) -> Tuple[Statement, Proof]:
    """Commits to batches of matrices, opens them and returns the claims with their proof, which
    `verify` accepts if every matrix is opened at a point. Matrices of several heights in one proof
    are weak (docs/SECURITY.md): prove each height by a call of its own.

    A challenger must have absorbed what the protocol requires, such as the commitments. The call
    itself absorbs nothing before the proof, not even the commitments. The challenger ends in the
    state that the proof leaves; unchanged if this raises. Without one, the proof starts from a
    challenger that has absorbed only the commitments.
    """
    # The record reads a matrix from each form that the annotation lists.
    given = _ProveInput(batches, _made(Params, params))  # type: ignore[arg-type]
    with _advance(challenger) as state:
        made = _read_answer(_prove(given.to_json(), state), _VerifyInput.from_value)
    return Statement(made.batches), made.proof


def prove_text(text: _Text) -> str:
    """Claims, parameters and proof, as the program's `prove` writes them."""
    return _prove(text, None)


def shape(text: _Text) -> str:
    """The shape of claims, as the program's `shape` writes it."""
    return _told(_ShapeInput, text, lambda: _line("shape", text, room=_RESULT_LEN))


def values(text: _Text) -> str:
    """The values of polynomials on a domain, as the program's `values` writes them."""
    return _told(_ValuesInput, text, lambda: _line("values", text, room=_RESULT_LEN))


def _prove(text: _Text, state: Optional[_State]) -> str:
    return _told(_ProveInput, text, lambda: _line("prove", text, room=_RESULT_LEN, state=state))


def _verify(text: _Text, params: Params, challenger: Optional[Challenger]) -> None:
    def call() -> str:
        return _line("verify", text, room=_VERDICT_LEN, params=params, state=state)

    with _advance(challenger) as state:
        _expect_verified(_told(_VerifyInput, text, call))


def _told(kind: Type[_Record], text: _Text, call: Callable[[], str]) -> str:
    """The line of a call. If the text can't be read, the error has the path of the fault."""
    try:
        return call()
    except Unreadable as fault:
        raise _located(fault, kind, text) from None


def _made(kind: Type[_R], given: Any) -> _R:
    """A record, which may be given as its JSON value."""
    if isinstance(given, kind):
        return given
    if isinstance(given, (_Record, str, bytes)):
        found = type(given).__name__
        raise TypeError(f"expected a {kind.__name__} or its JSON value, got {found}")
    return kind.from_value(given)


def _expect_verified(answer: str) -> None:
    if answer != '{"verified":true}':
        raise _unexpected(answer)
