"""Why there is no result."""

from typing import Any, Optional, Tuple

__all__ = ["Error", "Refused", "Unreadable", "Unsatisfied"]

_ROWS = "opened rows don't authenticate: often the statement, a value, the proof or the challenger"
_ROWS += " differs from the prover's"
_SHAPE = "the proof may be for other parameters or another number of rows"
# What is shown beside a name that doesn't explain itself.
_HINTS = {
    "CommitPhaseMmcsError": _ROWS,
    "CommitPhaseOpeningsCountMismatch": _SHAPE,
    "CommitPhaseQueryCountMismatch": _SHAPE,
    "CommitPowWitnessCountMismatch": _SHAPE,
    "CommitRoundCountMismatch": _SHAPE,
    "FinalPolyLengthMismatch": _SHAPE,
    "FirstLayerMmcsError": _ROWS,
    "InputMmcsError": _ROWS,
    "InputShapeError": "the proof may be for other parameters, or for other claims",
    "InvalidPowWitness": "the proof may be for other parameters, or for another statement",
    "Memory": "the call ran out of memory, which is no verdict",
    "NonCanonicalPowWitness": _SHAPE,
    "ParametersDiffer": "the text has other parameters than the caller",
    "SiblingValuesLengthMismatch": _SHAPE,
}


class Error(Exception):
    """There is no result. `name` is the reason's name in docs/PROGRAM.md."""

    def __init__(self, name: str) -> None:
        super().__init__(name)
        self.name = name


class Refused(Error):
    """The input is refused. If `name` is `Memory`, the call ran out of memory: no verdict.

    `name` says which test failed first, and not what is wrong: another public value usually shows
    as `InputMmcsError`, since other rows are queried. The error's text adds what is likely.
    """

    def __init__(self, name: str, why: str = "") -> None:
        super().__init__(name)
        self.why = why or _HINTS.get(name, "")

    def __reduce__(self) -> Tuple[Any, ...]:
        return type(self), (self.name, self.why)

    def __str__(self) -> str:
        return self.name + (f": {self.why}" if self.why else "")


class Unsatisfied(Refused):
    """A constraint doesn't hold at a row: the first such row, and its first such constraint.

    `row` and `constraint` count from 0. A transition is reported at the earlier of its two rows: a
    wrong entry in row 3 often shows as row 2. `constraint_name` is the name that the constraint was
    given, or None.
    """

    def __init__(self, row: int, constraint: int, constraint_name: Optional[str] = None) -> None:
        super().__init__("Unsatisfied")
        self.row, self.constraint, self.constraint_name = row, constraint, constraint_name

    def __reduce__(self) -> Tuple[Any, ...]:
        return type(self), (self.row, self.constraint, self.constraint_name)

    def __str__(self) -> str:
        named = f" ({self.constraint_name})" if self.constraint_name is not None else ""
        return f"Unsatisfied: row {self.row} fails constraint {self.constraint}{named}"


class Unreadable(Error, ValueError):
    """The text or value can't be read as what it is given for.

    `path` leads to the value that can't be read, as `proof.fri_proof.final_poly[0]`, or to the key
    that is missing or unknown, and is empty for the whole. The library names no key. So this
    package reads the text once more to find it; if it finds another fault first, path is None.
    """

    def __init__(self, name: str, path: Optional[str] = None, why: str = "") -> None:
        super().__init__(name)
        self.path, self.why = path, why

    def under(self, part: str) -> "Unreadable":
        """This fault, of the value's member `part`: a name, or an index in brackets."""
        path = self.path or ""
        dot = "." if path and not path.startswith("[") else ""
        return type(self)(self.name, part + dot + path, self.why)

    def __str__(self) -> str:
        place = f" at {self.path}" if self.path else ""
        return self.name + place + (f": {self.why}" if self.why else "")
