"""The calls of the library, as bindings/c/circle.h declares them."""

import ctypes
import functools
import os
import pathlib
import re
from typing import Any, Callable, Dict, List, Optional, Sequence, Tuple, TypeVar, Union

from .errors import Refused, Unreadable, Unsatisfied
from .forms import Cubic, parsed
from .records import Params

__all__ = [
    "STATE_LEN",
    "State",
    "Text",
    "absorb",
    "absorb_element",
    "draw",
    "line",
    "read_answer",
    "unexpected",
]

Text = Union[str, bytes, bytearray, memoryview]

_R = TypeVar("_R")

# The number of bytes of a challenger's state.
STATE_LEN = 32

_FOLDER = "CIRCLE_LIBRARIES"
_FILE = "libcircle.so"
# The calls that return nothing.
_VOID = ("challenger_observe", "challenger_sample")
# At most that many characters of a line are shown in an error.
_SHOWN_LEN = 200
_ERRORS = {(1, "refused"): Refused, (2, "unreadable"): Unreadable}


class _Params(ctypes.Structure):
    """The header's circle_params."""

    _fields_ = [
        ("batch_pow_bits", ctypes.c_size_t),
        ("commit_pow_bits", ctypes.c_size_t),
        ("log_blowup", ctypes.c_size_t),
        ("log_final_poly_len", ctypes.c_size_t),
        ("max_log_arity", ctypes.c_size_t),
        ("num_queries", ctypes.c_size_t),
        ("query_pow_bits", ctypes.c_size_t),
    ]


class State(ctypes.Structure):
    """The header's circle_challenger."""

    _fields_ = [("state", ctypes.c_uint8 * STATE_LEN)]


def absorb(state: State, data: bytes) -> None:
    """Absorbs bytes into a challenger's state."""
    _call("challenger_observe")(state, data, len(data))


def absorb_element(state: State, number: int) -> None:
    """Absorbs an element of the base field into a challenger's state."""
    if _call("challenger_observe_element")(state, number):
        raise RuntimeError(f"the library rejected {number}: not below 2^31 - 1")


def draw(state: State) -> Cubic:
    """Draws an element of the challenge field from a challenger's state."""
    drawn = (ctypes.c_uint32 * 3)()
    _call("challenger_sample")(state, drawn)
    return tuple(drawn)


def line(
    name: str,
    *texts: Text,
    room: int,
    params: Optional[Params] = None,
    state: Optional[State] = None,
) -> str:
    """The line of a call, without its newline. At first there is room for `room` bytes.

    With parameters the call's name ends in `_with`. With a challenger's state, which a call with a
    result advances, it ends in `_from`.
    """
    kind = "_from" if state is not None else "_with" if params is not None else ""
    call = _call(name + kind)
    given: List[Any] = [part for text in map(_bytes, texts) for part in (text, len(text))]
    given += [] if params is None else [_numbers(params)]
    status, answer = _answer(call, given, state, room)
    if status == 0 and answer.endswith("\n"):
        return answer[:-1]
    raise _error(status, answer)


def read_answer(answer: str, read: Callable[[Any], _R]) -> _R:
    """What `read` makes of the value of a line that the library returned. The caller's input isn't
    at fault if it can't be read: that is a RuntimeError."""
    try:
        return read(parsed(answer))
    except (KeyError, TypeError, Unreadable):
        raise unexpected(answer) from None


def unexpected(answer: str, status: int = 0) -> RuntimeError:
    """The error for a line that the library never returns."""
    start = answer if len(answer) <= _SHOWN_LEN else f"{answer[:_SHOWN_LEN]}..."
    return RuntimeError(f"the library returned {start!r} with status {status}")


def _call(name: str) -> Any:
    """A call of the library. An older library may lack it."""
    if _is_forked:
        raise RuntimeError("circle can't be called in the forked child of a multithreaded process")
    library = _library()
    found = getattr(library, f"circle_{name}", None)
    if found is None:
        path = getattr(library, "_name", _FILE)
        raise OSError(f"{path} has no circle_{name}: it is older than this package")
    return found


def _numbers(params: Params) -> _Params:
    return _Params(*(getattr(params, name) for name, _ in _Params._fields_))


def _bytes(text: Text) -> bytes:
    """The bytes of a text. A str with an unpaired surrogate has none."""
    if isinstance(text, bytes):
        return text
    if isinstance(text, (bytearray, memoryview)):
        return bytes(text)
    if not isinstance(text, str):
        use = " (use json.dumps)" if isinstance(text, (dict, list)) else ""
        raise TypeError(f"expected str or bytes, got {type(text).__name__}{use}")
    try:
        return text.encode()
    except UnicodeEncodeError:
        raise Unreadable("json") from None


def _answer(
    call: Any, given: Sequence[Any], state: Optional[State], room: int
) -> Tuple[int, str]:
    """The status and the line of a call. If the line is longer than the room, the call is repeated
    from the same state: a verifier's call advances the state even if the line doesn't fit."""
    needed = ctypes.c_size_t(room)
    states, before = ([], b"") if state is None else ([state], bytes(state))
    while True:
        into, into_len = ctypes.create_string_buffer(needed.value), needed.value
        status = call(*given, *states, into, into_len, ctypes.byref(needed))
        if needed.value <= into_len:
            break
        for it in states:
            ctypes.memmove(ctypes.byref(it), before, STATE_LEN)
    answer = ctypes.string_at(into, needed.value)
    try:
        return status, answer.decode()
    except UnicodeDecodeError:
        raise unexpected(answer.decode(errors="backslashreplace"), status) from None


def _error(status: int, answer: str) -> Exception:
    """The error that a line without a result names."""
    row = re.fullmatch(r'\{"constraint":(\d+),"refused":"Unsatisfied","row":(\d+)\}\n', answer)
    if row and status == 1:
        return Unsatisfied(int(row[2]), int(row[1]))
    one = re.fullmatch(r'\{"text":"(\w+)","unreadable":"(\w+)"\}\n', answer)
    if one and status == 2:
        return Unreadable(one[2], one[1])
    found = re.fullmatch(r'\{"(\w+)":"(\w+)"\}\n', answer)
    error = found and _ERRORS.get((status, found[1]))
    if not found or not error:
        return unexpected(answer, status)
    return error(found[2])


def _path() -> pathlib.Path:
    """The shared library: in the folder that the environment names, else in the wheel that this
    package comes from, else where bindings/c/build leaves it."""
    here, named = pathlib.Path(__file__).resolve().parent, os.environ.get(_FOLDER)
    if named is None:
        own, built = here / "lib" / _FILE, here.parent.parent / "c" / "out" / _FILE
        if own.exists() or built.exists():
            return own if own.exists() else built
        raise OSError(f"{built} isn't there: bindings/c/build makes it")
    if not os.path.isabs(named):
        raise OSError(f"{_FOLDER} must be an absolute path: {named!r}")
    path = pathlib.Path(named) / _FILE
    if not path.exists():
        raise OSError(f"{_FOLDER} names {named!r}, where there is no {_FILE}")
    return path


def _types() -> Dict[str, List[Any]]:
    """The arguments of each call, as the header declares them."""
    text, state = [ctypes.c_char_p, ctypes.c_size_t], ctypes.POINTER(State)
    into = [ctypes.c_char_p, ctypes.c_size_t, ctypes.POINTER(ctypes.c_size_t)]
    params = ctypes.POINTER(_Params)
    names = ("values", "prove", "verify", "shape", "commit", "stark_check", "stark_prove")
    types = {name: [*text, *into] for name in names}
    types["verify_with"] = [*text, params, *into]
    types["verify_from"] = [*text, params, state, *into]
    types["stark_verify"] = [*text, *text, *into]
    types["stark_verify_from"] = [*text, *text, state, *into]
    types["prove_from"] = types["stark_prove_from"] = [*text, state, *into]
    types["challenger_observe"] = [state, *text]
    types["challenger_observe_element"] = [state, ctypes.c_uint32]
    types["challenger_sample"] = [state, ctypes.POINTER(ctypes.c_uint32)]
    return types


@functools.lru_cache(maxsize=None)
def _library() -> ctypes.CDLL:
    """The library, with the types of the calls that it has. The first call loads it."""
    library = ctypes.CDLL(str(_path()))
    for name, types in _types().items():
        call = getattr(library, f"circle_{name}", None)
        if call is not None:
            call.argtypes, call.restype = types, None if name in _VOID else ctypes.c_uint8
    return library


# Whether this is the forked child of a process with threads, and whether one that is forked is.
_is_forked = _forks_threads = False


def _before_fork() -> None:
    global _forks_threads
    _forks_threads = _is_forked or len(os.listdir("/proc/self/task")) > 1


def _in_child() -> None:
    global _is_forked
    _is_forked = _forks_threads


os.register_at_fork(before=_before_fork, after_in_child=_in_child)
