"""The shared object, with the declarations of riddlesage.h. It is loaded when a call is used for the first time."""

from __future__ import annotations

import ctypes
import enum
import functools
import os
import pathlib
from typing import Any

# The name for the system's loader: it ends with the major version.
_SONAME = "libriddlesage.so.0"

# The capacity for the name of a field of a document, and for what it must be.
FIELD_ROOM, WORDS_ROOM = 64, 192
# The most bit times of a scenario.
MOST_BITS = 1_000_000
# The combinations of rule coverage.
COVERAGE_ITEMS = 64
# The bits of a number of elements on this machine.
SIZE_BITS = 8 * ctypes.sizeof(ctypes.c_size_t)


# The structs are laid out alike on all machines, so each has its unused bytes as a field.


class PlainFrame(ctypes.Structure):
    """A riddlesage_frame."""

    _fields_ = (
        ("identifier", ctypes.c_uint32),
        ("extended", ctypes.c_uint8),
        ("remote", ctypes.c_uint8),
        ("dlc", ctypes.c_uint8),
        ("data", ctypes.c_uint8 * 8),
    )


class PlainHeard(ctypes.Structure):
    """A riddlesage_heard."""

    _fields_ = (
        ("frame", PlainFrame),
        ("acknowledged", ctypes.c_uint8),
        ("srr", ctypes.c_uint8),
        ("r1", ctypes.c_uint8),
        ("r0", ctypes.c_uint8),
        ("last", ctypes.c_uint8),
    )


class PlainOffer(ctypes.Structure):
    """A riddlesage_offer."""

    _fields_ = (("time", ctypes.c_uint64), ("port", ctypes.c_uint64), ("frame", PlainFrame))


class HitKind(enum.IntEnum):
    """A riddlesage_hit_kind."""

    AT = 0
    IN = 1
    VIEW = 2


class PlainHit(ctypes.Structure):
    """A riddlesage_hit."""

    _fields_ = (
        ("time", ctypes.c_uint64),
        ("attempt", ctypes.c_uint64),
        ("offset", ctypes.c_uint64),
        ("port", ctypes.c_uint64),
        ("kind", ctypes.c_uint8),
        ("unused", ctypes.c_uint8 * 7),
    )


class PlainWire(ctypes.Structure):
    """A riddlesage_wire."""

    _fields_ = (
        ("time", ctypes.c_uint64),
        ("attempts", ctypes.c_uint64),
        ("start", ctypes.c_uint64),
        ("until_rest", ctypes.c_uint8),
        ("unused", ctypes.c_uint8 * 7),
    )


class PlainStanding(ctypes.Structure):
    """A riddlesage_standing."""

    _fields_ = (
        ("phase", ctypes.c_uint8),
        ("place", ctypes.c_uint8),
        ("sender", ctypes.c_uint8),
        ("rule", ctypes.c_uint8),
    )


class PlainPort(ctypes.Structure):
    """A riddlesage_port. Its address has the width of the machine, and is followed by unused bytes up to 24."""

    _fields_ = (
        ("at", ctypes.c_uint64),
        ("live", ctypes.c_uint8),
        ("unused", ctypes.c_uint8 * 7),
        ("self", ctypes.c_void_p),
        ("unused_end", ctypes.c_uint8 * (8 - ctypes.sizeof(ctypes.c_void_p))),
    )


class PlainPortTime(ctypes.Structure):
    """A riddlesage_port_time."""

    _fields_ = (
        ("transmit", ctypes.c_uint16),
        ("receive", ctypes.c_uint16),
        ("phase", ctypes.c_uint8),
        ("sender", ctypes.c_uint8),
        ("drives", ctypes.c_uint8),
        ("samples", ctypes.c_uint8),
        ("event", ctypes.c_uint8),
        ("unused", ctypes.c_uint8),
    )


class PlainWrong(ctypes.Structure):
    """A riddlesage_wrong."""

    _fields_ = (("field", ctypes.c_char * FIELD_ROOM), ("words", ctypes.c_char * WORDS_ROOM))


class PlainCoverage(ctypes.Structure):
    """A riddlesage_coverage."""

    _fields_ = (("counts", ctypes.c_uint64 * COVERAGE_ITEMS),)


_PORT = ctypes.POINTER(PlainPort)
_FRAME = ctypes.POINTER(PlainFrame)
_U8 = ctypes.POINTER(ctypes.c_uint8)
_SIZE = ctypes.POINTER(ctypes.c_size_t)
# The address and the length of an input.
_INPUT = (ctypes.c_char_p, ctypes.c_size_t)
# The buffer for a text, its capacity, and the length of the text.
_OUTPUT = (ctypes.c_char_p, ctypes.c_size_t, _SIZE)

_PARAMETERS = {
    "riddlesage_port_idle": (_PORT, ctypes.c_size_t, ctypes.c_size_t),
    "riddlesage_port_joining": (_PORT, ctypes.c_size_t, ctypes.c_size_t),
    "riddlesage_port_copy": (_PORT, _PORT),
    "riddlesage_port_free": (_PORT,),
    "riddlesage_port_offer": (_PORT, _FRAME),
    "riddlesage_port_hold": (_PORT, ctypes.c_uint8),
    "riddlesage_port_counters": (_PORT, ctypes.POINTER(ctypes.c_uint16), ctypes.POINTER(ctypes.c_uint16)),
    "riddlesage_port_state": (_PORT, _U8),
    "riddlesage_port_phase": (_PORT, ctypes.POINTER(PlainStanding)),
    "riddlesage_port_log_length": (_PORT, _SIZE),
    "riddlesage_port_missed": (_PORT, ctypes.POINTER(ctypes.c_uint32)),
    "riddlesage_port_entry": (_PORT, ctypes.c_size_t, _FRAME, _U8),
    "riddlesage_port_run": (_PORT, ctypes.c_char_p, ctypes.c_size_t, ctypes.c_char_p, ctypes.c_char_p),
    "riddlesage_play": (
        ctypes.POINTER(_PORT),
        ctypes.c_size_t,
        ctypes.POINTER(PlainOffer),
        ctypes.c_size_t,
        ctypes.POINTER(PlainHit),
        ctypes.c_size_t,
        ctypes.c_char_p,
        ctypes.c_size_t,
        _SIZE,
    ),
    "riddlesage_wire_run": (
        ctypes.POINTER(PlainWire),
        ctypes.POINTER(_PORT),
        ctypes.c_size_t,
        ctypes.POINTER(PlainHit),
        ctypes.c_size_t,
        ctypes.c_size_t,
        ctypes.c_char_p,
        _FRAME,
        _SIZE,
    ),
    "riddlesage_encode": (_FRAME, ctypes.c_char_p, ctypes.c_size_t, _SIZE),
    "riddlesage_decode": (ctypes.c_char_p, ctypes.c_size_t, ctypes.POINTER(PlainHeard), _SIZE),
    "riddlesage_marks": (ctypes.c_char_p, ctypes.c_size_t, ctypes.c_char_p, ctypes.c_char_p, _SIZE),
    "riddlesage_run": (*_INPUT, *_OUTPUT, ctypes.c_char_p),
    "riddlesage_port_times": (
        *_INPUT,
        ctypes.c_size_t,
        ctypes.POINTER(PlainPortTime),
        ctypes.c_size_t,
        _SIZE,
        ctypes.c_char_p,
    ),
    "riddlesage_plan": (*_INPUT, ctypes.c_uint8, *_OUTPUT, _SIZE, ctypes.POINTER(PlainWrong)),
    "riddlesage_worst_case": (*_INPUT, *_INPUT, *_OUTPUT, ctypes.POINTER(PlainWrong)),
    "riddlesage_decode_trace": (*_INPUT, *_OUTPUT, _SIZE),
    "riddlesage_decode_levels": (*_INPUT, *_OUTPUT, _SIZE),
    "riddlesage_coverage_sample": (_PORT, ctypes.POINTER(PlainCoverage), ctypes.c_uint8, _U8, _FRAME),
}

# The calls that return a text, with the type of the number that each takes.
_TEXTS = {
    "riddlesage_status_name": ctypes.c_int,
    "riddlesage_event_name": ctypes.c_int,
    "riddlesage_phase_name": ctypes.c_int,
    "riddlesage_rule_name": ctypes.c_int,
    "riddlesage_coverage_name": ctypes.c_size_t,
    "riddlesage_coverage_case": ctypes.c_size_t,
}


class MissingLibrary(ImportError):
    """The shared object is not found, or cannot be loaded. The text says where it was searched for."""


def _found() -> ctypes.CDLL:
    """The shared object, which is searched for as the package's documentation says."""
    here = pathlib.Path(__file__).resolve().parent
    named = os.environ.get("RIDDLESAGE_LIBRARY")
    folders = [here, here.parent, here.parent.parent / "out"]
    places = [pathlib.Path(named)] if named else [folder / "libriddlesage.so" for folder in folders]
    for place in places:
        if place.is_file():
            return _opened(str(place))
    if named is None:
        try:
            return ctypes.CDLL(_SONAME)
        except OSError:
            pass
    raise MissingLibrary(
        f"libriddlesage.so is not at {' nor at '.join(map(str, places))}; the wheel of a release has it, "
        "bindings/build builds it, and RIDDLESAGE_LIBRARY may name it"
    )


def _opened(place: str) -> ctypes.CDLL:
    try:
        return ctypes.CDLL(place)
    except OSError as error:
        raise MissingLibrary(f"{place} cannot be loaded: {error}") from error


@functools.lru_cache(maxsize=None)
def _loaded() -> ctypes.CDLL:
    """The shared object, with the types of its calls."""
    found = _found()
    for name, parameters in _PARAMETERS.items():
        function = getattr(found, name, None)
        if function is None:
            raise MissingLibrary(f"{found._name} is older than this package: it has no {name}")
        function.argtypes = parameters
        function.restype = ctypes.c_int
    for name, number in _TEXTS.items():
        function = getattr(found, name)
        function.argtypes = (number,)
        function.restype = ctypes.c_char_p
    found.riddlesage_version.argtypes = ()
    found.riddlesage_version.restype = ctypes.c_char_p
    return found


class _Library:
    """The calls of the shared object. Without it the first use of one raises MissingLibrary."""

    def __getattr__(self, name: str) -> Any:
        if name.startswith("__"):
            raise AttributeError(name)
        call = getattr(_loaded(), name)
        # from now on it is found without this method
        setattr(self, name, call)
        return call


lib = _Library()


def version() -> str:
    """The version of the shared object."""
    return str(lib.riddlesage_version().decode("ascii"))
