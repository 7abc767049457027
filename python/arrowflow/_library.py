"""The library for C over ctypes: its structs and calls as c/arrowflow.h and c/arrowflow_stream.h declare them.

The library is searched in this order: the file that the environment variable ARROWFLOW_LIBRARY names; `libarrowflow.so.0` next to this
file, where a wheel puts it; in c/out/lib of a checkout of the repository, where c/build puts it; in the library folders of the system. A
library of another version than the package raises an ImportError.
"""
from __future__ import annotations

import ctypes
import itertools
import os
from typing import Any, Callable, Dict, List, Optional

from ._version import VERSION

NAME = "libarrowflow.so." + VERSION.split(".", maxsplit=1)[0]


# ---- the structs of arrowflow.h


class CLimits(ctypes.Structure):
    """arrowflow_limits"""
    _fields_ = [("max_metadata", ctypes.c_uint64), ("max_body", ctypes.c_uint64), ("max_rows", ctypes.c_uint64),
                ("types", ctypes.c_uint32)]


class COptions(ctypes.Structure):
    """arrowflow_options"""
    _fields_ = [("resend", ctypes.c_bool), ("pad_to_8", ctypes.c_bool)]


class CReport(ctypes.Structure):
    """arrowflow_report"""
    _fields_ = [("kind", ctypes.c_uint32), ("ended", ctypes.c_bool), ("place", ctypes.c_uint64), ("batches", ctypes.c_uint64),
                ("rows", ctypes.c_uint64)]


class CText(ctypes.Structure):
    """arrowflow_text"""
    _fields_ = [("kind", ctypes.c_uint32), ("place", ctypes.c_uint64), ("size", ctypes.c_uint64)]


class CCopied(ctypes.Structure):
    """arrowflow_copied"""
    _fields_ = [("kind", ctypes.c_uint32), ("is_over", ctypes.c_bool), ("place", ctypes.c_uint64), ("waiting", ctypes.c_uint64)]


# ---- the structs of the Arrow C data and C stream interfaces; pointers to functions are numbers here, and None is NULL


class ArrowSchema(ctypes.Structure):
    """struct ArrowSchema"""


class ArrowArray(ctypes.Structure):
    """struct ArrowArray"""


class ArrowArrayStream(ctypes.Structure):
    """struct ArrowArrayStream"""
    _fields_ = [(it, ctypes.c_void_p) for it in ("get_schema", "get_next", "get_last_error", "release", "private_data")]


ArrowSchema._fields_ = [
    ("format", ctypes.c_char_p), ("name", ctypes.c_char_p), ("metadata", ctypes.c_void_p), ("flags", ctypes.c_int64),
    ("n_children", ctypes.c_int64), ("children", ctypes.POINTER(ctypes.POINTER(ArrowSchema))),
    ("dictionary", ctypes.POINTER(ArrowSchema)), ("release", ctypes.c_void_p), ("private_data", ctypes.c_void_p)]
ArrowArray._fields_ = [
    *((it, ctypes.c_int64) for it in ("length", "null_count", "offset", "n_buffers", "n_children")),
    ("buffers", ctypes.POINTER(ctypes.c_void_p)), ("children", ctypes.POINTER(ctypes.POINTER(ArrowArray))),
    ("dictionary", ctypes.POINTER(ArrowArray)), ("release", ctypes.c_void_p), ("private_data", ctypes.c_void_p)]

_SCHEMA, _ARRAY, _STREAM = map(ctypes.POINTER, (ArrowSchema, ArrowArray, ArrowArrayStream))
RELEASE_SCHEMA = ctypes.CFUNCTYPE(None, _SCHEMA)
RELEASE_ARRAY = ctypes.CFUNCTYPE(None, _ARRAY)
RELEASE_STREAM = ctypes.CFUNCTYPE(None, _STREAM)
GET_SCHEMA = ctypes.CFUNCTYPE(ctypes.c_int, _STREAM, _SCHEMA)
GET_NEXT = ctypes.CFUNCTYPE(ctypes.c_int, _STREAM, _ARRAY)
GET_LAST_ERROR = ctypes.CFUNCTYPE(ctypes.c_void_p, _STREAM)
# arrowflow_source: what a stream reads from.
READ = ctypes.CFUNCTYPE(ctypes.c_ssize_t, ctypes.c_void_p, ctypes.c_void_p, ctypes.c_size_t)


# ---- the calls

_BYTES, _ROOM, _COPIER = [ctypes.c_char_p, ctypes.c_size_t], [ctypes.c_char_p, ctypes.c_size_t], ctypes.c_void_p
_CALLS: Dict[str, Any] = {
    "version": (ctypes.c_char_p, []),
    "kind_name": (ctypes.c_char_p, [ctypes.c_uint32]),
    "error_text": (ctypes.c_size_t, [ctypes.c_uint32, ctypes.c_uint64, *_ROOM]),
    "standard_limits": (CLimits, []),
    "check": (CReport, [*_BYTES, CLimits]),
    "fault_text": (ctypes.c_size_t, [*_BYTES, CLimits, *_ROOM]),
    "copy": (CText, [*_BYTES, CLimits, COptions, *_ROOM]),
    "show": (CText, [*_BYTES, CLimits, *_ROOM]),
    "messages": (CText, [*_BYTES, CLimits, *_ROOM]),
    "schema": (CText, [*_BYTES, CLimits, *_ROOM]),
    "copier_open": (ctypes.c_uint32, [CLimits, COptions, ctypes.POINTER(_COPIER)]),
    "copier_put": (CCopied, [_COPIER, *_BYTES]),
    "copier_end": (CCopied, [_COPIER]),
    "copier_take": (ctypes.c_size_t, [_COPIER, *_ROOM]),
    "copier_close": (None, [_COPIER]),
    "stream_of_bytes": (ctypes.c_uint32, [ctypes.c_void_p, ctypes.c_size_t, CLimits, _STREAM]),
    "stream_of_fd": (ctypes.c_uint32, [ctypes.c_int, CLimits, _STREAM]),
    "stream_of": (ctypes.c_uint32, [READ, ctypes.c_void_p, CLimits, _STREAM]),
}


def places() -> List[str]:
    """Where the library is searched, in this order."""
    named = os.environ.get("ARROWFLOW_LIBRARY")
    if named:
        return [named]
    here = os.path.dirname(os.path.abspath(__file__))
    top = os.path.dirname(os.path.dirname(here))
    files = [f"{here}/{NAME}"]
    if os.path.isfile(f"{top}/c/arrowflow.h"):
        files.append(f"{top}/c/out/lib/{NAME}")
    return [*filter(os.path.isfile, files), NAME]


def _loaded(place: str) -> Dict[str, Callable[..., Any]]:
    """The calls of the library at this path. Raises ImportError if there is none, or if it has another version."""
    try:
        library = ctypes.CDLL(place)
        calls = {name: getattr(library, f"arrowflow_{name}") for name in _CALLS}
    except (OSError, AttributeError) as why:
        raise ImportError(f"the library of arrowflow {VERSION} is not there: {why}") from why
    for name, (answer, takes) in _CALLS.items():
        calls[name].restype, calls[name].argtypes = answer, takes
    found = calls["version"]().decode()
    if found != VERSION:
        raise ImportError(f"{place} is of version {found}, and the package arrowflow of version {VERSION}")
    return calls


PLACE = places()[0]
calls = _loaded(PLACE)


# ---- objects that C code refers to by numbers


class Kept:
    """Python objects that C code refers to by a number, and that are kept until the number is dropped."""

    def __init__(self) -> None:
        self._numbers = itertools.count(1)
        self._objects: Dict[int, Any] = {}

    def __len__(self) -> int:
        return len(self._objects)

    def add(self, what: Any) -> int:
        """Keeps an object, and returns its number, which is never 0."""
        number = next(self._numbers)
        self._objects[number] = what
        return number

    def get(self, number: Optional[int]) -> Any:
        """The object with this number."""
        return self._objects[number or 0]

    def drop(self, number: Optional[int]) -> Any:
        """Returns the object with this number, and drops the number."""
        return self._objects.pop(number or 0)


_no_work = ctypes.PYFUNCTYPE(ctypes.c_int)(("Py_IsInitialized", ctypes.pythonapi))


def called_by_c(work: Callable[..., Any]) -> Callable[..., Any]:
    """A function that C code may call while an exception is pending. ctypes cannot return such an exception to the C code: it is reported
    by sys.unraisablehook, after the work is done."""
    def call(*given: Any) -> Any:
        try:
            # raises the pending exception, since ctypes checks for one after each call of Python's own library
            _no_work()
        finally:
            answer = work(*given)
        return answer
    return call
