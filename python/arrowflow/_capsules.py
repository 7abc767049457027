"""The Arrow PyCapsule interface: structs of the Arrow C data and C stream interfaces in capsules, which release what no consumer
moved out.

A struct that is made here refers to Python objects by a number in `private_data`; its `release` drops them. If C code frees a
capsule or a struct while an exception is pending in it, that exception is lost, since these are functions of ctypes:
`called_by_c` has it reported.
"""
from __future__ import annotations

import ctypes
from typing import Any, Callable, Dict, List, Optional, Tuple

from ._library import (ArrowArray, ArrowArrayStream, ArrowSchema, GET_LAST_ERROR, Kept, RELEASE_ARRAY, RELEASE_SCHEMA, RELEASE_STREAM,
                       called_by_c)
from ._schema import Field, metadata_of
from ._sources import Source

_SCHEMA, _ARRAY, _STREAM = b"arrow_schema", b"arrow_array", b"arrow_array_stream"
_DESTRUCTOR = ctypes.PYFUNCTYPE(None, ctypes.c_void_p)
_new = ctypes.PYFUNCTYPE(ctypes.py_object, ctypes.c_void_p, ctypes.c_char_p, _DESTRUCTOR)(("PyCapsule_New", ctypes.pythonapi))
_name_of = ctypes.PYFUNCTYPE(ctypes.c_void_p, ctypes.c_void_p)(("PyCapsule_GetName", ctypes.pythonapi))
_at_of = ctypes.PYFUNCTYPE(ctypes.c_void_p, ctypes.c_void_p, ctypes.c_void_p)(("PyCapsule_GetPointer", ctypes.pythonapi))

# The objects that structs refer to, while consumers have the structs.
kept = Kept()
# The structs in capsules, keyed by their addresses.
_structs: Dict[int, Any] = {}


def _capsule(struct: Any, name: bytes, free: Any) -> object:
    """A capsule that owns a struct."""
    at = ctypes.addressof(struct)
    _structs[at] = struct
    return _new(at, name, free)


def _freeing(release: Any) -> Any:
    """The destructor of a capsule, which releases the struct if it was not moved out."""
    @_DESTRUCTOR
    @called_by_c
    def free(capsule: int) -> None:
        struct = _structs.pop(_at_of(capsule, _name_of(capsule)))
        if struct.release:
            release(struct.release)(ctypes.byref(struct))
    return free


_free_schema, _free_array, _free_stream = map(_freeing, (RELEASE_SCHEMA, RELEASE_ARRAY, RELEASE_STREAM))


def _releasing(prototype: Any) -> Any:
    """The `release` of a schema or an array that was made here. It also releases those of its children and its dictionary that
    were not moved out."""
    @prototype
    @called_by_c
    def release(at: Any) -> None:
        struct = at.contents
        below = [struct.children[k].contents for k in range(struct.n_children)]
        if struct.dictionary:
            below.append(struct.dictionary.contents)
        for it in below:
            if it.release:
                prototype(it.release)(ctypes.byref(it))
        number, struct.release = struct.private_data, None
        kept.drop(number)
    return release


_release_schema, _release_array = _releasing(RELEASE_SCHEMA), _releasing(RELEASE_ARRAY)


def _address(function: Any) -> Optional[int]:
    return ctypes.cast(function, ctypes.c_void_p).value


def _table(structs: List[Any], kind: Any) -> Any:
    """Pointers to structs, which keep the structs alive."""
    return (ctypes.POINTER(kind) * len(structs))(*map(ctypes.pointer, structs))


# ---- schemas and arrays


def schema_capsule(field: Field) -> object:
    """A capsule of an ArrowSchema of a field."""
    return _capsule(_schema(field), _SCHEMA, _free_schema)


def _schema(field: Field) -> ArrowSchema:
    """An ArrowSchema of a field and of those below it."""
    made, children = ArrowSchema(), [_schema(it) for it in field.children]
    dictionary = _schema(field.dictionary) if field.dictionary else None
    texts = [ctypes.create_string_buffer(it.encode()) for it in (field.format, field.name)]
    metadata = metadata_of(field.metadata_pairs)
    pairs, table = metadata and ctypes.create_string_buffer(metadata, len(metadata)), _table(children, ArrowSchema)
    made.format, made.name = (ctypes.cast(it, ctypes.c_char_p) for it in texts)
    made.metadata = ctypes.addressof(pairs) if pairs else None
    made.flags, made.n_children, made.children = field.flags, len(children), ctypes.cast(table, type(made.children))
    if dictionary:
        made.dictionary = ctypes.pointer(dictionary)
    made.private_data, made.release = kept.add((texts, pairs, table, children, dictionary)), _address(_release_schema)
    return made


def array_capsules(owner: object, array: ArrowArray, field: Field) -> Tuple[object, object]:
    """Capsules of a field and of an array that shares the memory of `array`, whose owner lives until it is released."""
    return schema_capsule(field), _capsule(_shared(owner, array), _ARRAY, _free_array)


def _shared(owner: object, array: ArrowArray) -> ArrowArray:
    """A struct with the buffers of another one, and of those below it, each of which keeps their owner alive."""
    made = ArrowArray(array.length, array.null_count, array.offset, array.n_buffers, array.n_children)
    children = [_shared(owner, array.children[k].contents) for k in range(array.n_children)]
    dictionary = _shared(owner, array.dictionary.contents) if array.dictionary else None
    table = _table(children, ArrowArray)
    made.buffers, made.children = array.buffers, ctypes.cast(table, type(made.children))
    if dictionary:
        made.dictionary = ctypes.pointer(dictionary)
    made.private_data, made.release = kept.add((owner, table, children, dictionary)), _address(_release_array)
    return made


# ---- streams


class _Moved:
    """What belongs to a stream that was handed on: its own functions, and what it is read from."""

    def __init__(self, stream: ArrowArrayStream, source: Source) -> None:
        self.release, self.last_error, self.source = RELEASE_STREAM(stream.release), GET_LAST_ERROR(stream.get_last_error), source
        self.text: Any = None


# Keyed by the `private_data` of the library, which is different for each stream.
_moved: Dict[int, _Moved] = {}


def stream_capsule(stream: ArrowArrayStream, source: Source) -> object:
    """A capsule of a stream that is moved into it, and that is released together with its source."""
    moved = _Moved(stream, source)
    made = ArrowArrayStream(stream.get_schema, stream.get_next, _address(_last_error), _address(_release_stream), stream.private_data)
    _moved[made.private_data] = moved
    stream.release = None
    return _capsule(made, _STREAM, _free_stream)


@RELEASE_STREAM
@called_by_c
def _release_stream(at: Any) -> None:
    """The `release` of a stream that was handed on, which closes its source too."""
    moved = _moved.pop(at.contents.private_data)
    moved.release(at)
    moved.source.close()


@GET_LAST_ERROR
def _last_error(at: Any) -> Optional[int]:
    """The library's text about an error, or, if an exception of the source caused it, a text about that."""
    moved = _moved[at.contents.private_data]
    text: Optional[int] = moved.last_error(at)
    why = moved.source.raised
    if not text or why is None:
        return text
    moved.text = ctypes.create_string_buffer(f"read failed: {type(why).__name__}: {why}".encode(errors="backslashreplace"))
    return ctypes.addressof(moved.text)
