"""The rules of the Arrow PyCapsule interface."""
import ctypes
import errno
import gc
import os
import sys

import arrowflow
from arrowflow import _capsules, _library
from arrowflow._batches import Batch

from common import EVERY_TYPE, GROWING, cut, elsewhere, raised_by, raises, run
from consumer import Consumer, batch_in, consumed, moved, schema_in
from memory import churned, lent
from shown import Buffers

NAMES = (b"arrow_schema", b"arrow_array", b"arrow_array_stream")
_is_valid = ctypes.pythonapi.PyCapsule_IsValid
_is_valid.restype, _is_valid.argtypes = ctypes.c_int, [ctypes.py_object, ctypes.c_char_p]


def names():
    """Each capsule has the name of what it holds."""
    batch = next(arrowflow.open(GROWING))
    stream = arrowflow.open(GROWING)
    schemas = [stream.__arrow_c_schema__(), stream.schema.__arrow_c_schema__(), stream.schema[0].__arrow_c_schema__(),
               batch.__arrow_c_schema__(), batch.column(0).__arrow_c_schema__(), batch.__arrow_c_array__()[0]]
    arrays = [batch.__arrow_c_array__()[1], batch.column(0).__arrow_c_array__()[1]]
    for capsules, name in ((schemas, NAMES[0]), (arrays, NAMES[1]), ([stream.__arrow_c_stream__()], NAMES[2])):
        for it in capsules:
            yield "the name of a capsule", [bool(_is_valid(it, other)) for other in NAMES], [other == name for other in NAMES]


def once():
    """A stream is handed on once, with what was not yet read of it, whatever schema is requested."""
    stream = arrowflow.open(GROWING)
    next(stream)
    requested = stream.__arrow_c_schema__()
    capsule = stream.__arrow_c_stream__(requested_schema=requested)
    yield "a second time", raises(ValueError, stream.__arrow_c_stream__), True
    yield "a batch after it", (raises(ValueError, next, stream), stream.closed), (True, True)
    yield "a schema after it", schema_in(stream.__arrow_c_schema__()), (stream.schema, True)
    stream.close()
    yield "the rest", [len(it) for it in consumed(capsule)[1]], [2, 2]
    yield "a struct that was moved out", raises(ValueError, Consumer, capsule), True
    yield "a requested schema that stays", schema_in(requested)[1], True
    why = raised_by(arrowflow.open(bytes(8)).__arrow_c_stream__)
    yield "no schema", (type(why), why.kind), (arrowflow.ArrowflowError, arrowflow.Kind.CONTINUATION)
    never = arrowflow.open(GROWING)
    never.close()
    yield "a closed stream", raises(ValueError, never.__arrow_c_stream__), True


def dropped():
    """What no consumer takes is released with its capsule; what a consumer took in part, when the consumer releases it."""
    data = GROWING.read_bytes()
    before, files = lent(), len(os.listdir("/proc/self/fd"))
    for source in (data, GROWING, cut(data, 13), iter(cut(data, 13))):
        capsule = arrowflow.open(source).__arrow_c_stream__()
        del capsule
        yield "a capsule that is dropped", (lent(), len(os.listdir("/proc/self/fd"))), (before, files)
        # pieces that were all read have nothing left
        capsules = [] if hasattr(source, "__next__") else [arrowflow.open(source).__arrow_c_stream__()]
        elsewhere(capsules.clear)
        yield "a capsule that is dropped on another thread", (lent(), len(os.listdir("/proc/self/fd"))), (before, files)
    for source in (data, GROWING, cut(data, 13)):
        _, batches, status, text = consumed(arrowflow.open(source).__arrow_c_stream__(), most=1)
        yield "a stream that is read half", ([len(it) for it in batches], status, text, lent()), ([3], 0, None, before)
        yield "its file", len(os.listdir("/proc/self/fd")), files
    batch = next(arrowflow.open(EVERY_TYPE))
    for make in (batch.__arrow_c_array__, batch.__arrow_c_schema__, batch.column(0).__arrow_c_array__):
        made = [make()]
        elsewhere(made.clear)
        yield "capsules of a batch that are dropped", lent(), before


def arrays_later():
    """Arrays of a stream are used and released after the stream, on another thread and in any order."""
    for source in (EVERY_TYPE, cut(EVERY_TYPE.read_bytes(), 100)):
        expected = [[Buffers(it).value(k) for it in batch.columns for k in range(len(it))] for batch in arrowflow.open(source)]
        _, batches, status, _ = consumed(arrowflow.open(source).__arrow_c_stream__())
        churned()
        found = [[Buffers(it).value(k) for it in batch.columns for k in range(len(it))] for batch in batches]
        yield "arrays after their stream", (repr(found), status), (repr(expected), 0)
        third = batches.pop(2)
        elsewhere(batches.clear)
        churned()
        yield "one of them", repr([Buffers(it).value(0) for it in third.columns]), repr([
            Buffers(it).value(0) for it in [*arrowflow.open(source)][2].columns])


def moved_children():
    """A child that was moved out of an array or a schema lives on when its parent is released."""
    before, batch = lent(), next(arrowflow.open(EVERY_TYPE))
    expected = repr(batch.column(8).to_pylist())
    schema, array = batch.__arrow_c_array__()
    field = batch.schema.fields[8]
    out, struct = moved(array, NAMES[1], _library.ArrowArray), moved(schema, NAMES[0], _library.ArrowSchema)
    child, of = _library.ArrowArray(), _library.ArrowSchema()
    for parts, mine, kind in ((out, child, _library.ArrowArray), (struct, of, _library.ArrowSchema)):
        inside = parts.children[8].contents
        ctypes.memmove(ctypes.byref(mine), ctypes.byref(inside), ctypes.sizeof(kind))
        inside.release = None
    _library.RELEASE_ARRAY(out.release)(ctypes.byref(out))
    _library.RELEASE_SCHEMA(struct.release)(ctypes.byref(struct))
    del batch, schema, array
    churned()
    column = batch_of(child, of)
    yield "a child alone", (repr(column.to_pylist()), column.field), (expected, field)
    del column
    gc.collect()
    yield "nothing is lent", lent(), before


def batch_of(array, schema):
    """The column that these structs describe, which are released with it."""
    field = arrowflow._schema.field_of(schema)
    _library.RELEASE_SCHEMA(schema.release)(ctypes.byref(schema))
    owned = arrowflow._batches.Owned()
    owned.array = array
    return arrowflow.Column(owned, owned.array, field)


def asked_meanwhile():
    """While a consumer reads a stream that was handed on, the stream is closed: a source that uses it gets a ValueError, and not a
    RuntimeError."""
    found, data = [], GROWING.read_bytes()

    def pieces():
        yield data[:975]
        found.extend([raised_by(stream.close), type(raised_by(next, stream)), type(raised_by(stream.__arrow_c_stream__)),
            stream.closed])
        yield data[975:]
    stream = arrowflow.open(pieces())
    _, batches, status, _ = consumed(stream.__arrow_c_stream__())
    yield "a stream that was handed on", (found, len(batches), status), ([None, ValueError, ValueError, True], 3, 0)


def shares():
    """An array in a capsule has the memory of its batch, and is lent any number of times."""
    batch = next(arrowflow.open(EVERY_TYPE))
    first, second = batch_in(batch.__arrow_c_array__()), batch_in(batch.__arrow_c_array__())
    places = [[it._array.buffers[1] for it in each.columns[2:10]] for each in (batch, first, second)]
    yield "one memory", places[1:], [places[0]] * 2
    yield "a batch out of a batch", isinstance(first, Batch) and first.schema == batch.schema, True


def errors():
    """What a stream in a capsule reports about a source that fails, and about a fault."""
    data = GROWING.read_bytes()

    def failing():
        yield data[:975]
        raise KeyError("the source is gone")
    _, batches, status, text = consumed(arrowflow.open(failing()).__arrow_c_stream__())
    yield "a source that raises", ([len(it) for it in batches], status, text), ([3], errno.EIO,
        "read failed: KeyError: 'the source is gone'")
    for source in (data[:-20], cut(data[:-20], 100)):
        why = raised_by(list, arrowflow.open(source))
        _, batches, status, text = consumed(arrowflow.open(source).__arrow_c_stream__())
        yield "a fault", (status, text), (errno.EINVAL, str(why))


def pending(room, compiler):
    """C code frees a capsule while an exception is pending in it: the stream is released, and the exception reported."""
    (room / "pending.c").write_text("void drop(void *type, void (*set)(void *, const char *), void *it, void (*let_go)(void *)) {\n"
                                    "    set(type, \"pending\");\n    let_go(it);\n}\n")
    why = run(compiler, "-shared", "-fPIC", room / "pending.c", "-o", room / "pending.so")[1]
    yield "a library that drops", why, b""
    drop = ctypes.PyDLL(str(room / "pending.so")).drop
    drop.argtypes, drop.restype = [ctypes.py_object, *[ctypes.c_void_p] * 3], None
    calls = [ctypes.cast(getattr(ctypes.pythonapi, it), ctypes.c_void_p) for it in ("PyErr_SetString", "Py_DecRef")]
    before, seen, hook = lent(), [], sys.unraisablehook
    sys.unraisablehook = lambda it: seen.append(repr(it.exc_value))
    try:
        for make in (arrowflow.open(GROWING).__arrow_c_stream__, next(arrowflow.open(GROWING)).__arrow_c_schema__):
            capsule = make()
            ctypes.pythonapi.Py_IncRef(ctypes.py_object(capsule))
            at = id(capsule)
            del capsule, make
            drop(KeyError, calls[0], at, calls[1])
    finally:
        sys.unraisablehook = hook
    gc.collect()
    yield "exceptions that are reported", seen, ["KeyError('pending')"] * 2
    yield "what was let go", lent(), before


def kept_empty():
    """At the end nothing is lent."""
    gc.collect()
    yield "what is lent at the end", (lent(), len(_capsules.kept)), ((0, 0, 0), 0)
