"""Wrong arguments, limits, kinds and errors."""
import ctypes
import errno
import io
import pickle
import re
import struct
import subprocess

import arrowflow
from arrowflow import ArrowflowError, Kind, Limits, Types
from arrowflow import _errors, _library

from tools import column_faults, frames
from common import GROWING, PROGRAM, TOP, raised_by, raises, run

HEADER = (TOP / "c/arrowflow.h").read_text(encoding="utf-8")


def kinds():
    """Each kind of the header has its number and its name here, and there are no others."""
    found = {name: int(number) for name, number in re.findall(r"^    ARROWFLOW_KIND_(\w+) = (\d+)", HEADER, re.M)}
    yield "kinds of the header", {it.name: int(it) for it in Kind}, found
    yield "names of kinds", [str(it) for it in Kind], [_library.calls["kind_name"](it).decode() for it in Kind]
    # an error of each kind keeps the kind, and has a sentence
    errors = [ArrowflowError(it, 7) for it in Kind]
    yield "kinds of errors", [it.kind for it in errors], [*Kind]
    yield "errors that are pickled", [(str(it), it.kind, it.offset, it.batch) for it in pickle.loads(pickle.dumps(errors))], [
        (str(it), it.kind, it.offset, it.batch) for it in errors]
    yield "places in bytes", [it.kind for it in errors if it.offset == 7], [it for it in Kind if 1 <= it <= 18]
    yield "numbers of batches", [it.kind for it in errors if it.batch == 7], [41, 42, 43]
    yield "a place is one thing", [it.kind for it in errors if it.offset is not None and it.batch is not None], []
    # the documented beginning of a stream's text about a fault is read back as that fault
    again = [_errors.error_of_stream(errno.EINVAL, str(ArrowflowError(it, 2**63 + 5))) for it in Kind if 1 <= it <= 18]
    yield "faults out of texts", [(it.kind, it.offset) for it in again], [(it, 2**63 + 5) for it in Kind if 1 <= it <= 18]
    yield "an error of a read", type(_errors.error_of_stream(errno.EINVAL, "read failed: Invalid argument")), OSError
    yield "memory", type(_errors.error_of_stream(errno.ENOMEM, "Memory: out of memory")), MemoryError


def numbers():
    """The numbers of the header that are written here too."""
    standard = _library.calls["standard_limits"]()
    yield "standard limits", [getattr(standard, name) for name, _ in standard._fields_], [
        getattr(arrowflow.STANDARD, name) for name, _ in standard._fields_]
    yield "all types", arrowflow.ALL_TYPES, Limits(types=Types.ALL)
    types = {name: int(number) for name, number in re.findall(r"^    ARROWFLOW_TYPES_(\w+) = (\d+)", HEADER, re.M)}
    yield "sets of types", {it.name: int(it) for it in Types}, types
    yield "the version", arrowflow.__version__, re.search(r'^#define ARROWFLOW_VERSION "(.*)"$', HEADER, re.M)[1]
    high = {"max_metadata": 1 << 30, "max_body": 1 << 40, "max_rows": (1 << 31) - 1}
    for name, ceiling in high.items():
        yield f"{name} at its ceiling", arrowflow.check(b"", Limits(**{name: ceiling})).kind, Kind.NO_SCHEMA
        for bad in (ceiling + 1, -1):
            yield f"{name} of {bad}", raises(ValueError, Limits, **{name: bad}), True
        over = _library.CLimits(0, 0, 0, 0)
        setattr(over, name, ceiling + 1)
        yield f"the library on {name}", Kind(_library.calls["check"](b"", 0, over).kind), Kind.BAD_LIMITS
        for bad in (None, "5", 5.0, True):
            yield f"{name} of {bad!r}", raises(TypeError, Limits, **{name: bad}), True
    yield "no set of types", [raises(ValueError, Limits, types=it) for it in (2, -1)], [True, True]
    yield "types of no number", [raises(TypeError, Limits, types=it) for it in (None, "all", True)], [True, True, True]
    yield "limits that stay", type(raised_by(setattr, arrowflow.STANDARD, "max_rows", 5)).__name__, "FrozenInstanceError"


def arguments():
    """Arguments that are not streams, not limits, not columns."""
    on_bytes = [arrowflow.check, arrowflow.sanitize, arrowflow.show, arrowflow.messages, arrowflow.schema_text]
    on_bytes += [arrowflow.Reader().feed, arrowflow.Copier().feed]
    for call in on_bytes:
        for it in (5, 0, True, "text", None, [1], [b""], 1.5, object()):
            yield f"{call.__name__} of {it!r}", raises(TypeError, call, it), True
    for call in (arrowflow.open, arrowflow.sanitize_pieces):
        for it in (5, 0, True, None, 1.5, object(), io.StringIO("text")):
            yield f"{call.__name__} of {it!r}", raises(TypeError, call, it), True
        yield f"{call.__name__} of no file", raises(FileNotFoundError, call, "no such file"), True
        yield f"{call.__name__} of a folder", raises(IsADirectoryError, call, str(TOP)), True
        for it in ([1], ["text"], [b"", None], iter([5])):
            yield f"{call.__name__} of {it!r}", raises(TypeError, list, call(it)), True
    limited = [*on_bytes[:5], arrowflow.open, arrowflow.sanitize_pieces]
    for call in limited:
        for it in (None, 5, {}, (1, 2, 3)):
            yield f"{call.__name__} within {it!r}", raises(TypeError, call, b"", it), True
    for call in (arrowflow.Reader, arrowflow.Copier):
        yield f"{call.__name__} within 5", raises(TypeError, call, 5), True
    batch = next(arrowflow.open(GROWING))
    yield "columns", [raises(kind, batch.column, it) for kind, it in (
        (IndexError, 99), (KeyError, "none"), (TypeError, None), (TypeError, 1.5), (TypeError, b"name"))], [True] * 5
    column = batch.column(0)
    yield "slots", [raises(kind, lambda it=it: column[it]) for kind, it in (
        (IndexError, len(column)), (IndexError, -len(column) - 1), (TypeError, "0"), (TypeError, None))], [True] * 4
    same = frames.schema(frames.field("x", frames.BOOL), frames.field("x", frames.BOOL)) + frames.batch(frames.bools([True]),
        frames.bools([None]))
    batch = next(arrowflow.open(same))
    yield "two columns of one name", [raises(KeyError, batch.column, "x"), raises(ValueError, batch.to_pylist),
        batch.column(1).to_pylist()], [
        True, True, [None]]


def what_has_bytes():
    """Everything with a buffer is accepted as bytes, and is copied first."""
    data = GROWING.read_bytes()
    expected = arrowflow.check(data)
    for it in (bytearray(data), memoryview(data), memoryview(bytearray(data))[:], (ctypes.c_char * len(data))(*data)):
        yield f"check of {type(it).__name__}", arrowflow.check(it), expected
    changed = bytearray(data)
    with arrowflow.open(changed) as stream:
        changed[:] = bytes(len(changed))
        yield "bytes that change", sum(map(len, stream)), expected.rows


def faults():
    """What each call reports about an empty stream and about junk."""
    calls = [arrowflow.sanitize, arrowflow.show, arrowflow.messages, arrowflow.schema_text]
    calls += [lambda data: [*arrowflow.open(data)], lambda data: [*arrowflow.sanitize_pieces(data)],
        lambda data: arrowflow.open(data).schema]
    for k, call in enumerate(calls):
        for data, kind in ((b"", Kind.NO_SCHEMA), (bytes(8), Kind.CONTINUATION)):
            why = raised_by(call, data)
            yield f"call {k} of {data!r}", (type(why), why.kind, why.offset, why.batch, why.field), (ArrowflowError, kind, 0,
                None, None)
    yield "check of junk", arrowflow.check(bytes(8)), arrowflow.Report(Kind.CONTINUATION, False, 0, 0, 0)
    yield "an error is a ValueError", issubclass(ArrowflowError, ValueError), True
    cut = GROWING.read_bytes()[:-20]
    why = raised_by(arrowflow.show, cut)
    yield "what came before a fault", why.partial, subprocess.run([PROGRAM, "show", "-"], input=cut,
        capture_output=True).stdout


def columns_at_fault():
    """The column at fault, for a stream in bytes; for one in pieces there is none."""
    calls = [arrowflow.sanitize, arrowflow.show, lambda data: [*arrowflow.open(data)]]
    for number, (data, kind, column, name) in enumerate(column_faults.streams()):
        for call in calls if number % 7 == 0 or number > 175 else calls[number % 3:][:1]:
            why = raised_by(call, data)
            again = pickle.loads(pickle.dumps(why))
            yield f"column {number} at fault", (str(why.kind), why.column, why.field), (kind, column, name)
            yield f"the same {number} again", (str(again), again.kind, again.column, again.field), (str(why), why.kind, column, name)
        why = raised_by(lambda: [*arrowflow.open([data])])
        yield f"no column {number} of pieces", (str(why.kind), why.column, why.field), (kind, None, None)


def not_written_again(room):
    """The error of a batch that can be read, but is past a limit when it is written again: the number of the batch, and no
    byte."""
    limits, line = Limits(max_body=40), run(PROGRAM, "copy", "--limit-body", "40", GROWING, room / "refused")[1]
    for name, call in (("sanitize", lambda: arrowflow.sanitize(GROWING.read_bytes(), limits)),
                       ("sanitize_pieces", lambda: [*arrowflow.sanitize_pieces(GROWING, limits)])):
        why = raised_by(call)
        yield f"{name} of a refused batch", (f"{str(why).partition(',')[0]}\n".encode(), why.kind, why.offset, why.batch), (
            line, Kind.BATCH_TOO_LARGE, None, 0)


def too_long():
    """A dictionary whose values are too long for one array, in a valid stream."""
    greatest = 2**31 - 1
    one = frames.Column([(1, 0), (greatest, greatest)], [b"", struct.pack("<2i", 0, greatest)])
    parts = [frames.schema(frames.field("k", frames.LIST, [frames.field("item", frames.NULL)], encoding=frames.dictionary(5))),
             frames.dictionary_batch(5, one), frames.batch(frames.numbers([0])), frames.dictionary_batch(5, one, delta=True),
             frames.batch(frames.numbers([1])), frames.END_MARKER]
    stream = arrowflow.open(b"".join(parts))
    yield "a long dictionary", len(next(stream)), 1
    why = raised_by(next, stream)
    yield "a longer one", (type(why), why.kind, why.offset, why.field), (arrowflow.DictionaryTooLong, None, None, "k")
    yield "the same again", (str(raised_by(next, stream)), str(pickle.loads(pickle.dumps(why)))), (str(why), str(why))


def structs(room, compiler):
    """The sizes of the structs and the offsets of their members, from a C compiler."""
    pairs = [(name, getattr(_library, mine)) for mine, name in (
        ("CLimits", "arrowflow_limits"), ("COptions", "arrowflow_options"), ("CReport", "arrowflow_report"), ("CText",
            "arrowflow_text"),
        ("CCopied", "arrowflow_copied"), ("ArrowSchema", "struct ArrowSchema"), ("ArrowArray", "struct ArrowArray"),
        ("ArrowArrayStream", "struct ArrowArrayStream"))]
    lines = [line for name, of in pairs for line in (
        f'printf("%zu ", sizeof({name}));', *(f'printf("%zu ", offsetof({name}, {it}));' for it, _ in of._fields_))]
    (room / "structs.c").write_text('#include "arrowflow_stream.h"\n#include <stdio.h>\nint main(void) {' + "\n".join(lines) + "}\n")
    run(compiler, f"-I{TOP}/c", room / "structs.c", "-o", room / "structs")
    expected = [it for _, of in pairs for it in (ctypes.sizeof(of), *(getattr(of, name).offset for name, _ in of._fields_))]
    yield "structs", run(room / "structs")[0].split(), [str(it).encode() for it in expected]
