"""Arrow IPC streams from untrusted sources: read, checked, sanitized, and passed on to other Arrow libraries.

A stream is opened from a file, an open binary file, bytes or pieces of bytes, and read batch by batch:

    import arrowflow

    with arrowflow.open("rows.arrows") as stream:
        print(stream.schema.names)
        for batch in stream:
            print(batch.num_rows, batch.to_pylist())
            ages = batch.column("age")
            validity, values = ages.buffers()      # memoryviews; of an int32 column values.cast("i")

A batch owns its memory: the batch, its columns and views of their buffers stay valid when the stream is closed, on any thread.

It is passed to other libraries without a copy, by the Arrow PyCapsule interface. A stream has `__arrow_c_stream__`, a batch and a column
have `__arrow_c_array__`, and all of these and a schema have `__arrow_c_schema__`:

    table = pyarrow.table(arrowflow.open(source))           # or pyarrow.RecordBatchReader.from_stream(arrowflow.open(source))
    frame = polars.DataFrame(arrowflow.open(source))
    stream = arrowflow.open(source); duckdb.sql("SELECT * FROM stream")

(These lines follow the documentation of these libraries. The interface is tested with consumers of its structs; it was not run with these
three.)

Complete streams in memory:

    report = arrowflow.check(data)             # report.kind is Kind.FINE, or the first fault, with its offset
    clean = arrowflow.sanitize(data)           # a valid stream of the same schema and rows, as bytes
    print(arrowflow.show(data), arrowflow.messages(data), arrowflow.schema_text(data))     # what the program `arrowflow` prints

Streams that arrive in pieces:

    with arrowflow.Reader() as reader:         # takes pieces, and returns batches
        for piece in pieces:
            for batch in reader.feed(piece): ...
        reader.end()
    for piece in arrowflow.sanitize_pieces("rows.arrows"): out.write(piece)         # Copier does the same with pieces passed to it

A fault raises ArrowflowError, which is a ValueError, with `kind`, `offset`, `column`, `field` and a sentence. A wrong argument raises a
TypeError, a limit that is too high a ValueError. Limits bound how large the messages of a stream may be, and which types it may have:
STANDARD, the default; ALL_TYPES, which also accepts columns of floating-point numbers, decimals, intervals, fixed-size lists and maps; or
limits of your own, Limits(max_rows=1_000_000, types=Types.ALL).

`python -m arrowflow [--types core|all] schema|check|show IN` and `.. sanitize IN OUT` do the same from a shell; `-` is standard input or
output.

The checks and copies are proved for all bytes, by the library for C of the project Atticoregano, which this package calls by ctypes; the
arrays of its batches, and this package, are tested and not proved. It runs on Linux, with CPython 3.9 and later and a processor of the
level x86-64-v2, which those since about 2010 have.
"""
from ._batches import Batch, Column
from ._copier import Copier, sanitize_pieces
from ._errors import ArrowflowError, DictionaryTooLong, Kind
from ._limits import ALL_TYPES, STANDARD, Limits, Types
from ._reader import Reader
from ._schema import Field, Schema
from ._stream import Stream, open
from ._texts import Report, check, messages, sanitize, schema_text, show
from ._version import VERSION as __version__

__all__ = [
    "ALL_TYPES", "ArrowflowError", "Batch", "Column", "Copier", "DictionaryTooLong", "Field", "Kind", "Limits", "Reader", "Report",
    "STANDARD", "Schema", "Stream", "Types", "__version__", "check", "messages", "open", "sanitize", "sanitize_pieces", "schema_text",
    "show"]
