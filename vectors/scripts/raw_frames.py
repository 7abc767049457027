"""What the vectors are made from, in addition to tools/: the one batch whose parts are changed by name, and columns and
streams that several of them have."""
import struct

from tools import frames, rattle_constants, streams
from tools.frame_parts import Stream, split
from tools.frames import (END_MARKER, INT32, ONE_BATCH, ONE_COLUMN, UTF8, batch, field, frame, record_batch, scalar, schema,
    table, text, vector)
from results import TOP, place_of

# One nullable column `n` of signed 32-bit integers, and a batch of 1, a null and 3: all changes by name are of these frames.
ONE = Stream(schema=ONE_COLUMN, batch=ONE_BATCH, end=END_MARKER)
FIELD, TYPE = "schema.header.fields.0", "schema.header.fields.0.type"
NODE, VALIDITY, VALUES = "batch.header.nodes.0", "batch.header.buffers.0", "batch.header.buffers.1"

# An offset before all bytes.
FAR_BEFORE = -2 ** 63

INT32S = schema(field("n", INT32))
TEXTS = schema(field("t", UTF8))
WORDS = streams.letters_schema()
letters = streams.letters


def in_one(*settings):
    """The one batch with these settings, each a name and its bytes."""
    return ONE.changed(dict(settings))


def schema_in_one(*settings):
    """Only its schema."""
    return in_one(*settings)[:len(ONE_COLUMN)]


def i32(*values):
    return struct.pack(f"<{len(values)}i", *values)


def i64(*values):
    return struct.pack(f"<{len(values)}q", *values)


def column(nodes, *buffers):
    return frames.Column(nodes, list(buffers))


def stream(*parts):
    """The parts with an end marker."""
    return b"".join(parts) + END_MARKER


def one_batch_of(kind, *columns, **how):
    """A batch of one column; `kind` is a type together with the fields below it."""
    return stream(schema(field("c", *kind)), batch(*columns, **how))


def of_another_writer(place):
    """Bytes that FlatBuffers' own builder laid out, which examples/foreign wrote into a module of tests."""
    held = rattle_constants.constants((TOP / "crates" / place).read_text(encoding="utf-8"))
    return {name: bytes(it) for name, it in held.items()}


def written_by_another(name):
    """A vector that FlatBuffers' own builder laid out, which examples/foreign wrote unchanged."""
    return (TOP / f"vectors/{place_of(name)}.arrows").read_bytes()


def frames_of_another():
    """The frames of such a vector, keyed by what they are."""
    names = ("SCHEMA", "DICTIONARY", "ROWS", "DELTA", "NO_ROWS", "ROWS", "END")
    return dict(zip(names, split(written_by_another("defaults_left_out")), strict=True))


def metadata_frame(words, align=8):
    """Metadata as a frame without a body."""
    words += bytes(-(8 + len(words)) % align)
    return b"\xff" * 4 + struct.pack("<i", len(words)) + words


def raw_batch(length, nodes, places, body=b"", more=()):
    """The frame of a record batch with all of its parts given."""
    return frame(3, table(*record_batch(length, nodes, places)[1], *more), body)


def raw_dictionary(number, length, nodes, places, body=b"", delta=False):
    return frame(2, table(scalar("q", number), record_batch(length, nodes, places), scalar("B", delta)), body)


def raw_field(name, code, kind, encoding=None, children=(), noted=None, nullable=True):
    """A field with all of its parts given; None if a part of it is absent."""
    return table(name and text(name), None if nullable is None else scalar("B", nullable), scalar("B", code), kind, encoding,
        None if children is None else vector(children), *([] if noted is None else [noted]))


def raw_schema(fields, *more):
    """A schema whose table has these further fields after its vector of fields."""
    return frame(1, table(scalar("h", 0), fields if fields is None else vector(fields), *more))
