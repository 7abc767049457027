"""What the program in crates/arrow_conformance reads and has to print: the vectors and the rows as one stream of three columns,
which any Arrow library reads, and a line for each, whose numbers are counted here."""
import re

from tools import stream_copies, streams
from tools.frames import BINARY, END_MARKER, UTF8, batch, field, schema, strings
import kinds
import replaced
import results
import rows
import surplus
import types_outside_core

CRATE = "crates/arrow_conformance"

# What is written for a vector: the name of the stream in tools/streams.py, keyed by the way as the program numbers it (deltas
# and 8 bytes, all values and 8 bytes, deltas and 64, all values and 64).
COPIES = {
    "growing_dictionary": {0: "GROWING", 1: "RESENT", 2: "GROWING_64"}, "resent_dictionary": {0: "GROWING", 1: "RESENT", 2: "GROWING_64"},
    "growing_dictionary_64": {0: "GROWING", 2: "GROWING_64"}, "dictionary_of_no_values": {0: "FROM_NO_VALUES"},
    "hidden_bytes": {0: "TIDY", 1: "TIDY"}, "no_columns": {0: "NO_COLUMNS"}, "int32_column": {0: "NUMBERS", 2: "NUMBERS_64"},
    "int32_column_64": {1: "NUMBERS"}, "one_dictionary_of_two_columns": {0: "TWICE_X"}, "list_after_a_gap": {0: "CLOSED_GAP"},
    "list_without_its_gap": {0: "CLOSED_GAP"}, "two_dictionaries": {0: "SHARED"}, "dictionary_below": {0: "NESTED", 1: "NESTED"},
    "many_types": {0: "MANY_TYPES"}, "custom_metadata": {0: "NOTED", 1: "NOTED", 2: "NOTED_64"}, "other_letters": {0: "OTHER"},
}


def count(line):
    """The number of streams that a line of changes is about."""
    lengths, values = re.match(r"length (\d+)\.\.(\d+) -> ", line), re.search(r" := (\w\w)\.\.(\w\w) -> ", line)
    first, last = map(int, lengths.groups()) if lengths else [int(it, 16) for it in values.groups()] if values else (1, 1)
    return (last - first + 1) * (" -> " in line)


def listed(vectors):
    """Everything that is run, keyed by its name: its text, and its bytes, which changes do not have."""
    found = {}
    for name in results.names_in(vectors):
        found[name] = (vectors[name], b"") if name.endswith(".changes") else (vectors[f"{name}.txt"], vectors[f"{name}.arrows"])
    return found | types_outside_core.with_the_core() | rows.texts() | {name: (b"", held) for name, held in copies().items()}


def copies():
    """What is written for the vectors, keyed by names NAME.copyWAY: for those that hold more than their values or replace
    dictionaries in two ways, for each type in one, as tools/stream_copies.py writes it, and what types_outside_core.py says."""
    held, more = streams.written(), surplus.all_of() | replaced.all_of()
    found = {f"{name}.copy{way}": held[word][1] for name, ways in COPIES.items() for way, word in ways.items()}
    found |= {f"{name}.copy{way}": stream_copies.copy(its, way) for name, (_, its) in more.items() for way in (0, 3)}
    found |= {f"{name}.copy{at % 4}": stream_copies.copy(its, at % 4) for at, (name, (_, its)) in enumerate(kinds.vectors().items())}
    return found | types_outside_core.copies()


def files(vectors):
    """The program's stream of the vectors, a row each, and what it prints."""
    changes, complete = [], []
    held_by = listed(vectors)
    for name, (text, held) in held_by.items():
        lines = text.decode().split("\n")[2:]
        if name.endswith(".changes"):
            changes.append(f"{name}: {sum(map(count, lines))} streams, as expected\n")
        elif text:
            messages = sum(it.startswith("take ") and not it.endswith(" nothing") for it in lines)
            complete.append(f"{name}: {len(held)} bytes, {messages} messages, as expected\n")
    its = [[*held_by], [text.decode() for text, _ in held_by.values()], [held for _, held in held_by.values()]]
    named = schema(*(field(name, kind, nullable=False) for name, kind in (("name", UTF8), ("text", UTF8), ("stream", BINARY))))
    table = named + batch(*map(strings, its)) + END_MARKER
    printed = "".join([*changes, *complete, f"{len(held_by)} entries\n"])
    return {f"{CRATE}/data/vectors.arrows": table, f"{CRATE}/stdout": printed.encode()}
