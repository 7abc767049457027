"""Streams with custom metadata whose meaning is worked out by hand: a small one with some bytes changed, and some at the limits.
Each has its name, its bytes, and the pairs of its schema or the kind with which it is rejected.
"""
import struct

from tools import schemas
from tools.frames import INT32, field, scalar, table, text, vector

MOST = 65_536
# The most bytes that names, zones, keys and values may have together, divided by MOST visits of one string.
LENGTH = 67_108_864 // MOST

# The schema of one nullable signed 32-bit column `n` with the pair of `k` and `v`. Offsets in its metadata: the Message's version
# at 20; the Schema's vtable at 40 and its table at 56, which refers to the pairs at 68; the Field at 96, its name at 120; the
# vector of pairs at 152 with its one offset at 156; the KeyValue's vtable at 160, with entries at 164 and 166, and its table at
# 168, which refers to the key at 172 and to the value at 176; the key's count at 180, the value's at 188; the metadata has 200
# bytes.
ONE_PAIR = schemas.framed(table(scalar("h", 4), scalar("B", 1), table(
    scalar("h", 0), vector([field("n", INT32)]), vector([table(text("k"), text("v"))])), scalar("q", 0)))

# Changes of one byte of these metadata: its offset, its new value, and what the stream is then.
CHANGES = [
    (20, 3, [(b"k", b"v")]),  # V4
    (20, 2, "Version"), (20, 5, "Version"), (21, 1, "Version"),
    (40, 9, []), (40, 8, []),  # the vtable ends inside the entry for the pairs, and before it
    (48, 0, []),  # the entry is 0
    (68, 0, "Metadata"), (70, 1, "Metadata"), (71, 128, "Metadata"),
    (120, 255, "Metadata"),  # the name is not UTF-8
    (152, 0, []), (152, 2, "Metadata"), (155, 1, "Metadata"),
    (156, 0, "Metadata"), (156, 41, "Metadata"),  # the table at 197 is cut off before the offset of its vtable
    (156, 16, [(b"", b"")]),  # the table at 172 has its vtable at 164, without fields
    (160, 6, [(b"k", b"")]), (160, 5, [(b"", b"")]), (160, 4, [(b"", b"")]), (160, 3, "Metadata"), (160, 41, "Metadata"),
    (160, 40, [(b"k", b"v")]),
    (164, 0, [(b"", b"v")]), (166, 0, [(b"k", b"")]), (166, 4, [(b"k", b"k")]), (164, 29, "Metadata"),
    (168, 169, "Metadata"), (168, 8, [(b"k", b"v")]),
    (172, 0, "Metadata"), (176, 0, "Metadata"), (176, 20, [(b"k", b"")]), (176, 21, "Metadata"),
    (180, 0, [(b"", b"v")]), (180, 16, [(b"k\0\0\0\1\0\0\0v" + bytes(7), b"v")]), (180, 17, "Metadata"),
    (184, 255, [(b"\xff", b"v")]), (192, 195, [(b"k", b"\xc3")]),
    (188, 8, [(b"k", b"v" + bytes(7))]), (188, 9, "Metadata"),
]


def shared(value, height):
    return "shared", schemas.Held(value, height)


def of_fields(fields, pairs):
    return schemas.framed(table(scalar("h", 4), scalar("B", 1), table(scalar("h", 0), vector(fields), vector(pairs)),
                                scalar("q", 0)))


def doubled(levels, pairs):
    """Structs this many levels deep, each but the innermost with two offsets to one field below it; the innermost has the
    pairs."""
    def one(kind, children, more):
        return table(None, None, scalar("B", kind), None, None, vector(children), *more)
    below = one(13, [], [vector(pairs)])
    for height in range(2, levels + 1):
        below = one(13, [shared(below, height)] * 2, [])
    return below


def at_the_limits():
    """Streams of few bytes that stand for as much as is allowed, and for a little more."""
    pair = shared(table(text("k"), text("v")), 1)
    string = shared(text("k" * LENGTH), 0)
    by_key, by_value = (shared(it, 1) for it in (table(string), table(None, string)))
    nameless, named = (table(name, None, *field("", INT32)[1][2:]) for name in (None, text("n")))
    most = [(b"k" * LENGTH, b"")] * MOST
    return [
        ("as many pairs as may be", of_fields([nameless], [pair] * MOST), [(b"k", b"v")] * MOST),
        ("one pair more", of_fields([nameless], [pair] * (MOST + 1)), "Metadata"),
        ("pairs of fields alone", of_fields([doubled(16, [pair] * 2)], []), []),
        ("these, and one of the schema", of_fields([doubled(16, [pair] * 2)], [pair]), "Metadata"),
        ("three pairs of fields", of_fields([doubled(16, [pair] * 3)], []), "Metadata"),
        ("twice as many fields", of_fields([doubled(17, [])], []), "Metadata"),
        ("as many bytes as may be", of_fields([nameless], [by_key] * MOST), most),
        ("as many bytes of values", of_fields([nameless], [by_value] * MOST), [(value, key) for key, value in most]),
        ("a name more", of_fields([named], [by_key] * MOST), "Metadata"),
        ("one key less, and a name", of_fields([named], [by_key] * (MOST - 1)), most[1:]),
        ("half by keys, half by values", of_fields([nameless], [shared(table(string, string), 1)] * (MOST // 2)),
         [(b"k" * LENGTH, b"k" * LENGTH)] * (MOST // 2)),
        ("these, and a pair of one byte", of_fields([nameless], [shared(table(string, string), 1)] * (MOST // 2)
                                                    + [table(text("k"))]), "Metadata"),
    ]


def edges():
    """All of them: names, streams, and the schema's pairs or a kind."""
    found = [("one pair", ONE_PAIR, [(b"k", b"v")])]
    for place, byte, expected in CHANGES:
        changed = ONE_PAIR[:8 + place] + struct.pack("B", byte) + ONE_PAIR[9 + place:]
        found.append((f"one pair, place {place} set to {byte}", changed, expected))
    return found + at_the_limits()
