"""Bodies that hold more than their values: bits after the last slot, bytes before the first value, under nulls and after the
last, children with more slots. A copy has none of it (tools/stream_copies.py)."""
from tools.arrow_types import INT
from tools.frames import (BINARY, BOOL, INT32, LARGE_BINARY, LARGE_LIST, LARGE_UTF8, LIST, NULL, STRUCT, UTF8, batch,
    dictionary, dictionary_batch, duration, field, fixed_size_binary, lists, numbers, schema)
from raw_frames import column, i32, i64, stream

ITEM = field("item", INT32)


def batches(kind, *columns):
    """A column of a type, with a batch for each of these."""
    return stream(schema(field("c", *kind)), *(batch(it) for it in columns))


def side_by_side(fields, *rows):
    """Columns next to each other, with a batch for each of these rows."""
    return stream(schema(*fields), *(batch(*its) for its in rows))


def of_one_buffer():
    """Booleans, numbers and byte strings of a fixed width."""
    full, half = b"\xff" * 9, bytes([201, 100, 50, 153, 76, 38, 147, 201])
    least = i32(-2 ** 31, 2 ** 31 - 1, 0x55555555, -1, 0, 7, 256) + b"w"
    triples = bytes([0, 1, 255, 97, 98, 99, 255, 255, 255, 238, 238, 238, 102])
    return {
        "hidden_in_truths": ("truth values of each number of bits at the edge of a byte and of a word, with bits after them",
            batches([BOOL], column([(4, 1)], b"\xfb", b"\xed"), column([(0, 0)], b"", b""), column([(1, 1)], b"\xfe\xff", b"\xff"),
            column([(7, 0)], b"", b"\xc9"), column([(8, 2)], b"\x7e\xff", b"\xc9"), column([(9, 9)], b"\x00\xfe\xff", b"\xff\xff"),
            column([(63, 1)], full[:7] + b"\xbf\xff", half), column([(64, 1)], b"\xfe" + full[:8], half),
            column([(65, 3)], b"\xfe\xff\xff\x7f\xff\xff\xff\xff\xfe\xff", half + b"\xff"))),
        "hidden_in_numbers": ("numbers under nulls and after the last, and a validity of no nulls", batches([INT32],
            column([(3, 1)], b"\x05", i32(1, 2, 3)), column([(3, 1)], b"\x05", i32(1, 9, 3)), column([(2, 0)], b"\xff", i32(1, 2)),
            column([(7, 2)], b"\xdb\xff", least))),
        "hidden_in_durations": ("durations under nulls", batches([duration(0)],
            column([(5, 2)], b"\xee\xff", i64(1, -2 ** 63, 2 ** 63 - 1, -1, 0x5555)))),
        "hidden_in_fixed_bytes": ("byte strings of three bytes and of none, with bytes under nulls and after the last",
            side_by_side([field("f", fixed_size_binary(3)), field("e", fixed_size_binary(0))],
            [column([(4, 2)], b"\xf5\xff", triples), column([(4, 1)], b"\xfd\xff", b"f")])),
        "hidden_beside_nulls": ("nulls, and a number under a null beside them", side_by_side([field("z", NULL), field("n", INT32)],
            [column([(3, 3)]), column([(3, 1)], b"\xfd\xff", i32(1, 0x55555555, 3) + b"w")])),
    }


def of_offsets():
    """Texts and byte strings."""
    late = i32(2, 5, 6, 11, 11, 17, 20), "??hidaé€hiddenend!".encode()
    return {
        "hidden_in_texts": ("texts that begin after the first byte, with bytes under nulls and after the last", batches([UTF8],
            column([(3, 1)], b"\x05", i32(0, 1, 1, 3), b"abc"), column([(0, 0)], b"", i32(0), b""),
            column([(2, 1)], b"\x01", i32(0, 1, 2), b"ax"), column([(2, 1)], b"\xfd", i32(0, 1, 4), b"axyz"),
            column([(6, 2)], b"\xee\xff", *late))),
        "hidden_in_large_texts": ("large texts that are all null, over bytes", batches([LARGE_UTF8],
            column([(3, 3)], b"\xf8\xff", i64(2, 3, 6, 8), b"??xhidyz!"))),
        "hidden_in_bytes": ("byte strings, with a byte under a null", batches([BINARY],
            column([(4, 1)], b"\x0d", i32(0, 2, 3, 3, 4), b"\xff\x00\x09\x80"))),
        "hidden_in_large_bytes": ("large byte strings, with a byte under a null", batches([LARGE_BINARY],
            column([(2, 1)], b"\x01", i64(0, 1, 2), b"\xfe\x09"))),
    }


def of_lists():
    """Lists with some items before the first, under a null or after the last."""
    items = i32(9, 1, 2, 9, 5, 4, 8, 8, 9) + b"w"
    words = i32(2, 4, 5, 8, 10, 12, 12, 14), b"??zzahidzzbczz!"
    return {
        "hidden_in_lists": ("lists with items before the first, under a null and after the last, and lists of all items",
            batches([LIST, [ITEM]], column([(3, 1), (2, 0)], b"\x05", i32(0, 2, 2, 2), b"", i32(1, 2)),
            column([(3, 1), (4, 0)], b"\x05", i32(0, 2, 3, 4), b"", i32(1, 2, 7, 3)),
            column([(2, 0), (4, 0)], b"", i32(1, 3, 4), b"", i32(9, 1, 2, 3)),
            column([(2, 0), (4, 0)], b"", i32(0, 2, 3), b"", i32(1, 2, 3, 9)),
            column([(0, 0), (2, 0)], b"", i32(0), b"", i32(1, 2)),
            column([(5, 2), (9, 1)], b"\xed\xff", i32(1, 3, 4, 4, 6, 8), b"\xef\xff\xff", items))),
        "hidden_in_large_lists": ("large lists of texts with texts before the first, under a null and after the last",
            batches([LARGE_LIST, [field("item", UTF8)]],
            column([(4, 1), (7, 1)], b"\xfb\xff", i64(1, 3, 3, 4, 6), b"\xfb\xff", *words))),
        "lists_of_whole_structs": ("lists of structs, of which no item is hidden", batches(
            [LIST, [field("item", STRUCT, [field("m", INT32)])]],
            column([(3, 0), (3, 0), (3, 0)], b"", i32(0, 2, 2, 3), b"", b"", i32(1, 2, 3)),
            column([(0, 0), (0, 0), (0, 0)], b"", i32(0), b"", b"", b""))),
    }


def of_structs():
    """Structs with values under a null, and with fields of more slots."""
    pair = [field("x", INT32), field("y", INT32)]
    inner = field("s", STRUCT, [field("t", UTF8), field("b", BOOL)])
    texts = i32(2, 3, 5, 8, 10, 11, 14, 16, 18), b"??azzhidzzxhidzzzz!"
    return {
        "hidden_in_structs": ("structs with a number under a null", batches([STRUCT, [field("m", INT32)]],
            column([(2, 1), (2, 0)], b"\x01", b"", i32(5, 6)))),
        "hidden_in_structs_of_texts": ("structs with a text under a null", batches([STRUCT, [field("t", UTF8)]],
            column([(2, 1), (2, 0)], b"\x01", b"", i32(0, 1, 2), b"ab"))),
        "hidden_behind_structs": ("structs with a slot after the last of the second field", batches([STRUCT, pair],
            column([(2, 0), (2, 0), (3, 0)], b"", b"", i32(1, 2), b"", i32(3, 4, 9)))),
        "hidden_in_structs_of_structs": ("structs with a struct, whose fields all have more slots", batches(
            [STRUCT, [field("n", INT32), inner]], column([(6, 2), (7, 1), (7, 2), (8, 1), (8, 0)], b"\xf9\xff", b"\xf7\xff",
            i32(1, 9, 3, 0x55555555, 5, 6, 9) + b"w", b"\xe7\xff", b"\xdf\xff", *texts, b"", b"\xcf"))),
    }


def of_levels():
    """Lists in structs, and structs in lists."""
    listed = field("l", LIST, [ITEM])
    pairs = field("l", LIST, [field("item", STRUCT, [field("n", INT32), field("t", UTF8)])])
    singles = field("l", LIST, [field("item", STRUCT, [field("m", INT32)])])
    words = i32(2, 4, 5, 7, 9, 12, 13, 15, 17), b"??zzabczzhidzzzzz!"
    return {
        "structs_of_whole_lists": ("structs of lists and numbers, of which nothing is hidden", batches(
            [STRUCT, [listed, field("n", INT32)]], column([(2, 0), (2, 0), (3, 0), (2, 0)], b"", b"", i32(0, 2, 3), b"",
            i32(1, 2, 3), b"", i32(7, 8)))),
        "hidden_list_in_a_struct": ("structs of lists, with a list under a null", batches([STRUCT, [listed]],
            column([(3, 1), (3, 0), (4, 0)], b"\x05", b"", i32(0, 1, 3, 4), b"", i32(1, 2, 3, 4)))),
        "structs_of_whole_lists_of_structs": ("structs of lists of structs and truth values, of which nothing is hidden", batches(
            [STRUCT, [pairs, field("b", BOOL)]], column([(2, 0)] * 6, b"", b"", i32(0, 2, 2), b"", b"", i32(1, 2), b"",
            i32(0, 1, 3), b"abc", b"", b"\x01"))),
        "hidden_in_structs_in_lists": ("structs of lists of structs, with a number under a null", batches([STRUCT, [singles]],
            column([(2, 0), (2, 0), (3, 1), (3, 0)], b"", b"", i32(0, 2, 3), b"\x05", b"", i32(1, 9, 3)))),
        "hidden_in_lists_in_structs": ("lists of structs of lists and texts, with more of each", batches(
            [LIST, [field("item", STRUCT, [listed, field("t", UTF8)])]],
            column([(3, 1), (7, 1), (8, 1), (7, 0), (8, 1)], b"\xfd\xff", i32(1, 3, 4, 6), b"\xdf\xff", b"\xfb\xff",
            i32(1, 1, 3, 4, 4, 5, 6, 6, 6), b"", i32(9, 1, 2, 9, 3, 7, 9) + b"w", b"\xef\xff", *words))),
    }


def of_indices():
    """Indices of each width to lists, alone, in lists and in structs, with a 9 under a null."""
    values = dictionary_batch(0, lists([[1], [2], [3]], numbers))
    held = [(3, 1)], b"\x05", b"\x02\x09\x01"

    def by(bits, name="k"):
        return field(name, LIST, [ITEM], encoding=dictionary(0, bits))

    def of(kind, *columns):
        return stream(schema(kind), values, *(batch(it) for it in columns))
    in_list, in_struct = field("l", LIST, [by(8)]), field("s", STRUCT, [by(8), field("n", INT32)])
    found = {f"hidden_in_indices_of_{bits}_bits": (f"indices of {bits} bits to lists, with one under a null", of(by(bits),
        column([(3, 1)], b"\x05", numbers([2, 9, 1], INT.form((bits, True)).slot).buffers[1]))) for bits in (8, 16, 32, 64)}
    return found | {
        "hidden_in_lists_of_indices": ("lists of indices to lists, with an index under a null", of(in_list,
            column([(1, 0), (3, 1)], b"", i32(0, 3), *held[1:]), column([(2, 1), (3, 1)], b"\x02", i32(0, 0, 3), *held[1:]))),
        "hidden_in_structs_of_indices": ("structs of indices to lists and numbers, with an index under a null", of(in_struct,
            column([(3, 0), (3, 1), (3, 0)], b"", *held[1:], b"", i32(4, 5, 6)),
            column([(3, 1), (3, 1), (3, 0)], b"\x05", *held[1:], b"", i32(4, 5, 6)))),
    }


def all_of():
    found = {}
    for group in (of_one_buffer(), of_offsets(), of_lists(), of_structs(), of_levels(), of_indices(), without_offsets()):
        assert not found.keys() & group.keys()
        found.update(group)
    return found


# Structs whose fields have more slots, and offsets that are left out.
OWN = {"hidden_behind_structs", "hidden_in_structs_of_structs", "hidden_in_lists_in_structs", "hidden_without_offsets"}


def vectors():
    return {name: it for name, it in all_of().items() if name not in OWN}


def own():
    return {name: it for name, it in all_of().items() if name in OWN}


def without_offsets():
    return {"hidden_without_offsets": ("texts and lists of no rows, without offsets, of which a copy has one", side_by_side(
        [field("t", UTF8), field("l", LIST, [ITEM]), field("s", LIST, [field("item", STRUCT, [field("m", INT32)])])],
        [column([(0, 0)], b"", b"", b""), column([(0, 0)] * 2, *4 * [b""]), column([(0, 0)] * 3, *5 * [b""])]))}
