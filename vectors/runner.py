#!/usr/bin/env python3
"""Compares what an Arrow implementation reads with the vectors and the families of this folder, which README.md defines.

    python3 vectors/runner.py MODULE[:FUNCTION] [--own] [--all]

FUNCTION, or `read`, is given the bytes of a stream. It returns the stream's items, in a list or one by one, and raises an
exception if it rejects the stream. An item is one of these tuples, whose last part may also be only the number of its elements:

    ("schema", lines)             the `column` and `metadata` lines of a text, without the first two spaces of each
    ("dictionary", id, values)    all values that the dictionary has then
    ("batch", rows)               for each row a tuple with a value for each column

A value is None, a bool, a str, bytes, a tuple of values for a struct, a list of values for a list, also of tuples for a map, and
an int for what a text gives as a number or as bits. In an encoded column it is the value that the index refers to.

The module may have LEFT_OUT, which of "schema", "metadata" and "dictionary" FUNCTION does not return, and REJECTED, the exceptions
that mean a rejected stream, if not each one does. After NotImplementedError the stream is not counted.

What is `standard` has to have equal items, in a family as many batches and rows; what is `malformed` has to be rejected. With
--own this project's own results are compared too, and FUNCTION is also given the set of types, "core" or "all". Of a range of
changes the first and the last are tried, with --all each one, and the families `.._at_the_limit`.
"""
import collections
import importlib
import itertools
import json
import os
import pathlib
import re
import sys

FOLDER = pathlib.Path(__file__).resolve().parent
QUOTED = r'"(?:[^"\\]|\\.)*"'
FORMS = r'(?P<word>null|true|false)|x"(?P<bytes>[0-9a-f]*)"|(?P<bits>0x[0-9a-f]+)|(?P<number>-?\d+)|(?P<text>'
VALUE, WORDS = re.compile(f"{FORMS}{QUOTED})"), {"null": None, "true": True, "false": False}
MEANINGS = {"word": WORDS.get, "bytes": bytes.fromhex, "bits": lambda it: int(it, 16), "number": int, "text": json.loads}
NAME, SHOWN, LENGTH = map(re.compile, (f"{QUOTED}: ", r"=[^,\]}]*", r"length (\d+)(?:\.\.(\d+))?"))
SETTING = re.compile(r" at (\d+) := ([0-9a-f]+)(?:\.\.([0-9a-f]{2}))?")

# A stream that is read, and what is expected: its items or, in a family, the numbers of batches and rows; None if it is rejected.
Case = collections.namedtuple("Case", "name stream binds expected")


def value_at(line, at):
    """The value from a place of a line on, and the place after it."""
    if line[at] in "[{":
        return values_at(line, at)
    found = VALUE.match(line, at)
    if line.startswith(" -> ", found.end()):
        return value_at(line, found.end() + 4)
    shown = SHOWN.match(line, found.end())
    return MEANINGS[found.lastgroup](found[found.lastgroup]), (shown or found).end()


def values_at(line, at):
    """The same for a list, or a struct, which is a tuple."""
    is_struct, values, at = line[at] == "{", [], at + 1
    while line[at] not in "]}":
        value, at = value_at(line, NAME.match(line, at).end() if is_struct else at)
        values.append(value)
        at += 2 * line.startswith(", ", at)
    return tuple(values) if is_struct else values, at + 1


def items_of(lines):
    """The items that the lines of a text describe."""
    items = []
    for line in lines:
        words = line.split(" ")
        if words[0] == "take" and words[2] in ("schema", "dictionary", "batch"):
            items.append((words[2], *map(int, words[3:-2]), []))
        elif line.startswith("  value "):
            items[-1][-1].append(value_at(line, len("  value "))[0])
        elif line.startswith("  row"):
            items[-1][-1].append(tuple(values_at(f"[{line[len('  row '):]}]", 0)[0]))
        elif line.startswith("  "):
            items[-1][-1].append(line[2:])
    return items


def lines_in(place):
    """The lines of a file: only a line feed ends one."""
    return (FOLDER / place).read_bytes().decode().split("\n")[:-1]


def names(kind):
    return [*lines_in(f"{kind}/LIST"), *lines_in(f"{kind}/all/LIST")]


def stream_of(name):
    return (FOLDER / f"streams/{name}.arrows").read_bytes()


def vectors():
    for name in names("streams"):
        _, binds, *lines = lines_in(f"streams/{name}.txt")
        expected = items_of(lines) if lines[-1] == "end clean" else None
        yield Case(f"streams/{name}", stream_of(name), binds.removeprefix("binds "), expected)


def changed(held, change, every):
    """The streams that a change describes, each with what distinguishes it from the others of a range."""
    def tried(first, last):
        return range(first, last + 1) if every else sorted({first, last})
    if found := LENGTH.fullmatch(change):
        yield from ((f", length {it}", held[:it]) for it in tried(int(found[1]), int(found[2] or found[1])))
        return
    stream = bytearray(held)
    for place, first, last in SETTING.findall(change):
        stream[int(place):int(place) + len(first) // 2] = bytes.fromhex(first)
        if last:
            for byte in tried(int(first, 16), int(last, 16)):
                stream[int(place)] = byte
                yield f", byte {byte:02x}", bytes(stream)
            return
    yield "", bytes(stream)


def families(every):
    for name in names("families"):
        if "_at_the_limit" in name and not every:
            continue
        _, base, *lines = lines_in(f"families/{name}")
        held, binds = stream_of(base.removeprefix("base ")), None
        for number, line in enumerate(lines, 3):
            change, _, answer = line.partition(" -> ")
            if not answer:
                binds = line.removeprefix("binds ")
                continue
            _, batches, _, rows, *_ = answer.split(" ")
            expected = (int(batches), int(rows)) if answer.endswith("end clean") else None
            for which, stream in changed(held, change, every):
                yield Case(f"families/{name}, line {number}{which}", stream, binds, expected)


def difference(expected, found, where):
    """The first place where values differ, in one line, or None."""
    if isinstance(expected, (list, tuple)) and type(found) is type(expected):
        pairs = enumerate(itertools.zip_longest(expected, found, fillvalue="nothing"))
        return next(filter(None, (difference(*pair, f"{where}[{at}]") for at, pair in pairs)), None)
    is_equal = type(found) is type(expected) and found == expected
    return None if is_equal else f"{where}: {expected!r:.100} is expected, {found!r:.100} was read"


def as_given(item, found, left_out):
    """An expected item without metadata if these are left out; only the number of its elements if only that was read."""
    *its, elements = item
    if "metadata" in left_out and its == ["schema"]:
        elements = [it for it in elements if not it.lstrip().startswith("metadata ")]
    return (*its, len(elements) if found and isinstance(found[-1], int) else elements)


def fault(case, found, left_out):
    """What is wrong with the items that were read, None for a rejected stream; None if nothing is."""
    if case.expected is None or found is None:
        return None if case.expected is found else "it is rejected" if found is None else "it is not rejected"
    if isinstance(case.expected, list):
        items = zip((it for it in case.expected if it[0] not in left_out), itertools.chain(found, itertools.repeat(())))
        return difference([as_given(*pair, left_out) for pair in items], found, "items")
    rows = [it[1] if isinstance(it[1], int) else len(it[1]) for it in found if it[0] == "batch"]
    return difference(case.expected, (len(rows), sum(rows)), "batches and rows")


def tried_with(module, read, case, arguments):
    """The same when the function has read the stream; False if it does not read what is in it."""
    try:
        found = [*read(*arguments)]
    except NotImplementedError:
        return False
    except getattr(module, "REJECTED", Exception):
        found = None
    except Exception as error:
        return f"it fails with {type(error).__name__}: {error}"
    return fault(case, found, getattr(module, "LEFT_OUT", ()))


def main(words):
    options, given = {it for it in words if it.startswith("--")}, [it for it in words if not it.startswith("--")]
    if len(given) != 1 or options - {"--own", "--all"}:
        sys.exit(__doc__)
    sys.dont_write_bytecode = True
    sys.path.insert(0, os.getcwd())
    name, _, function = given[0].partition(":")
    module, with_own, passed, failed = importlib.import_module(name), "--own" in options, 0, 0
    read = getattr(module, function or "read")
    for case in itertools.chain(vectors(), families("--all" in options)):
        if case.binds == "own" and not with_own:
            continue
        types = "all" if "/all/" in case.name else "core"
        wrong = tried_with(module, read, case, [case.stream, types] if with_own else [case.stream])
        if wrong:
            print(f"{case.name}: {wrong}".replace("\n", " "))
        passed, failed = passed + (wrong is None), failed + bool(wrong)
    print(f"{passed} passed, {failed} failed")
    return 1 if failed or not passed else 0


if __name__ == "__main__":
    sys.exit(main(sys.argv[1:]))
