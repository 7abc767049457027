"""Modules of constants or statics in Rattle, made from bytes, for the tests; and a function that puts generated files into a
folder."""
import pathlib
import textwrap


def commented(mark, words):
    return "".join(f"{line}\n" for line in textwrap.wrap(words, 100, initial_indent=mark, subsequent_indent=mark))


def escaped(byte):
    """The form of a byte in a byte string."""
    marks = {0: "\\0", 9: "\\t", 10: "\\n", 13: "\\r", 34: '\\"', 92: "\\\\"}
    return marks.get(byte) or (chr(byte) if 32 < byte < 127 else f"\\x{byte:02x}")


def byte_string(held, begun):
    """The bytes as a byte string, in lines of 100 columns, after the beginning of its first line."""
    lines, line = [], begun + 'b"'
    for byte in held:
        mark = escaped(byte)
        if len(line) + len(mark) > 98:
            lines, line = [*lines, line + "\\\n"], "    "
        line += mark
    return "".join([*lines, line]) + '";\n'


def module(words, held, item="pub(crate) const", in_strings=False):
    """A module of constants, or of statics: for each name what it is and its bytes; with `in_strings` these are byte strings."""
    lines = commented("//! ", words)
    for name, (meaning, held_bytes) in held.items():
        lines += "\n" + commented("/// ", meaning)
        if in_strings:
            lines += byte_string(held_bytes, f"{item} {name}: &[u8; {len(held_bytes)}] = ")
            continue
        lines += f"{item} {name}: [u8; {len(held_bytes)}] = [\n"
        for place in range(0, len(held_bytes), 16):
            lines += "    " + " ".join(f"0x{byte:02x}," for byte in held_bytes[place:place + 16]) + "\n"
        lines += "];\n"
    return lines


def put(top, files):
    """Writes files below a folder, by their places. A file that already has its bytes keeps its time: nothing is rebuilt because
    of it."""
    for place, held in files.items():
        held = held.encode() if isinstance(held, str) else held
        file = pathlib.Path(top, place)
        file.parent.mkdir(parents=True, exist_ok=True)
        if not file.is_file() or file.read_bytes() != held:
            file.write_bytes(held)
