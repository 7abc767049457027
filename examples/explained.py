#!/usr/bin/env python3
"""What `arrowflow explain` has to print for valid streams, worked out in another language and with no code of the crates, and
compared with its output.

    examples/explained.py FILE..              prints the text for each
    examples/explained.py --program PROGRAM   compares it with the program's, for the streams in examples/ and vectors/
                                              that the program calls sound

tools/stream_model.py reads the streams; tools/frames.py and tools/stream_copies.py write the copy. A byte is padding if a mask
over its body, in which each buffer of a field is marked, does not have it. A stream with a message whose body has more than
2^20 bytes is left out.
"""
import pathlib
import subprocess
import sys
import textwrap

sys.dont_write_bytecode = True
TOP = pathlib.Path(__file__).resolve().parent.parent
sys.path.insert(0, str(TOP))
from tools import frames, schema_model, stream_copies, stream_model
from tools.arrow_types import BY_CODE, FIXED_LISTS, NULLS, STRUCTS, WITH_OFFSETS, LISTS

# Deltas, and padding to 64 bytes.
DEFAULT_WAY = 2
MOST_BODY = 2 ** 20
SHOWN = 30
WIDTH = 80


class TooLong(Exception):
    """A stream that is left out."""


def buffers_of(field):
    """How many buffers a field and those below it have in a batch."""
    layout = stream_model.form_of(field).layout
    own = {NULLS: 0, STRUCTS: 1, FIXED_LISTS: 1}.get(layout, 3 if layout in WITH_OFFSETS and layout != LISTS else 2)
    return own + sum(map(buffers_of, () if field["encoding"] else field["children"]))


def field_again(field):
    """A field as tools/frames.py writes it."""
    kind = frames.of_type(BY_CODE[field["code"]].name, *(it.decode() if isinstance(it, bytes) else it for it in field["type"] or ()))
    encoding = field["encoding"]
    return frames.field(field["name"], kind, [*map(field_again, field["children"])], field["nullable"],
        encoding and frames.dictionary(encoding[0], *encoding[1], encoding[2]), field["pairs"])


def quoted(name):
    """A name as it is shown."""
    shown = "".join("." if it < " " or it == "\x7f" else it for it in name)
    return '"' + shown[:SHOWN] + (".." if len(shown) > SHOWN else "") + '"'


class Measured(stream_copies.Copier):
    """A reader that counts the bytes of what it reads, and writes it again."""

    def __init__(self, held, types):
        stream_model.Reader.__init__(self, held, types)
        self.has_deltas, self.align = stream_copies.WAYS[DEFAULT_WAY]
        self.written, self.sent, self.columns, self.counts = [], {}, [], {}
        self.messages = self.rows_read = self.metadata = self.padding = 0
        self.schema_bytes = self.batch_bytes = 0

    def take(self, message, batch, body):
        if len(body) > MOST_BODY:
            raise TooLong
        super().take(message, batch, body)
        size = 8 + int.from_bytes(self.stream[self.place + 4:self.place + 8], "little")
        self.messages += 1
        self.metadata += size
        fields = batch.fields if batch else []
        used = batch.buffers[:sum(map(buffers_of, fields))] if batch else []
        self.padding += len(body) - len({at for place, length in used for at in range(place, place + length)})
        self.measure(message, batch, size + len(body), used)

    def measure(self, message, batch, size, used):
        if batch is None:
            self.schema_bytes = size
            self.columns = [0 for it in self.schema.fields]
            self.written = [frames.schema(*map(field_again, self.schema.fields), align=self.align, noted=self.schema.pairs)]
        elif message.code == 2:
            batches, _, length, own = self.counts.get(batch.number, (0, 0, 0, 0))
            self.counts[batch.number] = (batches + 1, self.count(batch.number), length + size, own + sum(it for _, it in used))
        else:
            self.rows_read += batch.length
            self.batch_bytes += size
            used = iter(used)
            for at, field in enumerate(self.schema.fields):
                self.columns[at] += sum(next(used)[1] for _ in range(buffers_of(field)))

    def summary(self):
        marker = 8 * self.is_done
        length, copy = self.place + marker, sum(map(len, self.written)) + 8
        yield f"The stream is sound: {self.messages} messages{' and an end marker' * self.is_done}."
        yield f"schema: {self.schema_bytes} bytes"
        yield f"batches: {self.batches}, {self.rows_read} rows, {self.batch_bytes} bytes"
        for at, (field, count) in enumerate(zip(self.schema.fields, self.columns)):
            yield f"column {at} {quoted(field['name'].decode())}: {count} bytes"
        for number, (batches, values, size, own) in self.counts.items():
            yield f"dictionary {number}: {values} values after {batches} dictionary batches, {size} bytes, {own} in buffers"
        yield f"metadata: {self.metadata + marker} bytes"
        yield f"padding of bodies: {self.padding} bytes"
        yield f"copy: {copy} bytes, " + ("as many" if copy == length else f"{length - copy} fewer" if copy < length else f"{copy - length} more")


def explained(held, types):
    """The text, or None if the stream is rejected. A line that is too long continues in the next one."""
    reader = Measured(held, types)
    return None if reader.run() else "".join(textwrap.fill(it, WIDTH, subsequent_indent="  ", break_long_words=False, break_on_hyphens=False) + "\n" for it in reader.summary())


def streams():
    """The files that are compared."""
    return sorted(it for folder in ("examples", "vectors/streams", "vectors/streams/all") for it in (TOP / folder).glob("*.arrows"))


def answer(program, command, *words):
    return subprocess.run([program, command, *words, "--types", "all"], stdin=subprocess.DEVNULL, capture_output=True)


def differs(program, file):
    """How the program's output for a stream differs, in words, or None."""
    printed = answer(program, "explain", str(file))
    if printed.returncode == 1:
        return None
    try:
        text = explained(file.read_bytes(), schema_model.ALL)
    except TooLong:
        return None
    if text is None or printed.stdout.decode() != text:
        return f"prints\n{printed.stdout.decode()}for\n{text}"
    copied = len(answer(program, "copy", str(file), "-").stdout)
    return None if f"\ncopy: {copied} bytes, " in text else f"has a copy of {copied} bytes for\n{text}"


def compare(program):
    """Prints the differences; returns the status."""
    found = [(it, differs(program, it)) for it in streams()]
    for file, words in found:
        if words is not None:
            print(f"{file.name}: {words}")
    return int(any(words is not None for _, words in found))


def main(words):
    if words[:1] == ["--program"]:
        return compare(words[1])
    print(*(explained(pathlib.Path(it).read_bytes(), schema_model.ALL) for it in words), sep="", end="")
    return 0


if __name__ == "__main__":
    sys.exit(main(sys.argv[1:]))
