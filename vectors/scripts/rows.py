"""The streams of the file ROWS: frames with changes, for which the model gives a reader's answers, but which are not vectors of
their own. They go only to the program in crates/arrow_conformance."""
import pathlib
import re

HERE = pathlib.Path(__file__).resolve().parent

from tools import custom_metadata, frames, streams, typed_schemas
from tools.frame_parts import Stream, split
import changes
import raw_frames
import results

ALONE = {"ONE_COLUMN": frames.ONE_COLUMN, "ONE_BATCH": frames.ONE_BATCH, "END": frames.END_MARKER}
FOREIGN = "arrow_meta_reader_tests/src/foreign.rt"


def frame(name):
    """The bytes of a frame, by its name or by that of its module and its own; for a frame without a body whose name ends with
    @64, at an alignment of 64."""
    if name.endswith("@64"):
        return raw_frames.metadata_frame(frames.metadata_in(frame(name.removesuffix("@64"))), 64)
    module, _, word = name.rpartition(".")
    if not module:
        return ALONE[word]
    if module == "foreign":
        return raw_frames.metadata_frame(raw_frames.of_another_writer(FOREIGN)[word])
    if module == "typed":
        return typed_schemas.frames()[word]
    held = {"noted": custom_metadata.held_frames, "written": streams.written}.get(module, lambda: streams.TESTED[module][1])()
    return held[word][1]


class Frames:
    """Frames one after the other, and perhaps bytes in hexadecimal after an x. A frame is named by its own word in small letters;
    one that occurs again, and each further frame of a written stream, has its number after that. A byte of it, as of each of
    its parts, is named by its index."""

    def __init__(self, words):
        named, self.tail = {}, b""
        for it in words.split():
            if it.startswith("x"):
                self.tail = bytes.fromhex(it.removeprefix("x"))
                continue
            word, held = re.sub(r"\W", "_", it.rpartition(".")[2].lower()), frame(it)
            for each in split(held) if it.startswith("written.") else [held]:
                again = sum(re.fullmatch(rf"{word}(_\d+)?", name) is not None for name in named)
                named[f"{word}_{again + 1}" if again else word] = each
        self.stream, place = Stream(**named), 0
        for name, held in named.items():
            self.stream.parts[name] = range(place, place + len(held))
            place += len(held)

    def changed(self, words):
        """The bytes with these changes, each `PART := HEX`, or cut by `length N` or `from N`."""
        its = [] if words == "as they are" else words.split(", ")
        held = self.stream.changed(dict(it.split(" := ") for it in its if " := " in it)) + self.tail
        for it in its:
            if it.startswith("length "):
                held = held[:int(it.removeprefix("length "))]
            elif it.startswith("from "):
                held = held[int(it.removeprefix("from ")):]
        return held


def joined(words):
    """Frames one after the other, with the changes that follow their names."""
    names, _, changes_of = words.partition(": ")
    return Frames(names).changed(changes_of or "as they are")


class Family:
    """Changes of frames for which only the end is given. The frames may be changed themselves, after their names."""

    def __init__(self, words):
        names, _, changes_of = words.partition(": ")
        self.frames, self.always = Frames(names), changes_of and f"{changes_of}, "
        self.held = self.frames.changed(changes_of or "as they are")

    def ending(self, words):
        return results.ending(self.frames.changed(self.always + words))

    def lines(self, about, words):
        """The lines for one change, or for a byte that is set to each of some values."""
        settings = [it.split(" := ") for it in words.split(", ")]
        if ".." not in words:
            its = ", and at ".join(f"{self.frames.stream.place(part)} := {digits}" for part, digits in settings)
            return [f"{about} at {its} -> {self.ending(words)}"]
        part, values = settings[0]
        first, last = (int(it, 16) for it in values.split(".."))

        def line(first, last):
            return f"{about} at {self.frames.stream.place(part)} := {first:02x}" + (f"..{last:02x}" if last > first else "")
        return changes.ranges(((it, self.ending(f"{part} := {it:02x}")) for it in range(first, last + 1)), line)


def text(about, held):
    return f"{about}\nbinds own\n{results.answers(held)}".encode(), held


def texts():
    """The text and the bytes of each row, keyed by its name, which has the number of its line. Rows below `ends` are a family of
    changes, whose base has its name without the end; what a row is copied to has no text."""
    found, its, family, last = {}, None, None, None
    for number, line in enumerate((HERE / "ROWS").read_text(encoding="utf-8").split("\n"), 1):
        word, _, rest = line.partition(" ")
        name = f"ROWS.{number}"
        if word == "frames":
            its, family = Frames(rest), None
        elif word == "ends":
            its, family = Family(rest), f"{name}.changes"
            found[name] = text("what the changes below it are of", its.held)
            found[family] = f"changes with the expected end\nbase {name}\n".encode(), b""
        elif word == "copied":
            way, _, names = rest.partition(": ")
            found[f"{last}.copy{way}"] = b"", joined(names)
        elif line and not line.startswith("#"):
            about, words = line.split(": ")
            if family:
                found[family] = found[family][0] + "".join(f"{it}\n" for it in its.lines(about, words)).encode(), b""
            else:
                found[name], last = text(about, its.changed(words)), name
    return found
