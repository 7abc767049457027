"""A connection that breaks: what a writer sends of an example stream, and what a reader has of it after each message.

Offsets, rows and dictionaries are those that the model in tools/ reads from the bytes of the stream: from all of them for the
writer, and from those delivered for the reader. The stream is laid out as `arrowflow drill --align 8` sends it, so each frame has
exactly these offsets.
"""
import dataclasses
import os

from tools import stream_model
import svg

TOP = os.path.dirname(os.path.dirname(os.path.dirname(os.path.abspath(__file__))))

NAME, DELIVERED = "examples/growing_dictionary.arrows", 975
LEFT, WIDE, TOP_OF_BOXES, HIGH, RIGHT = 168, 100, 96, 58, 40
# The vertical positions of the rows under the boxes.
WRITER, CUT, READER, RETURNED = 186, 216, 252, 282
HEIGHT = 336
ROWS = ((TOP_OF_BOXES - 12, "at byte"), (TOP_OF_BOXES + 34, "sent"), (WRITER, "the writer's dictionary"),
        (READER, "the reader's dictionary"), (RETURNED, "handed out"))


@dataclasses.dataclass(frozen=True)
class Message:
    """A message: where it begins and ends, its kind as a word, more about it, and the dictionary after it."""
    start: int
    end: int
    kind: str
    more: str
    dictionary: str


def values(columns):
    """The values of a dictionary, or a dash if there are none yet."""
    return " ".join(column.text(at) for column in columns for at in range(column.length)) if columns else "–"


def messages(held):
    """The complete messages in these bytes, and the kind of the ending."""
    reader, found = stream_model.Reader(held), []
    while True:
        start, known, batches = reader.place, list(reader.dictionaries.get(0, [])), reader.batches
        goes_on = reader.message()
        if not goes_on and not reader.is_done:
            return found, "Truncated" if len(held) > reader.place else "Clean"
        now = reader.dictionaries.get(0, [])
        if not goes_on:
            kind, more = "end marker", ""
        elif not found:
            kind, more = "schema", "k: text"
        elif reader.batches > batches:
            _, rows, (column,) = reader.records[-1]
            kind, more = f"batch {batches}", " ".join(column.text(at) for at in range(rows))
        elif now[: len(known)] == known and known:
            kind, more = "delta", f"+ {values(now[len(known):])}"
        else:
            kind, more = "dictionary", values(now)
        found.append(Message(start, reader.place if goes_on else start + 8, kind, more, values(now)))
        if not goes_on:
            return found, "Clean"


def fill_of(kind):
    """The colours of a message."""
    if kind.startswith("batch"):
        return "green-fill", "green"
    return ("blue-fill", "blue") if kind in ("dictionary", "delta") else ("ground", "faint")


def picture():
    with open(f"{TOP}/{NAME}", "rb") as it:
        held = it.read()
    sent, _ = messages(held)
    got, ending = messages(held[:DELIVERED])
    broken = sent[len(got)]
    width = LEFT + WIDE * len(sent) + RIGHT
    cut = LEFT + WIDE * (len(got) + (DELIVERED - broken.start) / (broken.end - broken.start))
    parts = [svg.text(24, 34, f"{DELIVERED} of {len(held)} bytes are delivered", size=15, anchor="start", is_bold=True)]
    parts += [svg.text(24, y, words, "faint", anchor="start") for y, words in ROWS]
    for at, it in enumerate(sent):
        x, is_there = LEFT + WIDE * at, at < len(got)
        middle = x + WIDE / 2
        parts.append(svg.box(x + 2, TOP_OF_BOXES, WIDE - 4, HIGH, *fill_of(it.kind), is_dashed=not is_there))
        parts.append(svg.text(x, TOP_OF_BOXES - 12, str(it.start), "faint", is_mono=True))
        parts.append(svg.text(middle, TOP_OF_BOXES + 25, it.kind, "text" if is_there else "faint", is_bold=is_there))
        parts.append(svg.text(middle, TOP_OF_BOXES + 44, it.more, "text" if is_there else "faint", is_mono=True))
        parts.append(svg.text(middle, WRITER, it.dictionary, is_mono=True))
        if is_there:
            parts.append(svg.text(middle, READER, got[at].dictionary, is_mono=True))
            returned = f"{it.kind}: {it.more}" if it.kind.startswith("batch") else ""
            parts.append(svg.text(middle, RETURNED, returned, "green") if returned else "")
    parts.append(svg.text(LEFT + WIDE * len(sent), TOP_OF_BOXES - 12, str(len(held)), "faint", is_mono=True))
    # what came over the connection, and what did not
    parts.append(svg.line(LEFT, CUT, cut, CUT, "green", 3))
    parts.append(svg.line(cut, CUT, LEFT + WIDE * len(sent), CUT, "faint", 1, is_dashed=True))
    parts.append(svg.line(cut, TOP_OF_BOXES - 46, cut, TOP_OF_BOXES - 26, "red", 2))
    parts.append(svg.line(cut, TOP_OF_BOXES - 6, cut, RETURNED + 6, "red", 2))
    parts.append(svg.text(cut + 8, TOP_OF_BOXES - 36, f"the connection breaks at {DELIVERED}", "red", anchor="start"))
    caption = f"{ending} at {broken.start}: {DELIVERED - broken.start} bytes of {broken.kind} came, and nothing of it is handed out"
    parts.append(svg.text(LEFT + WIDE * len(got) + 10, RETURNED + 30, caption, "red", anchor="middle"))
    return svg.picture(width, HEIGHT, title(len(held), got, ending, broken), *parts)


def title(size, got, ending, broken):
    batches = [it for it in got if it.kind.startswith("batch")]
    return (f"Of {size} bytes that a writer sends in eight messages {DELIVERED} are delivered. The reader hands out {len(batches)} batch of "
            f"three, has the dictionary {got[-1].dictionary}, and ends {ending} at {broken.start}.")
