"""The constants and statics of a module in Rattle, read from its text, and the places in a text where many bytes are written
out."""
import collections
import re

ITEM = re.compile(r"^(?:pub(?:\(\w+\))? )?(?:const|static) (\w+):[^=]*=", re.M)
TOKEN = re.compile(r"""(?:\s|//[^\n]*)*(?:
    (?P<bytes>b"(?:[^"\\]|\\.)*") | (?P<text>"(?:[^"\\]|\\.)*") | (?P<byte>b'(?:[^'\\]|\\[^']+|\\')') |
    (?P<letter>'(?:[^'\\]|\\[^']+|\\')') | (?P<number>-?\d\w*) | (?P<path>\w+(?:::\w+)*) | (?P<mark>.) | \Z)""", re.X | re.S)
ESCAPES = {"0": "\0", "n": "\n", "r": "\r", "t": "\t"}

# A variant of an enum with its content, or the name of another constant.
Named = collections.namedtuple("Named", "name held")


class Array(list):
    """The values of an array, or the bytes of a byte string, with the place in the text where it begins."""

    def __init__(self, values, place):
        super().__init__(values)
        self.place = place


def unescaped(words):
    def escape(found):
        mark = found[1]
        return chr(int(mark[1:], 16)) if mark[0] == "x" else "" if mark[0] == "\n" else ESCAPES.get(mark, mark)
    return re.sub(r"\\(x..|\n\s*|.)", escape, words, flags=re.S).encode("latin-1")


def integer(word):
    return int(re.sub(r"[iu](8|16|32|64|size)$", "", word).replace("_", ""), 0)


class Reader:
    """Reads the values in a text from a place on."""

    def __init__(self, text, place):
        self.text, self.place = text, place

    def next_token(self):
        return TOKEN.match(self.text, self.place)

    def take(self):
        token = self.next_token()
        self.place = token.end()
        return token.lastgroup, token[token.lastgroup or 0], token.start(token.lastgroup or 0)

    def consumes(self, mark):
        """Whether the next token is this mark, which is then consumed."""
        found = self.next_token()
        if found["mark"] == mark:
            self.place = found.end()
        return found["mark"] == mark

    def several(self, end):
        """Values up to this mark, or one value repeated."""
        values = []
        while not self.consumes(end):
            values.append(self.value())
            if self.consumes(";"):
                values *= self.value()
            elif not self.consumes(",") and self.next_token()["mark"] != end:
                raise ValueError("no value")
        return values

    def fields(self):
        held = {}
        while not self.consumes("}"):
            _, name, _ = self.take()
            if not self.consumes(":"):
                raise ValueError("no field")
            held[name] = self.value()
            self.consumes(",")
        return held

    def value(self):
        kind, word, place = self.take()
        if word == "&":
            return self.value()
        if kind == "bytes":
            return Array(unescaped(word[2:-1]), place)
        if word == "[":
            return Array(self.several("]"), place)
        if word == "(":
            return tuple(self.several(")"))
        if kind == "path":
            return self.fields() if self.consumes("{") else Named(word, self.several(")") if self.consumes("(") else [])
        if kind in ("text", "letter"):
            return word[1:-1]
        if kind == "byte":
            return unescaped(word[2:-1])[0]
        if kind == "number":
            return integer(word)
        raise ValueError("no value")


def constants(text):
    """The values keyed by their names, without those that are calculated."""
    found = {}
    for item in ITEM.finditer(text):
        reader = Reader(text, item.end())
        try:
            value = reader.value()
        except (ValueError, TypeError):
            continue
        if reader.consumes(";"):
            found[item[1]] = value
    return found


def written_out(text, least):
    """The places of the arrays and byte strings in which at least this many bytes are written out, and their numbers of bytes.
    Byte strings that are texts are left out."""
    counts = []  # the beginning of each open array, and its number of bytes so far; None if it has anything else
    for token in TOKEN.finditer(text):
        kind, word = token.lastgroup, token[token.lastgroup or 0]
        if kind == "bytes":
            held = unescaped(word[2:-1])
            if len(held) >= least and not held.decode("latin-1").replace("\n", "").isprintable():
                yield token.start(kind), len(held)
        elif word == "[":
            counts.append([token.start(kind), 0])
        elif word == "]" and counts:
            start, count = counts.pop()
            if count is not None and count >= least:
                yield start, count
        elif counts and kind in ("byte", "number") and counts[-1][1] is not None:
            counts[-1][1] += 1
        elif counts and word != ",":
            counts[-1][1] = None


def places(value):
    """The places where the arrays in a value begin."""
    if isinstance(value, Array):
        yield value.place
    inner = value.values() if isinstance(value, dict) else value if isinstance(value, (list, tuple)) else ()
    for it in inner:
        yield from places(it)
