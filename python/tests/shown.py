"""The values of a column from its buffers, read here without the package's own code for that, and the text that `arrowflow show`
prints for them."""
import datetime
import decimal
import re
import struct

NUMBERS = {"c": "b", "C": "B", "s": "h", "S": "H", "i": "i", "I": "I", "l": "q", "L": "Q", "e": "e", "f": "f", "g": "d", "tdD": "i",
           "tdm": "q", "tts": "i", "ttm": "i", "ttu": "q", "ttn": "q", "tiM": "i"}
WIDTHS = {"b": 1, "h": 2, "i": 4, "q": 8, "e": 2, "f": 4, "d": 8}
# The numbers of an interval, each with its size in bytes and its letters in `show`.
INTERVALS = {"tiM": ((4, "M"),), "tiD": ((4, "d"), (4, "ms")), "tin": ((4, "M"), (4, "d"), (8, "ns"))}
OFFSETS = {"z": 4, "u": 4, "+l": 4, "+m": 4, "Z": 8, "U": 8, "+L": 8}
EPOCH = datetime.datetime(1970, 1, 1)
A_SECOND = {"s": 1, "m": 1000, "u": 1000_000, "n": 1000_000_000}
# A floating-point number as a field, as part of a list or of a struct.
FLOAT = re.compile(rb"-?(\d+\.\d+(e-?\d+)?|\d+e-?\d+|inf)|NaN")
# A record whose last field ends with the line; inside quotes a line may go on.
FIRST_RECORD = re.compile(rb'(?:[^"\n]|"(?:[^"]|"")*")*\n?')


class Buffers:
    """A column with its buffers, each asked for once."""

    def __init__(self, column):
        self.format, self.slots, self.buffers = column.format, len(column), column.buffers()
        self.names = [it.name for it in column.children]
        self.children = [Buffers(it) for it in column.children]
        self.dictionary = column.dictionary and Buffers(column.dictionary)

    def number(self, buffer, width, i, signed):
        return int.from_bytes(self.buffers[buffer][width * i:width * (i + 1)], "little", signed=signed)

    def has_value(self, i):
        return self.format != "n" and (self.buffers[0] is None or self.buffers[0][i // 8] >> i % 8 & 1)

    def value(self, i):
        """What a slot holds: None, a bool, a number of units, a float, a decimal, bytes, a str, a list, or a tuple of a struct's
        values or of an interval's numbers."""
        if not self.has_value(i):
            return None
        if self.format == "b":
            return bool(self.buffers[1][i // 8] >> i % 8 & 1)
        if self.format == "+s":
            return tuple(it.value(i) for it in self.children)
        if self.format in OFFSETS:
            return self.between(*(self.number(1, OFFSETS[self.format], j, False) for j in (i, i + 1)))
        if self.format.startswith("+w:"):
            size = int(self.format[3:])
            return self.between(size * i, size * (i + 1))
        if self.format.startswith("w:"):
            width = int(self.format[2:])
            return bytes(self.buffers[1][width * i:width * (i + 1)])
        if self.format in ("tiD", "tin"):
            return tuple(self.numbers_of(i))
        if self.format.startswith("d:"):
            _, scale, *bits = map(int, self.format[2:].split(","))
            number = self.number(1, bits[0] // 8 if bits else 16, i, True)
            return decimal.Decimal((number < 0, tuple(map(int, str(abs(number)))), -scale))
        code = NUMBERS.get(self.format, "q")
        if code in "efd":
            return struct.unpack_from(f"<{code}", self.buffers[1], WIDTHS[code] * i)[0]
        number = self.number(1, WIDTHS[code.lower()], i, code.islower())
        return self.dictionary.value(number) if self.dictionary else number

    def numbers_of(self, i):
        """The numbers of an interval, one after another in its slot."""
        widths = [width for width, _ in INTERVALS[self.format]]
        at = sum(widths) * i
        for width in widths:
            yield int.from_bytes(self.buffers[1][at:at + width], "little", signed=True)
            at += width

    def between(self, start, end):
        if self.format.startswith("+"):
            return [self.children[0].value(j) for j in range(start, end)]
        text = bytes(self.buffers[2][start:end])
        return text.decode() if self.format in "uU" else text


def units_of(value, format):
    """The number of units that a value of Python's is; any other value is returned unchanged."""
    if isinstance(value, datetime.datetime):
        naive = value.astimezone(datetime.timezone.utc).replace(tzinfo=None) if value.tzinfo else value
        value = naive - EPOCH
    elif isinstance(value, datetime.date):
        days = (value - EPOCH.date()).days
        return days if format == "tdD" else days * 86_400_000
    elif isinstance(value, datetime.time):
        value = datetime.datetime.combine(EPOCH, value) - EPOCH
    if not isinstance(value, datetime.timedelta):
        return value
    microseconds = value // datetime.timedelta(microseconds=1)
    return microseconds * A_SECOND[format[2]] // 1000_000


def plain(value, field):
    """A value from the package in the form of Buffers: units, and tuples for structs."""
    if field.dictionary:
        return plain(value, field.dictionary)
    if isinstance(value, dict):
        if [*value] != [it.name for it in field.children]:
            return value
        return tuple(plain(part, it) for part, it in zip(value.values(), field.children))
    if isinstance(value, list):
        return [plain(it, field.children[0]) for it in value]
    # the entry of a map
    if isinstance(value, tuple) and field.format == "+s":
        return tuple(plain(part, it) for part, it in zip(value, field.children))
    return units_of(value, field.format)


def has_one_name_twice(field):
    """Whether a struct in a field has one name twice, so that it cannot be a dict."""
    below = [*field.children, *([field.dictionary] if field.dictionary else [])]
    names = [it.name for it in field.children]
    return len({*names}) < len(names) or any(map(has_one_name_twice, below))


# ---- texts


def single(number):
    """The fewest digits that read back as a number of 32 bits."""
    if number != number or number in (float("inf"), float("-inf")):
        return repr(number)
    bits = struct.pack("<f", number)
    tried = (f"{number:.{more}e}" for more in range(17))
    # one that is rounded up may be greater than the largest number of 32 bits
    return repr(next(float(it) for it in tried if abs(float(it)) < 3.4028235677973366e38 and struct.pack("<f", float(it)) == bits))


def text_of(value, of, null):
    """The text of a value of a column's Buffers."""
    if value is None:
        return null
    if of.dictionary:
        return text_of(value, of.dictionary, null)
    if isinstance(value, bool):
        return str(value).lower()
    if isinstance(value, bytes):
        return value.hex()
    if isinstance(value, float):
        text = repr(value) if of.format == "g" else single(value)
        return {"nan": "NaN"}.get(text, text)
    if isinstance(value, decimal.Decimal):
        sign, digits, power = value.as_tuple()
        return f"{value:f}" if power <= 0 else f"{'-' * sign}{''.join(map(str, digits))}e{power}"
    if of.format in INTERVALS:
        numbers = value if isinstance(value, tuple) else (value,)
        return "".join(f"{number}{letters}" for number, (_, letters) in zip(numbers, INTERVALS[of.format]))
    if isinstance(value, list):
        return "[" + ";".join(text_of(it, of.children[0], "null") for it in value) + "]"
    if isinstance(value, tuple):
        parts = zip(of.names, value, of.children)
        return "{" + ";".join(f"{name}={text_of(it, child, 'null')}" for name, it, child in parts) + "}"
    return str(value)


def quoted(text):
    return '"' + text.replace('"', '""') + '"' if re.search('[,"\r\n]', text) else text


def records(names, batches):
    """The records of batches, each given as a list of columns' Buffers and a number of rows."""
    lines = [",".join(map(quoted, ["batch", *names]))]
    for number, (columns, rows) in enumerate(batches):
        for i in range(rows):
            lines.append(",".join([str(number), *(quoted(text_of(it.value(i), it, "")) for it in columns)]))
    return "".join(f"{line}\n" for line in lines).encode()


def has_floats(field):
    """Whether a field, or one below it, has floating-point numbers."""
    return field.format in "efg" or any(map(has_floats, [*field.children, *([field.dictionary] if field.dictionary else [])]))


def numbers_alike(found, expected, schema):
    """Two texts of records. If the schema has floating-point numbers, each is written in one way. If one of the expected names
    has a zero byte, which ends a name in the Arrow C data interface, the names are left out."""
    start = [FIRST_RECORD.match(it).end() for it in (found, expected)]
    if b"\0" not in expected[:start[1]]:
        start = [0, 0]
    texts = [text[at:] for text, at in zip((found, expected), start)]
    if any(map(has_floats, schema)):
        texts = [FLOAT.sub(lambda it: repr(float(it[0])).encode(), it) for it in texts]
    return texts
