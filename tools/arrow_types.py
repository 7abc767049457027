"""The types of Schema.fbs that this project has, a row each: scripts read here what a type is.

A type has a table, and the values of the table's fields are its parameters. Each choice of them that is allowed has a Form.
"""
import dataclasses
import functools
import struct
from typing import Any, Callable, Optional

TEXT = "text"
UNITS = "s", "ms", "us", "ns"
# For each number of bits of decimals the greatest number of digits; and the greatest distance of the point from the last digit,
# either way.
DIGITS = {32: 9, 64: 18, 128: 38, 256: 76}
FARTHEST = 76

# Layouts: the buffers of a column after the validity. NUMBERS and FIXED have slots of one width, BYTES, TEXTS and LISTS offsets;
# FIXED_LISTS, whose lists have one size, and STRUCTS have no further buffers.
NULLS, BITS, NUMBERS, FIXED, BYTES, TEXTS = "nulls", "bits", "numbers", "fixed", "bytes", "texts"
LISTS, FIXED_LISTS, STRUCTS = "lists", "fixed lists", "structs"
WITH_OFFSETS = BYTES, TEXTS, LISTS


@dataclasses.dataclass(frozen=True)
class Field:
    """A field of a type's table: its width in bytes, or TEXT, and its value if it is absent."""
    name: str
    width: Any
    default: Any

    @property
    def letter(self):
        """The format of its number for the module struct."""
        return {1: "B", 2: "h", 4: "i"}[self.width]


@dataclasses.dataclass(frozen=True)
class Form:
    """A type with its parameters: the name that `arrowflow schema` prints, the format string in the C data interface, and the
    layout. `slot` is the little-endian format, for the module struct, of a slot's numbers or bytes, or of an offset; bytes of
    NUMBERS are one signed number, for which the module has no format. `text` returns what `arrowflow show` prints for a slot's
    numbers, except for floating point. `size` is the number of items in each list of FIXED_LISTS."""
    printed: str
    format: str
    layout: str
    slot: str = ""
    text: Callable[..., str] = "{}".format
    size: int = 0

    @property
    def width(self):
        """The bytes of a slot, or of an offset."""
        return struct.calcsize("<" + self.slot)

    @property
    def is_wide(self):
        """Whether a slot is one number of more bytes than the module struct has a format for."""
        return self.layout == NUMBERS and self.slot.endswith("s")

    @property
    def numbers(self):
        """For each number of a slot its size in bytes, and whether it has a sign."""
        return [(self.width, True)] if self.is_wide else [(struct.calcsize("<" + it), it.islower()) for it in self.slot]

    def packed(self, value):
        """The bytes of a slot, from a number or bytes, or from a tuple of these."""
        its = value if isinstance(value, tuple) else (value,)
        return its[0].to_bytes(self.width, "little", signed=True) if self.is_wide else struct.pack("<" + self.slot, *its)

    def unpacked(self, held, at):
        """The numbers in a slot of these bytes, or its bytes, as a tuple."""
        its = struct.unpack_from("<" + self.slot, held, self.width * at)
        return (int.from_bytes(its[0], "little", signed=True),) if self.is_wide else its


@dataclasses.dataclass(frozen=True)
class Type:
    """A type by its name and its code in the union Type. `form` returns the Form of parameters, or None if they are not allowed;
    `cases` are all that are allowed, or some if they are many. `children` is None if any number is allowed. `entry_fields` is
    the number of fields that the child has, which then is a struct that is not dictionary-encoded; None if a child may have
    any type."""
    name: str
    code: int
    form: Callable[[tuple], Optional[Form]]
    cases: tuple
    fields: tuple = ()
    children: Optional[int] = 0
    is_core: bool = True
    entry_fields: Optional[int] = None


def closed(name, code, forms, *fields, **how):
    """A type whose parameters are few."""
    return Type(name, code, forms.get, (*forms,), fields, **how)


def single(name, code, printed, *form, **how):
    """A type without parameters."""
    return closed(name, code, {(): Form(printed, *form)}, **how)


def integers():
    kinds = [(bits, signed) for bits in (8, 16, 32, 64) for signed in (True, False)]
    return {(bits, signed): Form(f"{'' if signed else 'u'}int{bits}", format, NUMBERS, slot)
            for (bits, signed), format, slot in zip(kinds, "cCsSiIlL", "bBhHiIqQ")}


def timestamp(values):
    unit, zone = values
    if unit not in range(4):
        return None
    zone = None if zone is None else zone.decode()
    return Form(f"timestamp[{UNITS[unit]}{'' if zone is None else f', {zone}'}]", f"ts{UNITS[unit][0]}:{zone or ''}", NUMBERS, "q")


def decimal(values):
    precision, scale, width = values
    if not 1 <= precision <= DIGITS.get(width, 0) or abs(scale) > FARTHEST:
        return None
    return Form(f"decimal{width}({precision}, {scale})", f"d:{precision},{scale}{'' if width == 128 else f',{width}'}", NUMBERS,
        {32: "i", 64: "q"}.get(width, f"{width // 8}s"), functools.partial(decimal_text, scale))


def decimal_text(scale, number):
    """A whole number times 10 to the power of minus the scale, with at least one digit before the point."""
    sign, digits = "-" * (number < 0), str(abs(number))
    if scale < 0:
        return f"{sign}{digits}e{-scale}"
    digits = digits.zfill(scale + 1)
    point = len(digits) - scale
    return f"{sign}{digits[:point]}{'.' * (scale > 0)}{digits[point:]}"


def decimals():
    """For each width the least and the greatest precision, with scales at all edges."""
    return tuple((precision, scale, width) for width, most in DIGITS.items() for precision in (1, most)
        for scale in (-FARTHEST, -3, 0, 2, FARTHEST))


def fixed_size_binary(values):
    width, = values
    return Form(f"fixed_size_binary[{width}]", f"w:{width}", FIXED, f"{width}s") if width >= 0 else None


def fixed_size_list(values):
    size, = values
    return Form(f"fixed_size_list[{size}]", f"+w:{size}", FIXED_LISTS, size=size) if size >= 0 else None


TYPES = (
    single("Null", 1, "null", "n", NULLS),
    closed("Int", 2, integers(), Field("bit_width", 4, 0), Field("is_signed", 1, False)),
    closed("FloatingPoint", 3, {
        (0,): Form("halffloat", "e", NUMBERS, "H"), (1,): Form("float", "f", NUMBERS, "I"), (2,): Form("double", "g", NUMBERS, "Q"),
    }, Field("precision", 2, 0), is_core=False),
    single("Binary", 4, "binary", "z", BYTES, "i"),
    single("Utf8", 5, "utf8", "u", TEXTS, "i"),
    single("Bool", 6, "bool", "b", BITS),
    Type("Decimal", 7, decimal, decimals(), (Field("precision", 4, 0), Field("scale", 4, 0), Field("bit_width", 4, 128)), is_core=False),
    closed("Date", 8, {
        (0,): Form("date[day]", "tdD", NUMBERS, "i"), (1,): Form("date[ms]", "tdm", NUMBERS, "q"),
    }, Field("unit", 2, 1)),
    closed("Time", 9, {
        (0, 32): Form("time[s]", "tts", NUMBERS, "i"), (1, 32): Form("time[ms]", "ttm", NUMBERS, "i"),
        (2, 64): Form("time[us]", "ttu", NUMBERS, "q"), (3, 64): Form("time[ns]", "ttn", NUMBERS, "q"),
    }, Field("unit", 2, 1), Field("bit_width", 4, 32)),
    Type("Timestamp", 10, timestamp, tuple((unit, zone) for unit in range(4) for zone in (None, b"", b"UTC")),
        (Field("unit", 2, 0), Field("timezone", TEXT, None))),
    closed("Interval", 11, {
        (0,): Form("month_interval", "tiM", NUMBERS, "i", "{}M".format),
        (1,): Form("day_time_interval", "tiD", NUMBERS, "ii", "{}d{}ms".format),
        (2,): Form("month_day_nano_interval", "tin", NUMBERS, "iiq", "{}M{}d{}ns".format),
    }, Field("unit", 2, 0), is_core=False),
    single("List", 12, "list", "+l", LISTS, "i", children=1),
    single("Struct_", 13, "struct", "+s", STRUCTS, children=None),
    Type("FixedSizeBinary", 15, fixed_size_binary, ((0,), (3,), (16,), (2 ** 31 - 1,)), (Field("byte_width", 4, 0),)),
    Type("FixedSizeList", 16, fixed_size_list, ((0,), (1,), (3,), (2 ** 31 - 1,)), (Field("list_size", 4, 0),), children=1, is_core=False),
    closed("Map", 17, {(False,): Form("map", "+m", LISTS, "i"), (True,): Form("map[sorted]", "+m", LISTS, "i")},
        Field("keys_sorted", 1, False), children=1, is_core=False, entry_fields=2),
    closed("Duration", 18, {(at,): Form(f"duration[{it}]", f"tD{it[0]}", NUMBERS, "q") for at, it in enumerate(UNITS)},
        Field("unit", 2, 1)),
    single("LargeBinary", 19, "large_binary", "Z", BYTES, "q"),
    single("LargeUtf8", 20, "large_utf8", "U", TEXTS, "q"),
    single("LargeList", 21, "large_list", "+L", LISTS, "q", children=1),
)
BY_CODE = {it.code: it for it in TYPES}
BY_NAME = {it.name: it for it in TYPES}
INT, FLOATING, DECIMAL, STRUCT, FIXED_SIZE_LIST, MAP = (
    BY_NAME[it] for it in ("Int", "FloatingPoint", "Decimal", "Struct_", "FixedSizeList", "Map"))
