"""The meaning of the format strings of the Arrow C data interface, for the types that are supported."""
from __future__ import annotations

import struct
from typing import Optional, Tuple

_UNITS = {"s": "s", "m": "ms", "u": "us", "n": "ns"}
_WORDS = {
    "n": "null", "b": "bool", "c": "int8", "C": "uint8", "s": "int16", "S": "uint16", "i": "int32", "I": "uint32", "l": "int64",
    "L": "uint64", "e": "halffloat", "f": "float", "g": "double", "z": "binary", "Z": "large_binary", "u": "utf8", "U": "large_utf8",
    "+l": "list", "+L": "large_list", "+s": "struct", "+m": "map", "tdD": "date[day]", "tdm": "date[ms]",
    "tiM": "month_interval", "tiD": "day_time_interval", "tin": "month_day_nano_interval"}
# How the module `struct` unpacks the numbers of a slot, without the byte order.
_CODES = {"c": "b", "C": "B", "s": "h", "S": "H", "i": "i", "I": "I", "l": "q", "L": "Q", "e": "e", "f": "f", "g": "d",
          "tdD": "i", "tdm": "q", "tts": "i", "ttm": "i", "ttu": "q", "ttn": "q", "tiM": "i", "tiD": "ii", "tin": "iiq"}
_OFFSETS = {"z": "i", "u": "i", "+l": "i", "+m": "i", "Z": "q", "U": "q", "+L": "q"}


def words_of(format: str) -> str:
    """A type as `arrowflow schema` prints it: int32, timestamp[us, Europe/Berlin], fixed_size_binary[7], fixed_size_list[3],
    decimal128(9, 2)."""
    if format in _WORDS:
        return _WORDS[format]
    if format.startswith("d:"):
        digits, scale, bits = _decimal(format)
        return f"decimal{bits}({digits}, {scale})"
    if format.startswith("w:"):
        return f"fixed_size_binary[{format[2:]}]"
    if format.startswith("+w:"):
        return f"fixed_size_list[{format[3:]}]"
    name = {"tt": "time", "ts": "timestamp", "tD": "duration"}[format[:2]]
    zone = zone_of(format)
    return f"{name}[{_UNITS[format[2]]}" + (f", {zone}]" if zone else "]")


def zone_of(format: str) -> Optional[str]:
    """The time zone of a timestamp, or None if it has none."""
    return format[4:] or None if format.startswith("ts") else None


def scale_of(format: str) -> Optional[int]:
    """How many digits of a decimal are after the point, or, if negative, how many zeros follow its digits; None for another type."""
    return _decimal(format)[1] if format.startswith("d:") else None


def list_size_of(format: str) -> Optional[int]:
    """The number of items of each list, for fixed-size lists; None for another type."""
    return int(format[3:]) if format.startswith("+w:") else None


def _decimal(format: str) -> Tuple[int, int, int]:
    """The maximum number of digits of a decimal, its scale, and its bits, which are 128 if the format does not give them."""
    digits, scale, bits = (*map(int, format[2:].split(",")), 128)[:3]
    return digits, scale, bits


def code_of(format: str) -> Optional[str]:
    """How the module `struct` unpacks the numbers of a slot of this format, or None if slots have no numbers."""
    return "q" if format[:2] in ("ts", "tD") else _CODES.get(format)


def width_of(format: str) -> int:
    """The bytes of a slot in the second buffer, if all slots have the same number of bytes; otherwise 0."""
    if format.startswith("w:"):
        return int(format[2:])
    if format.startswith("d:"):
        return _decimal(format)[2] // 8
    code = code_of(format)
    return struct.calcsize(f"<{code}") if code else 0


def offset_code_of(format: str) -> Optional[str]:
    """How the module `struct` unpacks an offset, or None if there are none."""
    return _OFFSETS.get(format)


def offset_width_of(format: str) -> int:
    """The bytes of an offset, or 0 if there are none."""
    code = offset_code_of(format)
    return struct.calcsize(f"<{code}") if code else 0
