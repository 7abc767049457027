"""The values in the slots of a column, as Python objects."""
from __future__ import annotations

import copy
import datetime
import decimal
import functools
import re
import struct
from typing import TYPE_CHECKING, Any, Callable, Dict, List, Optional, Tuple

from ._formats import code_of, list_size_of, offset_code_of, scale_of, width_of, zone_of

if TYPE_CHECKING:
    from ._batches import Column

_EPOCH = datetime.datetime(1970, 1, 1)
_UTC = datetime.timezone.utc
_DAY_OF_MICROSECONDS, _DAY_OF_MILLISECONDS = 86_400_000_000, 86_400_000
_MICROSECONDS = {"s": 1_000_000, "m": 1_000, "u": 1}


def values_in(of: "Column", start: int, stop: int) -> List[Any]:
    """The values in these slots."""
    valid = of._valid(start, stop)
    if of.field.dictionary:
        return _looked_up(of, start, stop, valid)
    if of.format == "n":
        return [None] * (stop - start)
    if offset_code_of(of.format):
        return _cut(of, start, stop, valid)
    values = _fixed(of, start, stop)
    return values if valid is None else [value if has else None for value, has in zip(values, valid)]


def _fixed(of: "Column", start: int, stop: int) -> List[Any]:
    """The values in slots of fixed width; the value of a null slot is arbitrary."""
    if of.format == "b":
        return [*of._bits(1, start, stop)]
    if of.format == "+s":
        return _structs(of, start, stop)
    size = list_size_of(of.format)
    if size is not None:
        items = values_in(of.children[0], size * start, size * stop)
        return [items[size * k:size * (k + 1)] for k in range(stop - start)]
    if of.format.startswith(("w:", "d:")):
        width, scale = width_of(of.format), scale_of(of.format)
        found = of._raw(1, width * start, width * stop)
        parts = [found[width * k:width * (k + 1)] for k in range(stop - start)]
        return parts if scale is None else [_decimal(it, scale) for it in parts]
    if of.format in ("tiD", "tin"):
        width = width_of(of.format)
        return [*struct.iter_unpack(f"<{code_of(of.format)}", of._raw(1, width * start, width * stop))]
    numbers = [*of._numbers(start, stop)]
    return [*map(_converter(of.format), numbers)] if of.format[:2] in ("td", "tt", "tD", "ts") else numbers


def _structs(of: "Column", start: int, stop: int) -> List[Dict[str, Any]]:
    names = [it.name for it in of.field.children]
    if len({*names}) < len(names):
        raise ValueError(f"no dict has all values, since several fields have one name: {', '.join(map(repr, names))}")
    columns = [values_in(it, start, stop) for it in of.children]
    return [dict(zip(names, row)) for row in zip(*columns)] if columns else [{} for _ in range(start, stop)]


def _entries(of: "Column", start: int, stop: int) -> List[Optional[Tuple[Any, Any]]]:
    """The entries of maps, each a tuple of its key and its value, whatever their names are, or None if it is null."""
    valid = of._valid(start, stop)
    keys, values = (values_in(it, start, stop) for it in of.children)
    return [pair if valid is None or valid[k] else None for k, pair in enumerate(zip(keys, values))]


def _cut(of: "Column", start: int, stop: int, valid: Optional[List[bool]]) -> List[Any]:
    """Texts, byte strings, lists or maps: the items between one offset and the next. Nothing is read for a null slot."""
    ends = of._offsets(start, stop)
    first, last = ends[0], ends[-1]
    inside: Any
    if of.format in "uUzZ":
        inside = of._raw(2, first, last)
    else:
        inside = (_entries if of.format == "+m" else values_in)(of.children[0], first, last)
    parts: List[Any] = [inside[ends[k] - first:ends[k + 1] - first] for k in range(stop - start)]
    if valid is not None:
        parts = [part if has else None for part, has in zip(parts, valid)]
    return [part if part is None else part.decode() for part in parts] if of.format in "uU" else parts


def _looked_up(of: "Column", start: int, stop: int, valid: Optional[List[bool]]) -> List[Any]:
    """The values that indices refer to. If the dictionary is far longer than the part of it that is used, only that part is converted."""
    indices = of._numbers(start, stop)
    dictionary, used = of.dictionary, {it for k, it in enumerate(indices) if valid is None or valid[k]}
    assert dictionary is not None
    values: Any = values_in(dictionary, 0, len(dictionary)) if len(used) * 8 >= len(dictionary) else {
        it: values_in(dictionary, it, it + 1)[0] for it in used}
    # each row gets its own list or dict
    one = copy.deepcopy if dictionary.format.startswith("+") else lambda value: value
    return [one(values[it]) if valid is None or valid[k] else None for k, it in enumerate(indices)]


def _decimal(held: bytes, scale: int) -> decimal.Decimal:
    """A decimal from the bytes of its unscaled integer, exactly, whatever the context is."""
    return decimal.Decimal(f"{int.from_bytes(held, 'little', signed=True)}e{-scale}")


# ---- dates and times


def _converter(format: str) -> Callable[[int], Any]:
    """A function that converts a number of units to a Python object, or returns the number itself if there is none that is exact."""
    if format.startswith("td"):
        return _date if format == "tdD" else _date_of_milliseconds
    make = {"tt": _time, "tD": _duration, "ts": _timestamp(zone_of(format))}[format[:2]]
    unit = format[2]

    def convert(number: int) -> Any:
        if unit == "n" and number % 1000:
            return number
        try:
            found = make(number // 1000 if unit == "n" else number * _MICROSECONDS[unit])
        except (OverflowError, ValueError):
            return number
        return number if found is None else found
    return convert


def _date(days: int) -> Any:
    try:
        return _EPOCH.date() + datetime.timedelta(days=days)
    except OverflowError:
        return days


def _date_of_milliseconds(number: int) -> Any:
    days, rest = divmod(number, _DAY_OF_MILLISECONDS)
    found = _date(days)
    return found if not rest and isinstance(found, datetime.date) else number


def _time(microseconds: int) -> Optional[datetime.time]:
    if not 0 <= microseconds < _DAY_OF_MICROSECONDS:
        return None
    return (_EPOCH + datetime.timedelta(microseconds=microseconds)).time()


def _duration(microseconds: int) -> datetime.timedelta:
    return datetime.timedelta(microseconds=microseconds)


def _timestamp(name: Optional[str]) -> Callable[[int], datetime.datetime]:
    if name is None:
        return lambda microseconds: _EPOCH + datetime.timedelta(microseconds=microseconds)
    zone, epoch = _zone(name), _EPOCH.replace(tzinfo=_UTC)
    return lambda microseconds: (epoch + datetime.timedelta(microseconds=microseconds)).astimezone(zone)


@functools.lru_cache(maxsize=256)
def _zone(name: str) -> datetime.tzinfo:
    """The zone with this name or offset; UTC if it is not known."""
    offset = re.fullmatch(r"([+-])(\d\d):(\d\d)", name)
    try:
        if offset:
            size = datetime.timedelta(hours=int(offset[2]), minutes=int(offset[3]))
            return datetime.timezone(-size if offset[1] == "-" else size)
        if re.fullmatch(r"[A-Za-z0-9_+-]+(/[A-Za-z0-9_+-]+)*", name):
            import zoneinfo
            return zoneinfo.ZoneInfo(name)
    except (KeyError, ValueError, OSError):
        pass
    return _UTC
