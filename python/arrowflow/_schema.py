"""The schema of a stream."""
from __future__ import annotations

import ctypes
import struct
from typing import Any, Dict, Iterator, Optional, Sequence, Tuple, TypeVar, Union

from ._formats import words_of, zone_of
from ._library import ArrowSchema

_ORDERED, _NULLABLE, _KEYS_SORTED = 1, 2, 4
Pairs = Tuple[Tuple[bytes, bytes], ...]
_It = TypeVar("_It")


class Field:
    """The field of a column, or a field below one.

    name             its name, "" for the values of a dictionary; it ends at the first zero byte, as in the Arrow C data interface
    format           the format string of the Arrow C data interface; for a dictionary-encoded field that of the indices
    nullable         whether slots may be null according to the stream: it is not enforced
    ordered          whether the order of the dictionary's values has a meaning
    keys_sorted      for maps: whether the keys of each map are sorted according to the stream: it is not enforced
    children         the fields below it: one for a list, a fixed-size list or a map, each field of a struct
    dictionary       the field of the dictionary's values, or None if it is not dictionary-encoded
    metadata_pairs   the custom metadata as pairs of key and value, in bytes, in their order
    """

    def __init__(self, format: str, name: str, flags: int = _NULLABLE, metadata_pairs: Pairs = (),
                 children: "Tuple[Field, ...]" = (), dictionary: "Optional[Field]" = None) -> None:
        self.format, self.name, self.children, self.dictionary = format, name, children, dictionary
        self.nullable, self.ordered, self.keys_sorted = (bool(flags & it) for it in (_NULLABLE, _ORDERED, _KEYS_SORTED))
        self.metadata_pairs = metadata_pairs

    @property
    def type(self) -> str:
        """The type in words, as `arrowflow schema` prints it: "int32", "timestamp[us, Europe/Berlin]", "dictionary<int32, utf8>"."""
        words = words_of(self.format) + ("[sorted]" if self.keys_sorted else "")
        return f"dictionary<{words}, {self.dictionary.type}>" if self.dictionary else words

    @property
    def time_zone(self) -> Optional[str]:
        """The zone's name for a timestamp with a zone, otherwise None."""
        return zone_of(self.format)

    @property
    def metadata(self) -> Dict[bytes, bytes]:
        """The custom metadata as a dict, which has the last value of each key."""
        return dict(self.metadata_pairs)

    @property
    def flags(self) -> int:
        """The flags of the Arrow C data interface."""
        return _NULLABLE * self.nullable + _ORDERED * self.ordered + _KEYS_SORTED * self.keys_sorted

    def _key(self) -> Tuple[Any, ...]:
        return self.format, self.name, self.flags, self.metadata_pairs, self.children, self.dictionary

    def __eq__(self, other: object) -> bool:
        return type(self) is type(other) and self._key() == other._key()  # type: ignore[attr-defined]

    def __hash__(self) -> int:
        return hash(self._key())

    def __repr__(self) -> str:
        return f"<arrowflow.Field {self.name!r}: {self.type}{'' if self.nullable else ' not null'}>"

    def __arrow_c_schema__(self) -> object:
        """The field as a PyCapsule "arrow_schema", for other Arrow libraries."""
        from ._capsules import schema_capsule
        return schema_capsule(self)


class Schema:
    """The columns of a stream. `len(schema)` is their number, `schema[0]` and `schema["name"]` are fields, and a loop iterates over all
    of them.

    fields           the Field of each column
    names            the names of the columns
    metadata_pairs   the custom metadata of the schema, as in a Field
    """

    def __init__(self, root: Field) -> None:
        self._root, self.fields, self.metadata_pairs = root, root.children, root.metadata_pairs
        self.names: Tuple[str, ...] = tuple(it.name for it in self.fields)

    @property
    def metadata(self) -> Dict[bytes, bytes]:
        """The custom metadata of the schema as a dict, which has the last value of each key."""
        return dict(self.metadata_pairs)

    def __len__(self) -> int:
        return len(self.fields)

    def __iter__(self) -> Iterator[Field]:
        return iter(self.fields)

    def __getitem__(self, which: Union[int, str]) -> Field:
        return found(self.fields, self.names, which)

    def __eq__(self, other: object) -> bool:
        return isinstance(other, Schema) and self._root == other._root

    def __hash__(self) -> int:
        return hash(self._root)

    def __repr__(self) -> str:
        return f"<arrowflow.Schema {', '.join(f'{it.name}: {it.type}' for it in self.fields)}>"

    def __arrow_c_schema__(self) -> object:
        """The schema as a PyCapsule "arrow_schema", for other Arrow libraries."""
        return self._root.__arrow_c_schema__()


def found(things: Sequence[_It], names: Sequence[str], which: Union[int, str]) -> _It:
    """The item with this index or this name. Raises IndexError for an index that does not exist, KeyError for a name that no item or
    several items have."""
    if isinstance(which, int) and not isinstance(which, bool):
        if not -len(things) <= which < len(things):
            raise IndexError(f"there is no column {which} of {len(things)}")
        return things[which]
    if not isinstance(which, str):
        raise TypeError(f"a column is asked for by its number or its name, not {type(which).__name__}")
    count = names.count(which)
    if count != 1:
        raise KeyError(f"{count or 'no'} columns are named {which!r}")
    return things[names.index(which)]


# ---- from the Arrow C data interface, and to it


def field_of(schema: ArrowSchema) -> Field:
    """The field of an ArrowSchema, as a copy."""
    children = tuple(field_of(schema.children[k].contents) for k in range(schema.n_children))
    dictionary = field_of(schema.dictionary.contents) if schema.dictionary else None
    format, name = ((it or b"").decode() for it in (schema.format, schema.name))
    return Field(format, name, schema.flags, _pairs_at(schema.metadata), children, dictionary)


def _pairs_at(at: Optional[int]) -> Pairs:
    """The pairs of custom metadata that begin at this address."""
    if not at:
        return ()
    count, found_pairs = _length_at(at), []
    at += 4
    for _ in range(count):
        texts = []
        for _ in range(2):
            size = _length_at(at)
            texts.append(ctypes.string_at(at + 4, size))
            at += 4 + size
        found_pairs.append((texts[0], texts[1]))
    return tuple(found_pairs)


def _length_at(at: int) -> int:
    return int(struct.unpack("<i", ctypes.string_at(at, 4))[0])


def metadata_of(pairs: Pairs) -> Optional[bytes]:
    """Pairs of custom metadata in the encoding of the Arrow C data interface, or None if there are none."""
    if not pairs:
        return None
    texts = [text for pair in pairs for text in pair]
    return struct.pack("<i", len(pairs)) + b"".join(struct.pack("<i", len(it)) + it for it in texts)
