"""How large the messages of a stream may be, and which types it may have."""
from __future__ import annotations

import dataclasses
import enum

from ._library import CLimits


class Types(enum.IntEnum):
    """Which types are accepted; a stream with another one is Kind.UNSUPPORTED.

    CORE   Null, Bool, Int, Binary, Utf8 and their Large forms, FixedSizeBinary, Date, Time, Timestamp, Duration, List, LargeList, Struct,
           and dictionary encoding of any of them: no version adds others
    ALL    also FloatingPoint, Decimal, Interval, FixedSizeList, Map, and the types that later versions of the library support
    """
    CORE = 0
    ALL = 1


_CEILINGS = {"max_metadata": 1 << 30, "max_body": 1 << 40, "max_rows": (1 << 31) - 1}


@dataclasses.dataclass(frozen=True)
class Limits:
    """How large the messages of an untrusted stream may be, and which types it may have. Raises TypeError if a limit is not an integer,
    ValueError if it is below 0 or above its maximum, or if there is no such set of types.

    max_metadata   bytes of a message's metadata, at most 2^30; by default 64 MiB
    max_body       bytes of a message's body, at most 2^40; by default 64 GiB
    max_rows       rows of a batch and values of a dictionary, at most 2^31 - 1, which is also the default
    types          Types.CORE or Types.ALL; by default the core
    """
    max_metadata: int = 1 << 26
    max_body: int = 1 << 36
    max_rows: int = (1 << 31) - 1
    types: Types = Types.CORE

    def __post_init__(self) -> None:
        for name, ceiling in _CEILINGS.items():
            limit = getattr(self, name)
            if not isinstance(limit, int) or isinstance(limit, bool):
                raise TypeError(f"{name} is a whole number, not {type(limit).__name__}")
            if not 0 <= limit <= ceiling:
                raise ValueError(f"{name} is from 0 to {ceiling}, not {limit}")
        if not isinstance(self.types, int) or isinstance(self.types, bool):
            raise TypeError(f"types is Types.CORE or Types.ALL, not {type(self.types).__name__}")
        object.__setattr__(self, "types", Types(self.types))


STANDARD = Limits()
ALL_TYPES = Limits(types=Types.ALL)


def limits_in_c(limits: Limits) -> CLimits:
    """The limits as the struct of the library."""
    if not isinstance(limits, Limits):
        raise TypeError(f"limits are arrowflow.Limits, not {type(limits).__name__}")
    return CLimits(limits.max_metadata, limits.max_body, limits.max_rows, int(limits.types))
