"""Data types (CiA 301, 7.4.7), and Python's values for their bytes."""

from __future__ import annotations

import operator
import struct
from enum import IntEnum
from typing import Any, Union

Value = Union[bool, int, float, str, bytes]
"""bool for BOOLEAN, int for the other integers, float for REAL32 and REAL64, str for strings, bytes for all else.

As an int is set, so is what has `__index__`, as the integers of other packages.
"""


class DataType(IntEnum):
    """The data types that an entry may have, or may have had before its sheet was adapted, with CiA 301's codes."""

    BOOLEAN = 0x01
    INTEGER8 = 0x02
    INTEGER16 = 0x03
    INTEGER32 = 0x04
    UNSIGNED8 = 0x05
    UNSIGNED16 = 0x06
    UNSIGNED32 = 0x07
    REAL32 = 0x08
    VISIBLE_STRING = 0x09
    OCTET_STRING = 0x0A
    UNICODE_STRING = 0x0B
    TIME_OF_DAY = 0x0C
    TIME_DIFFERENCE = 0x0D
    DOMAIN = 0x0F
    INTEGER24 = 0x10
    REAL64 = 0x11
    INTEGER40 = 0x12
    INTEGER48 = 0x13
    INTEGER56 = 0x14
    INTEGER64 = 0x15
    UNSIGNED24 = 0x16
    UNSIGNED40 = 0x18
    UNSIGNED48 = 0x19
    UNSIGNED56 = 0x1A
    UNSIGNED64 = 0x1B


_REALS = {DataType.REAL32: "<f", DataType.REAL64: "<d"}

# VISIBLE_STRING is ASCII; other bytes come and go unchanged
_STRINGS = {
    DataType.VISIBLE_STRING: ("ascii", "surrogateescape"),
    DataType.UNICODE_STRING: ("utf-16-le", "surrogatepass"),
}

_WIDTHS = {
    kind: 6 if kind.name.startswith("TIME") else int(kind.name.lstrip("INTEGRUSD")) // 8
    for kind in DataType
    if kind.name.startswith(("INTEGER", "UNSIGNED", "TIME"))
}


def value_of(kind: DataType, data: bytes) -> Value:
    """The value that an entry's bytes are. A TIME_OF_DAY and a TIME_DIFFERENCE are the integer of their 48 bits."""
    if kind is DataType.BOOLEAN:
        return data != b"\0"
    if kind in _WIDTHS:
        return int.from_bytes(data, "little", signed=kind.name.startswith("I"))
    if kind in _REALS:
        value: float = struct.unpack(_REALS[kind], data)[0]
        return value
    if kind in _STRINGS and not (kind is DataType.UNICODE_STRING and len(data) % 2):
        return data.decode(*_STRINGS[kind])
    return data


def bytes_of(kind: DataType, value: Value) -> bytes:
    """The bytes of a value. TypeError: it is of another type; ValueError: it is outside the type's range."""
    if kind in _STRINGS and isinstance(value, str):
        return value.encode(*_STRINGS[kind])
    if kind in _WIDTHS or kind is DataType.BOOLEAN:
        return _integer(kind, value)
    if kind in _REALS and (isinstance(value, float) or hasattr(value, "__index__")):
        try:
            return struct.pack(_REALS[kind], value)
        except (OverflowError, struct.error):
            raise ValueError(f"{value} is outside {kind.name}") from None
    if kind not in _REALS and isinstance(value, (bytes, bytearray, memoryview)):
        return bytes(value)
    raise TypeError(f"{value!r} is no value of {kind.name}")


def _integer(kind: DataType, value: Any) -> bytes:
    try:
        value = operator.index(value)
    except TypeError:
        raise TypeError(f"{value!r} is no value of {kind.name}") from None
    if kind is DataType.BOOLEAN and value not in (0, 1):
        raise ValueError(f"{value} is outside {kind.name}")
    try:
        return value.to_bytes(_WIDTHS.get(kind, 1), "little", signed=kind.name.startswith("I"))
    except OverflowError:
        raise ValueError(f"{value} is outside {kind.name}") from None
