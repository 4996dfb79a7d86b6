"""What callers pass, as the numbers and bytes that the library's calls take; ctypes would cut a number off."""

from __future__ import annotations

import operator
from typing import Any


def integer(name: str, value: Any, most: int, *, kind: str = "an int", wanted: str = "") -> int:
    """A number from 0 to most. TypeError: it is no int; ValueError: it is outside. kind and wanted are for their texts."""
    try:
        number = operator.index(value)
    except TypeError:
        raise TypeError(f"{name} isn't {kind}: {value!r}") from None
    if not 0 <= number <= most:
        raise ValueError(f"{name} isn't {wanted or f'0 to {most}'}: {number}")
    return number


def octets(name: str, value: Any) -> bytes:
    """Bytes, of what is like bytes, or of a list of numbers from 0 to 255. TypeError: of what is neither."""
    # of an int, bytes would make so many zeros
    if not isinstance(value, (int, str)):
        try:
            return bytes(value)
        except TypeError:
            pass
    raise TypeError(f"{name} isn't bytes: {value!r}")
