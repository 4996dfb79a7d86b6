"""What a sheet says that the library doesn't give: the names of objects, and the node-ID.

The library has accepted the sheet, so nothing is checked again. docs/SHEETS.md has what a sheet is.
"""

from __future__ import annotations

import re
from dataclasses import dataclass
from typing import Dict, List, Optional, Tuple

from .values import DataType

_HEADING = re.compile(r"([0-9a-f]{1,4})", re.ASCII | re.IGNORECASE)

_ARRAY, _RECORD = 8, 9


@dataclass(frozen=True)
class Description:
    """What a sheet says of an entry. object_name is "" where the entry is the whole of its object."""

    index: int
    sub_index: int
    name: str
    object_name: str
    type: DataType
    access: str
    capacity: int


Section = Dict[str, str]


def _encoding(text: bytes) -> str:
    """Names are UTF-8, or Latin-1 where the text isn't UTF-8."""
    try:
        text.decode("utf-8")
    except UnicodeDecodeError:
        return "latin-1"
    return "utf-8"


def _sections(text: bytes) -> List[Tuple[str, Section]]:
    """The sections in order: the name in lower case, and the keys in lower case with what they have, if it isn't empty."""
    sections: List[Tuple[str, Section]] = []
    text = text[3:] if text.startswith(b"\xef\xbb\xbf") else text
    for line in text.decode(_encoding(text)).replace("\r\n", "\n").split("\n"):
        line = line.strip(" \t")
        if line.startswith("["):
            sections.append((line[1:].partition("]")[0].strip(" \t").lower(), {}))
        elif sections and "=" in line and not line.startswith(";"):
            key, _, value = (part.strip(" \t") for part in line.partition("="))
            if value:
                sections[-1][1].setdefault(key.lower(), value)
    return sections


def _number(text: Optional[str]) -> Optional[int]:
    """A number of a sheet; None for all else."""
    match = re.fullmatch(r"(0x[0-9a-f]+)|([0-9]+)", text or "", re.ASCII | re.IGNORECASE)
    return int(match[0], 16 if match[1] else 10) if match else None


class Sheet:
    """What an accepted sheet says besides what the library gives."""

    def __init__(self, text: bytes):
        self.encoding = _encoding(text)
        self._objects: Dict[int, Section] = {}
        for heading, section in _sections(text):
            match = _HEADING.fullmatch(heading)
            if match:
                self._objects[int(match[1], 16)] = section

    def object_name(self, index: int) -> str:
        """The ParameterName of an ARRAY or a RECORD; "" of a VAR and a DOMAIN."""
        section = self._objects[index]
        has_parts = _number(section.get("objecttype")) in (_ARRAY, _RECORD)
        return section.get("parametername", "") if has_parts else ""


def node_id_of(text: bytes) -> Optional[int]:
    """The node-ID of a device configuration file, 1 to 127; None where the sheet has none."""
    for heading, section in _sections(text):
        if heading in ("devicecomissioning", "devicecommissioning"):
            number = _number(section.get("nodeid"))
            return number if number is not None and 1 <= number <= 127 else None
    return None
