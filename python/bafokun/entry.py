"""An entry of a node's object dictionary."""

from __future__ import annotations

from typing import TYPE_CHECKING

from .sheet import Description
from .values import DataType, Value, bytes_of, value_of

if TYPE_CHECKING:
    from .node import Node


class Entry:
    """An entry: its value, and what the sheet says of it.

    What is set is set as by the application, which may write entries that a client may only read; then the TPDOs that map
    the entry and send at changes are sent. Refused: it was refused, as below the low limit; nothing is changed then.
    """

    __slots__ = ("_node", "_number", "_description")

    def __init__(self, node: Node, number: int, description: Description):
        self._node = node
        self._number = number
        self._description = description

    @property
    def index(self) -> int:
        """The index, 1000h to FFFFh."""
        return self._description.index

    @property
    def sub_index(self) -> int:
        """The sub-index."""
        return self._description.sub_index

    @property
    def name(self) -> str:
        """The entry's ParameterName."""
        return self._description.name

    @property
    def object_name(self) -> str:
        """The ParameterName of its ARRAY or RECORD; "" for a VAR and a DOMAIN."""
        return self._description.object_name

    @property
    def type(self) -> DataType:
        """The data type; of an adapted sheet that of OriginalDataType."""
        return self._description.type

    @property
    def access(self) -> str:
        """The access of SDO clients and PDOs: ro, wo, rw, rwr, rww or const."""
        return self._description.access

    @property
    def capacity(self) -> int:
        """How many bytes it has room for."""
        return self._description.capacity

    @property
    def bytes(self) -> bytes:
        """The bytes, least significant first. When they are set they are all of the entry's."""
        return self._node._read_at(self._number)

    @bytes.setter
    def bytes(self, data: bytes) -> None:
        self._node._write_at(self._number, data)
        self._node.changed(self.index, self.sub_index)

    @property
    def raw(self) -> Value:
        """The value, by the data type: an int, a float, a str, a bool or bytes."""
        return value_of(self.type, self.bytes)

    @raw.setter
    def raw(self, value: Value) -> None:
        self.bytes = bytes_of(self.type, value)

    def __repr__(self) -> str:
        return f"<Entry {self.index:04X}:{self.sub_index:02X} {self.name!r} {self.type.name} {self.access}>"
