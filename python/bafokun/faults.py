"""What can be wrong, as exceptions, and its words: the faults of docs/SHEETS.md, the abort codes of docs/TRACES.md."""

from __future__ import annotations

from typing import Any, Tuple

# by number: the name, what is wrong, how it is fixed; without a line, where these differ
_SHEET = {
    1: ("TooLarge", "the line has more than 512 bytes", "shorten the line; take out comments and sections that are passed over"),
    2: (
        "BadLine",
        "the line is no whole section line and no key=value",
        "put the missing [, ] or =, or ; before a comment",
    ),
    3: ("KeyOutsideSection", "the line comes before the first section", "move it after the line of its section; put ; before a comment"),
    4: (
        "DuplicateSection",
        "the section comes a second time, perhaps spelled otherwise",
        "take one of the two out, or give it the index that was meant",
    ),
    5: ("DuplicateKey", "the key comes a second time in its section", "take one of the two out"),
    6: (
        "MissingSection",
        "the listed object has no section",
        "add the section, as [1019]; or take the object out of its list, unless it is mandatory",
    ),
    7: ("BadNumber", "the value is no whole number of at most 64 bits", "write decimal digits, or 0x and hexadecimal digits"),
    8: (
        "AmbiguousNumber",
        "the leading zero may mean octal",
        "write the number without the zero or in hexadecimal, or try conode adapt --leading-zeros",
    ),
    9: (
        "BadList",
        "SupportedObjects and the keys don't agree, or an index is above 0xFFFF",
        "number the keys 1, 2, 3 without a gap or leading zeros, and count them",
    ),
    10: ("ListedTwice", "the index is in the object lists on an earlier line too", "take one of the two out, and renumber that list"),
    11: (
        "MissingKey",
        "the entry has no DataType or no AccessType",
        "add it; to an ARRAY or a RECORD add ObjectType=8 or ObjectType=9",
    ),
    12: (
        "BadType",
        "the code is none that this object or entry may have",
        "give the code that the device has, with ObjectType=2 DataType=0x000F; take an object of ObjectType=5 or 6 out of its list",
    ),
    13: (
        "LeftOutType",
        "the data type isn't supported",
        "try conode adapt, which may give it a supported type; or take the object out of its list",
    ),
    14: ("BadAccess", "the access is none of ro, wo, rw, rwr, rww and const", "choose one of the six"),
    15: (
        "BadLimits",
        "the limit is outside the type's range, or LowLimit is above HighLimit",
        "correct the limit; leave it out if the end of the type's range is meant",
    ),
    16: (
        "BadDefault",
        "the value is outside the type or the limits, or not in the type's form",
        "correct the value or the limit",
    ),
    17: (
        "MissingSub0",
        "the ARRAY or RECORD has no sub-index 0",
        "describe sub-index 0; an object without sub-indices has ObjectType=7",
    ),
    18: (
        "CompactForm",
        "the compact form isn't read",
        "try conode adapt, or have the sheet's editor write each sub-index as a section of its own",
    ),
    19: ("MissingMandatory", "1000h, 1001h or 1018h is in no object list", "list the three, with their sections"),
    20: ("Memory", "memory ran out", "run it again with more memory"),
}
_SHEET_WITHOUT_LINE = {
    1: ("the text has more than 1,048,576 bytes", "take out comments and sections that are passed over"),
    6: ("there is no section [MandatoryObjects]", "add it, with 1000h, 1001h and 1018h"),
}
_BUILD = {
    1: ("NodeId", "the node-ID isn't one of 1 to 127", "give one of these"),
    2: (
        "ValueRange",
        "the default is a sum with $NODEID outside the type or the limits for this node-ID",
        "correct the number or the limit",
    ),
    3: (
        "BadCobId",
        "the COB-ID is reserved, belongs to an SDO channel or has bits that it may not have",
        "give a free identifier, or set bit 31 of a PDO that isn't used",
    ),
    4: (
        "PdoPair",
        "the PDO has no partner object, or lacks a sub-index that it needs",
        "list or describe it; or take the partner out too",
    ),
    5: (
        "BadMapping",
        "the PDO counts a missing or unmappable entry, a wrong length, or more than 64 bits",
        "set PDOMapping=1 for the entry, correct the words, or lower the count",
    ),
    6: (
        "TooMany",
        "there are more than 16,384 entries, or more than 16,777,216 bytes of room",
        "take objects out of the lists; give strings and domains less room",
    ),
    7: ("Memory", "memory ran out", "run it again with more memory"),
}
_WITHOUT_NODE_ID = "no node-ID is given, and the sheet has none"
_ABORTS = {
    0x05030000: "the toggle bit of a segment isn't the awaited one",
    0x05040000: "the transfer timed out",
    0x05040001: "the command specifier is unknown, or not awaited now",
    0x05040002: "the block size isn't 1 to 127",
    0x05040003: "an acknowledge names a segment that wasn't sent",
    0x05040004: "the CRC of a block transfer is wrong",
    0x05040005: "out of memory: no room for the value",
    0x06010000: "this access isn't supported",
    0x06010001: "a read of an entry that is write only",
    0x06010002: "a write of an entry that is read only",
    0x06020000: "no such object",
    0x06040041: "the entry can't be mapped into this PDO",
    0x06040042: "the mapped entries are longer than 8 bytes",
    0x06040043: "the parameter contradicts another one",
    0x06040047: "the parameter contradicts something in the device",
    0x06060000: "a hardware error",
    0x06070010: "wrong data type or length",
    0x06070012: "the value is too long",
    0x06070013: "the value is too short",
    0x06090011: "no such sub-index",
    0x06090030: "the value isn't allowed",
    0x06090031: "the value is above the high limit",
    0x06090032: "the value is below the low limit",
    0x06090036: "the maximum is less than the minimum",
    0x060A0023: "no SDO connection is left",
    0x08000000: "a general error",
    0x08000020: "the value can't be transferred or stored",
    0x08000021: "the value can't be transferred or stored, for local control",
    0x08000022: "the value can't be transferred or stored in the device's present state",
    0x08000023: "there is no object dictionary",
    0x08000024: "no data is there",
}


def abort_text(code: int) -> str:
    """The meaning of an SDO abort code (CiA 301, 7.2.4.3.17); "" for others."""
    return _ABORTS.get(code, "")


class _Portable:
    """An exception that pickle and copy make anew, for another process, say. By themselves they call __init__ with the text."""

    args: Tuple[Any, ...]

    def __reduce__(self) -> Tuple[Any, ...]:
        return _anew, (type(self), *self.args), self.__dict__


def _anew(kind: Any, *args: Any) -> Any:
    return kind.__new__(kind, *args)


class Fault(_Portable, ValueError):
    """Why there is no device of a sheet: its number and name, what it means and how it is fixed."""

    number: int
    name: str
    meaning: str
    fix: str


class SheetFault(Fault):
    """A data sheet's first fault, and its line, from 1; 0 where no line is to blame."""

    def __init__(self, number: int, line: int, path: str = ""):
        self.number = number
        self.line = line
        self.path = path
        self.name, self.meaning, self.fix = _SHEET[number]
        if line == 0:
            self.meaning, self.fix = _SHEET_WITHOUT_LINE.get(number, (self.meaning, self.fix))
            place = f"{path}: " if path else ""
        else:
            place = f"{path}:{line}: " if path else f"line {line}: "
        super().__init__(f"{place}{self.name}: {self.meaning}: {self.fix}")


class BuildFault(Fault):
    """A sheet has no fault, and no device can be built of it for this node-ID. index and sub_index name an entry, or are 0.

    has_node_id is whether one is given, or the sheet has one.
    """

    def __init__(self, number: int, index: int, sub_index: int, path: str = "", has_node_id: bool = True):
        self.number = number
        self.index = index
        self.sub_index = sub_index
        self.path = path
        self.name, self.meaning, self.fix = _BUILD[number]
        if not has_node_id:
            self.meaning, self.fix = _WITHOUT_NODE_ID, "Node.from_sheet(PATH, 5)" if path else "Node(BYTES, 5)"
        place = f"{path}: " if path else ""
        entry = f" {index:04X}:{sub_index:02X}" if index else ""
        super().__init__(f"{place}{self.name}{entry}: {self.meaning}: {self.fix}")


class Refused(_Portable, Exception):
    """The node refused what the application did: the SDO abort code, and its meaning."""

    def __init__(self, code: int):
        self.code = code
        self.text = abort_text(code)
        super().__init__(f"{code:08X}: {self.text}")
