"""A CANopen device."""

from __future__ import annotations

import ctypes
import operator
import os
import re
import sys
import threading
import weakref
from enum import IntEnum
from pathlib import Path
from typing import Any, Dict, FrozenSet, Iterator, List, NamedTuple, Optional, Tuple, Union

from . import library as c
from .arguments import integer, octets
from .entry import Entry
from .faults import BuildFault, Refused, SheetFault
from .frame import AnyFrame, Frame, frame_of
from .sheet import Description, Sheet, node_id_of
from .values import DataType, Value

Key = Union[str, int, Tuple[int, int]]
"""An entry's name, "Object.Entry", an index, or an index and a sub-index, also as the text "1018:01"."""

_TEXT_OF_KEY = re.compile("([0-9A-Fa-f]{4}):([0-9A-Fa-f]{2})")

# the bit of the error register that is the kind of an emergency error code, by its first digit
_KINDS = {0x2: 0x02, 0x3: 0x04, 0x4: 0x08, 0x8: 0x10, 0xF: 0x80}


# in ms
_DAY = 86_400_000


class State(IntEnum):
    """NMT states (CiA 301, 7.3.2), as the byte of a heartbeat."""

    STOPPED = 4
    OPERATIONAL = 5
    PRE_OPERATIONAL = 127


class BusChange(IntEnum):
    """Changes of a CAN controller."""

    ACTIVE = 0
    """Error active again, after error passive or once it has recovered."""
    PASSIVE = 1
    OFF = 2
    RECOVERED = 3
    """Recovered from bus-off; ACTIVE comes next."""


class Events(NamedTuple):
    """What happened to a node. The sets are of node-IDs of other nodes, which 1016h monitors."""

    reset_node: bool = False
    """The NMT service reset node: each entry has its default again."""
    reset_communication: bool = False
    """The NMT service reset communication: the entries 1000h to 1FFFh have."""
    state: Optional[State] = None
    """The last NMT state that was entered, if any. A reset enters pre-operational."""
    sync: bool = False
    """A SYNC was received, and the node wasn't stopped."""
    rpdo: bool = False
    """A frame of an active RPDO was received, and the node was operational."""
    lost: FrozenSet[int] = frozenset()
    """Their heartbeat was lost."""
    back: FrozenSet[int] = frozenset()
    """A heartbeat was received, the first after a loss."""
    silent: FrozenSet[int] = frozenset()
    """Their heartbeat is lost now, also since an earlier call."""


def _nodes(marks: Any) -> FrozenSet[int]:
    return frozenset(node for node, mark in enumerate(marks) if mark)


class Node:
    """A device made from a data sheet. It begins in state pre-operational, and knows no bus and no clock.

    What comes from the bus and the clock (`boot`, `take`, `tick`) gives the frames that the device sends, in order. What
    the application does (entries that are set, `write`, `changed`, `event`, `raise_error`, `clear_errors`) may send too:
    these frames wait, and are the first of what the next of those calls gives, or `frames`. Each call may come from any
    thread, and none from a signal handler or a `__del__`: where it comes within another call, it is a RuntimeError. After
    a reset by NMT entries have their defaults again, as after the build.
    """

    def __init__(
        self,
        sheet: bytes,
        node_id: Optional[int] = None,
        *,
        strings: int = 16,
        domains: int = 889,
        sdo_timeout: int = 1000,
        path: str = "",
    ):
        """Of a sheet's text as bytes, at a node-ID, 1 to 127, or that of the sheet where it is a device configuration file.

        strings and domains are the room of strings and domains in bytes, but for a string that clients may not write: it has
        room for its default. sdo_timeout is in ms, 0 for none, path is for messages. SheetFault, BuildFault: why there is no
        device. OSError: there is no library.
        """
        if isinstance(sheet, str):
            raise TypeError("a sheet's text is wanted as bytes, not as str; Node.from_sheet reads a file")
        sheet = octets("a sheet's text", sheet)
        # that of one call; and that of one `run`, which gives the node its ticks
        self._lock = threading.RLock()
        self._runs = threading.Lock()
        self._library: Any = c.load()
        self._handle = c.CNode()
        self._room = (c.CFrame * c.MOST_FRAMES)()
        self._waiting: List[Frame] = []
        self._has_booted = False
        # where there is none, the library says so, or what else is wrong; so of 0, and of 128 to 255
        number = node_id_of(sheet) or 0 if node_id is None else integer("node_id", node_id, 0xFF, wanted="1 to 127")
        config = c.CConfig(
            integer("strings", strings, 0xFFFF),
            integer("domains", domains, 0xFFFF),
            integer("sdo_timeout", sdo_timeout, 0xFFFF),
        )
        fault = c.CFault()
        build = self._library.bafokun_build
        if not build(self._handle, sheet, len(sheet), number, config, fault):
            if fault.stage == c.SHEET_FAULT:
                raise SheetFault(fault.number, fault.line, path)
            raise BuildFault(fault.number, fault.index, fault.sub_index, path, node_id is not None or number > 0)
        # also where nobody closes it
        self._free = weakref.finalize(self, self._library.bafokun_free, self._handle)
        descriptions = enumerate(self._descriptions(Sheet(sheet)))
        self._entries = {(it.index, it.sub_index): Entry(self, number, it) for number, it in descriptions}
        self._names = self._named()

    @classmethod
    def from_sheet(
        cls,
        path: Union[str, "os.PathLike[str]"],
        node_id: Optional[int] = None,
        *,
        strings: int = 16,
        domains: int = 889,
        sdo_timeout: int = 1000,
    ) -> Node:
        """Of a file, an EDS or a DCF; the rest is as for Node. OSError: the file can't be read."""
        text = Path(path).read_bytes()
        return cls(text, node_id, strings=strings, domains=domains, sdo_timeout=sdo_timeout, path=os.fspath(path))

    def close(self) -> None:
        """Gives the device and its memory back; no other call may come after this one."""
        with self._turn():
            self._free()

    def __enter__(self) -> Node:
        return self

    def __exit__(self, *_: object) -> None:
        self.close()

    def _descriptions(self, sheet: Sheet) -> Iterator[Description]:
        """What the sheet says of all entries, by key."""
        entry, name, number = c.CEntry(), ctypes.create_string_buffer(c.MOST_NAME + 1), 0
        while self._call("entry", number, entry):
            length = self._call("entry_name", number, name, len(name))
            yield Description(
                entry.index,
                entry.sub_index,
                name.raw[:length].decode(sheet.encoding),
                sheet.object_name(entry.index),
                DataType(entry.original_type),
                c.ACCESS[entry.access],
                entry.capacity,
            )
            number += 1

    def _named(self) -> Dict[str, List[Entry]]:
        names: Dict[str, List[Entry]] = {}
        for entry in self:
            names.setdefault(entry.name, []).append(entry)
            if entry.object_name:
                names.setdefault(f"{entry.object_name}.{entry.name}", []).append(entry)
        return names

    # ---- the library's calls

    def _turn(self) -> Any:
        """The lock, for a call from outside; the calls of the library and their results are within it.

        A signal handler comes within a call of its own thread, perhaps before the room is read, so that frames would be lost
        and others come twice. The lock would let it in; one that doesn't would let it wait for ever.
        """
        if self._lock._is_owned():  # type: ignore[attr-defined]
            if self._is_called():
                raise RuntimeError("a call of this node isn't over: none may come from a signal handler")
            # (before Python 3.10 a signal handler's exception could end a call between its last line and the lock's release)
            self._lock.release()
        return self._lock

    def _is_called(self) -> bool:
        """Whether a call of this node is below the newest one of this thread, whose own frames come first."""
        frame = sys._getframe(1)
        folder = os.path.dirname(__file__)
        while frame is not None and os.path.dirname(frame.f_code.co_filename) == folder:
            frame = frame.f_back
        while frame is not None:
            if frame.f_code.co_filename == __file__ and frame.f_locals.get("self") is self:
                return True
            frame = frame.f_back
        return False

    def _call(self, name: str, *words: object) -> Any:
        """One call, with the lock. All of them come from here."""
        if not self._free.alive:
            raise ValueError("the node is closed")
        return getattr(self._library, f"bafokun_{name}")(self._handle, *words)

    def _ask(self, name: str, *words: object) -> Any:
        """A question that is a whole call."""
        with self._turn():
            return self._call(name, *words)

    def _input(self, name: str, *words: object) -> None:
        """One input, with the lock; the frames that it gives wait."""
        count = self._call(name, *words, self._room, c.MOST_FRAMES)
        if count:
            self._waiting += [Frame(it.id, bytes(it.bytes[: it.length])) for it in self._room[:count]]

    def _event(self, name: str, *words: object) -> None:
        """An event of the application, a whole call."""
        with self._turn():
            self._input(name, *words)
            code = ctypes.c_uint32()
            if self._call("answer", code) == c.REFUSED:
                raise Refused(code.value)

    def _sent(self) -> List[Frame]:
        """The frames that wait, with the lock: from now on they don't."""
        frames, self._waiting = self._waiting, []
        return frames

    # ---- the bus and the clock

    def frames(self) -> List[Frame]:
        """The frames that wait: what the application did gave them. They are to be sent once, in order."""
        with self._turn():
            return self._sent()

    def boot(self) -> List[Frame]:
        """The boot-up, to be sent once after the build. Another call gives it again, and changes nothing."""
        with self._turn():
            self._has_booted = True
            self._input("boot")
            return self._sent()

    def take(self, frame: AnyFrame) -> List[Frame]:
        """A frame was received: a pair (identifier, data) or a message of python-can."""
        taken = frame_of(frame)
        with self._turn():
            if taken:
                data = taken.data.ljust(8, b"\0")
                self._input("take", c.CFrame(taken.id, len(taken.data), (ctypes.c_uint8 * 8)(*data)))
            return self._sent()

    def tick(self, ms: int = 1) -> List[Frame]:
        """So many ms elapsed, at most a day."""
        left, elapsed = integer("ms", ms, _DAY), ctypes.c_uint32()
        with self._turn():
            while left:
                # these end with the first one that sends frames
                self._input("ticks", left, elapsed)
                left -= elapsed.value
            return self._sent()

    # ---- the application

    def write(self, index: int, sub_index: int, data: bytes) -> None:
        """Writes all bytes of an entry, also of one that a client may only read, and sends no TPDO.

        Refused: why not, as an entry of access const, or a parameter of an SDO channel.
        """
        data = octets("data", data)
        self._event("write", integer("index", index, 0xFFFF), integer("sub_index", sub_index, 0xFF), data, len(data))

    def _write_at(self, number: int, data: bytes) -> None:
        """The same of an entry by the library's number."""
        data = octets("data", data)
        self._event("write_at", number, data, len(data))

    def changed(self, index: int, sub_index: int) -> None:
        """The value of an entry changed: an event on each active TPDO that maps it."""
        self._event("changed", integer("index", index, 0xFFFF), integer("sub_index", sub_index, 0xFF))

    def event(self, tpdo: int) -> None:
        """An event on a TPDO; 0 is the one of 1800h. Outside operational, or at types 1 to 240, it has no effect."""
        self._event("event", integer("tpdo", tpdo, 0xFFFF))

    def raise_error(self, code: int, bits: Optional[int] = None, manufacturer: bytes = bytes(5)) -> None:
        """An error: its emergency error code, the bits of the error register besides bit 0, five bytes of the manufacturer.

        Without bits it is that of the code's kind: current, voltage, temperature, communication, the manufacturer's. Each
        call sends an emergency; at most eight wait, as while the node is stopped, and a ninth overwrites the oldest.
        """
        code, manufacturer = integer("code", code, 0xFFFF), octets("manufacturer", manufacturer)
        if len(manufacturer) != 5:
            raise ValueError(f"manufacturer isn't five bytes: {manufacturer!r}")
        kind = _KINDS.get(code >> 12, 0) if bits is None else integer("bits", bits, 0xFF)
        self._event("raise", code, kind, manufacturer)

    def clear_errors(self, bits: int = 0xFF) -> None:
        """Errors have ended: these bits of the error register are cleared. Each call sends an emergency of code 0."""
        self._event("clear", integer("bits", bits, 0xFF))

    def bus_changed(self, change: BusChange) -> None:
        """The CAN controller changed. PASSIVE raises the error 8120h, RECOVERED 8140h; ACTIVE clears their bits.

        These are bit 4 if no other error has set it, and bit 0 if no other bit is left then and no error that raise_error raised
        has it alone. An error in an RPDO or a SYNC after PASSIVE isn't told apart: its bit 4 is cleared too.

        OFF leaves operational or stops, by the error behaviour of 1029:01, as a lost heartbeat does.
        """
        number = integer("change", change, max(BusChange), kind="a BusChange")
        with self._turn():
            self._input("bus", number)

    # ---- questions

    @property
    def node_id(self) -> int:
        """The node-ID, 1 to 127."""
        return int(self._ask("node_id"))

    @property
    def state(self) -> State:
        """The NMT state."""
        return State(self._ask("state"))

    def idle(self) -> Optional[int]:
        """For at least so many ms it sends nothing, and neither an entry nor its state changes, if nothing is received. None: ever."""
        ms = int(self._ask("idle"))
        return None if ms == c.FOREVER else ms

    def happened(self) -> Optional[Events]:
        """What happened since the last call, or since the node was made: what the inputs did. None: nothing did."""
        events = c.CEvents()
        if not self._ask("happened", events):
            return None
        return Events(
            bool(events.reset_node),
            bool(events.reset_communication),
            State(events.state) if events.state else None,
            bool(events.sync),
            bool(events.rpdo),
            _nodes(events.lost),
            _nodes(events.back),
            _nodes(events.silent),
        )

    def held(self, channel: int) -> int:
        """How many bytes are held for the transfer of an SDO channel; 0 is that of 1200h."""
        return int(self._ask("held", integer("channel", channel, 0xFF)))

    def read(self, index: int, sub_index: int) -> bytes:
        """The bytes of an entry, least significant first. KeyError: there is none."""
        index, sub_index = integer("index", index, 0xFFFF), integer("sub_index", sub_index, 0xFF)
        return self._read(f"{index:04X}:{sub_index:02X}", "value", index, sub_index)

    def _read_at(self, number: int) -> bytes:
        """The same of an entry by the library's number."""
        return self._read(f"with number {number}", "value_at", number)

    def _read(self, shown: str, name: str, *words: int) -> bytes:
        with self._turn():
            room, length = 64, ctypes.c_size_t()
            while True:
                data = (ctypes.c_uint8 * room)()
                if not self._call(name, *words, data, room, length):
                    raise KeyError(f"there is no entry {shown}")
                if length.value <= room:
                    return bytes(data[: length.value])
                room = length.value

    # ---- entries

    def changed_entries(self) -> List[Entry]:
        """The entries, by key, that SDO clients, RPDOs or a reset set since the last call, or since the node was made.

        Also those that were set to the bytes that they had, and not those that the application sets.
        """
        entries, found, number = list(self), [], ctypes.c_size_t()
        with self._turn():
            while self._call("next_changed", number, number):
                found.append(entries[number.value])
                number.value += 1
        return found

    def __iter__(self) -> Iterator[Entry]:
        return iter(self._entries.values())

    def __len__(self) -> int:
        return len(self._entries)

    def __getitem__(self, key: Key) -> Entry:
        """An entry by its name, by "Object.Entry", by index and sub-index, or by the index of a VAR or DOMAIN.

        "1018:01", if it is no name, is index and sub-index. KeyError: there is none; or there are several, whose keys it has.
        """
        found = self._found(key)
        if len(found) != 1:
            several = ", ".join(f"{it.index:04X}:{it.sub_index:02X}" for it in found)
            shown = f"{key:04X}h" if isinstance(key, int) and key >= 0 else repr(key)
            raise KeyError(f"{shown} is several entries: {several}" if found else f"no entry is {shown}")
        return found[0]

    def __setitem__(self, key: Key, value: Value) -> None:
        """Sets the value of an entry, as `.raw`."""
        self[key].raw = value

    def __contains__(self, key: Key) -> bool:
        return len(self._found(key)) == 1

    def _found(self, key: Key) -> List[Entry]:
        if isinstance(key, str):
            named = self._names.get(key) or [it for it in self if it.object_name == key]
            text = _TEXT_OF_KEY.fullmatch(key)
            if named or not text:
                return named
            key = int(text[1], 16), int(text[2], 16)
        try:
            if not isinstance(key, tuple):
                index = operator.index(key)
                return [it for it in self if it.index == index]
            index, sub_index = map(operator.index, key)
        except (TypeError, ValueError):
            raise TypeError(f"an entry is a name, an index, or a pair (index, sub-index), not {key!r}") from None
        return [self._entries[index, sub_index]] if (index, sub_index) in self._entries else []
