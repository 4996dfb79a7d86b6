"""The shared library: where it is found, and its calls, as bafokun.h has them."""

from __future__ import annotations

import ctypes
import os
from ctypes import POINTER, c_bool, c_char_p, c_size_t, c_uint8, c_uint16, c_uint32, c_uint64, c_void_p
from functools import lru_cache
from pathlib import Path
from typing import Any, Iterator

from .version import __version__

MOST_FRAMES = 514
"""No input gives more frames."""


class CNode(ctypes.Structure):
    """The place of a device."""

    _fields_ = [("built", c_size_t), ("device", c_void_p)]


class CFrame(ctypes.Structure):
    """A CAN data frame."""

    _fields_ = [("id", c_uint16), ("length", c_uint16), ("bytes", c_uint8 * 8)]


class CConfig(ctypes.Structure):
    """What an EDS leaves open."""

    _fields_ = [("strings", c_uint16), ("domains", c_uint16), ("time", c_uint16)]


class CFault(ctypes.Structure):
    """Why there is no device."""

    _fields_ = [
        ("line", c_uint64),
        ("stage", c_uint16),
        ("number", c_uint16),
        ("index", c_uint16),
        ("sub_index", c_uint16),
    ]


class CEntry(ctypes.Structure):
    """An entry of the object dictionary."""

    _fields_ = [
        ("index", c_uint16),
        ("sub_index", c_uint8),
        ("access", c_uint8),
        ("type", c_uint16),
        ("original_type", c_uint16),
        ("capacity", c_size_t),
        ("length", c_size_t),
    ]


class CEvents(ctypes.Structure):
    """What happened to a device."""

    _fields_ = [
        ("reset_node", c_uint8),
        ("reset_communication", c_uint8),
        ("state", c_uint8),
        ("sync", c_uint8),
        ("rpdo", c_uint8),
        ("heartbeat", c_uint8),
        ("lost", c_uint8 * 128),
        ("back", c_uint8 * 128),
        ("silent", c_uint8 * 128),
    ]


ACCESS = {1: "ro", 2: "wo", 3: "rw", 4: "rwr", 5: "rww", 6: "const"}
"""By the library's number the word of AccessType."""

MOST_NAME = 512
"""No line of a sheet is longer."""

NO_FAULT, SHEET_FAULT, DEVICE_FAULT = 0, 1, 2
FOREVER = 0xFFFFFFFF
DONE, REFUSED = 1, 2

_NODE = POINTER(CNode)
_FRAMES = (POINTER(CFrame), c_size_t)
_KEY = (c_uint16, c_uint8)

# each call: what it gives, what it takes
_CALLS = {
    "build": (c_bool, _NODE, c_char_p, c_size_t, c_uint8, POINTER(CConfig), POINTER(CFault)),
    "free": (None, _NODE),
    "boot": (c_size_t, _NODE, *_FRAMES),
    "take": (c_size_t, _NODE, POINTER(CFrame), *_FRAMES),
    "ticks": (c_size_t, _NODE, c_uint32, POINTER(c_uint32), *_FRAMES),
    "write": (c_size_t, _NODE, *_KEY, c_char_p, c_size_t, *_FRAMES),
    "write_at": (c_size_t, _NODE, c_size_t, c_char_p, c_size_t, *_FRAMES),
    "event": (c_size_t, _NODE, c_uint16, *_FRAMES),
    "changed": (c_size_t, _NODE, *_KEY, *_FRAMES),
    "raise": (c_size_t, _NODE, c_uint16, c_uint8, c_char_p, *_FRAMES),
    "clear": (c_size_t, _NODE, c_uint8, *_FRAMES),
    "bus": (c_size_t, _NODE, c_uint8, *_FRAMES),
    "value": (c_bool, _NODE, *_KEY, POINTER(c_uint8), c_size_t, POINTER(c_size_t)),
    "value_at": (c_bool, _NODE, c_size_t, POINTER(c_uint8), c_size_t, POINTER(c_size_t)),
    "entry": (c_bool, _NODE, c_size_t, POINTER(CEntry)),
    "entry_name": (c_size_t, _NODE, c_size_t, c_char_p, c_size_t),
    "next_changed": (c_bool, _NODE, c_size_t, POINTER(c_size_t)),
    "happened": (c_bool, _NODE, POINTER(CEvents)),
    "node_id": (c_uint8, _NODE),
    "state": (c_uint8, _NODE),
    "answer": (c_uint8, _NODE, POINTER(c_uint32)),
    "held": (c_size_t, _NODE, c_uint8),
    "idle": (c_uint32, _NODE),
    "version": (c_uint32,),
}


def _places() -> Iterator[str]:
    package = Path(__file__).resolve().parent
    for folder in (
        package,
        package.parents[1] / "release",  # of a clone
        package.parents[2],  # bin/install: PREFIX/lib, where the package is in PREFIX/lib/python3.X/site-packages
    ):
        if (folder / "libbafokun.so").is_file():
            yield str(folder / "libbafokun.so")
    yield "libbafokun.so.0"  # where the system looks


def _open() -> ctypes.CDLL:
    chosen = os.environ.get("BAFOKUN_LIBRARY")
    if chosen:
        return ctypes.CDLL(chosen)
    for place in _places():
        try:
            return ctypes.CDLL(place)
        except OSError as error:
            last = error
    raise OSError(f"{last}: BAFOKUN_LIBRARY may name the file libbafokun.so, which bin/libbafokun gives")


@lru_cache(maxsize=None)
def load() -> Any:
    """The library: that of BAFOKUN_LIBRARY, else the one beside the package, of the clone, or installed.

    OSError: there is none, it is another library, or its version has another first or second number than the package's.
    """
    library = _open()
    for name, (gives, *takes) in _CALLS.items():
        try:
            call = getattr(library, f"bafokun_{name}")
        except AttributeError:
            raise OSError(f"{library._name} isn't libbafokun.so of this version: it has no bafokun_{name}") from None
        call.restype = gives
        call.argtypes = takes
    numbers = [str(byte) for byte in library.bafokun_version().to_bytes(4, "big")[1:]]
    if numbers[:2] != __version__.split(".")[:2]:
        version = ".".join(numbers)
        raise OSError(f"{library._name} has version {version}, this package {__version__}: take both from one release")
    return library
