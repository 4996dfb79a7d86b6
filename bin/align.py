#!/usr/bin/env python3
"""Aligns the functions of object files to 64 bytes, a line of the cache: align.py FILE..

The compiler aligns each to 16 bytes, so that what a call takes depends on where a program's linker puts it.
"""

import struct
import sys

EXECUTABLE = 4  # SHF_EXECINSTR
LINE = 64


def align(path):
    """Sets the alignment of each section of code of an ELF file of 64 bits, least significant byte first."""
    with open(path, "rb") as file:
        data = bytearray(file.read())
    if data[:6] != b"\x7fELF\x02\x01":
        raise ValueError(f"{path} is no ELF file of 64 bits")
    (table,) = struct.unpack_from("<Q", data, 0x28)
    size, count = struct.unpack_from("<HH", data, 0x3A)
    for at in range(table, table + size * count, size):
        (flags,) = struct.unpack_from("<Q", data, at + 8)
        (alignment,) = struct.unpack_from("<Q", data, at + 48)
        if flags & EXECUTABLE and alignment < LINE:
            struct.pack_into("<Q", data, at + 48, LINE)
    with open(path, "wb") as file:
        file.write(data)


if __name__ == "__main__":
    for it in sys.argv[1:]:
        align(it)
