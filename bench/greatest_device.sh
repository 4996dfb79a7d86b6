#!/bin/sh
# Prints the data sheet of the greatest device: 128 SDO channels, 512 TPDOs of eight bytes, four of which are sent at each SYNC and
# the others by an event timer, an RPDO of eight bytes, and 127 nodes that are monitored. It is for node-ID 5.
set -eu
awk '
    function entry(name, type, access, value) { printf "[%s]\nDataType=%d\nAccessType=%s\nDefaultValue=%s\nPDOMapping=1\n", name, type, access, value }
    function object(number) {
        name = sprintf("%X", number)
        list = list (++count) "=0x" name "\n"
        printf "[%s]\nObjectType=9\n", name
        return name
    }
    function variable(name, type, access, value) {
        list = list (++count) "=0x" name "\n"
        entry(name, type, access, value)
    }
    BEGIN {
        variable("1000", 7, "ro", "0x191")
        variable("1001", 5, "ro", 0)
        variable("1005", 7, "rw", "0x80")
        variable("1014", 7, "rw", "$NODEID+0x80")
        variable("1017", 6, "rw", 0)
        variable("2002", 7, "rw", 0)
        variable("2003", 7, "rw", 0)
        name = object(4120); entry(name "sub0", 5, "ro", 1); entry(name "sub1", 7, "ro", 0)
        name = object(4118); entry(name "sub0", 5, "ro", 127)
        for (i = 1; i <= 127; i++) entry(name "sub" sprintf("%X", i), 7, "rw", sprintf("0x%X", i * 65536 + 65535))
        for (i = 1; i <= 127; i++) {
            name = object(4608 + i); entry(name "sub0", 5, "ro", 2)
            entry(name "sub1", 7, "ro", 512 + i); entry(name "sub2", 7, "ro", 768 + i)
        }
        name = object(5120); entry(name "sub0", 5, "ro", 2); entry(name "sub1", 7, "rw", "0x400"); entry(name "sub2", 5, "rw", 255)
        name = object(5632); entry(name "sub0", 5, "rw", 2); entry(name "sub1", 7, "rw", "0x20020020"); entry(name "sub2", 7, "rw", "0x20030020")
        for (i = 0; i < 512; i++) {
            name = object(6144 + i); entry(name "sub0", 5, "ro", 5); entry(name "sub1", 7, "rw", "0x185")
            entry(name "sub2", 5, "rw", i < 4 ? 1 : 255); entry(name "sub3", 6, "rw", 0); entry(name "sub5", 6, "rw", 65535)
            name = object(6656 + i); entry(name "sub0", 5, "rw", 2)
            entry(name "sub1", 7, "rw", "0x20020020"); entry(name "sub2", 7, "rw", "0x20030020")
        }
        printf "[MandatoryObjects]\nSupportedObjects=%d\n%s", count, list
    }'
