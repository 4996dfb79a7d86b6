#!/usr/bin/env python3
"""compare_random.py [COUNT [SEED [PROGRAM]]]: random sessions of a device that keeps to the standard, compared with its data sheet.

A session is a random trace for the sensor or the I/O module of examples/: SDO requests of every kind, also broken ones, NMT commands to
the device, to others and to all, SYNCs, RPDOs, another node's heartbeats, texts in segments. In some sessions TPDOs answer each n-th of
many SYNCs. What `conode replay` says that the device sends is put into the trace after the input that it follows. Such a recording has no
difference: `conode compare` has to find none. One sheet has another SDO channel open, on which a second client sends too, in some sessions.
"""
import os
import random
import subprocess
import sys
import tempfile

COUNT = int(sys.argv[1]) if len(sys.argv) > 1 else 400
SEED = int(sys.argv[2]) if len(sys.argv) > 2 else random.randrange(10**6)
PROGRAM = sys.argv[3].split() if len(sys.argv) > 3 else ["bin/conode"]

# with what each device keeps of what is written
SHEETS = [("examples/temperature-sensor.eds", 5, "1017:00,2000:00,2010:00")]
SHEETS += [("examples/io-module.eds", 8, "1014:00,1015:00,1017:00,1800:01,1800:02,1A00:00,2001:00")]
# and with what RPDOs write
SHEETS += [("examples/io-module.eds", 8, "1017:00,1400:01,1400:02,1600:00,1600:01,6200:01,6200:02,6411:01")]
# and with many SYNCs
SHEETS += [("examples/io-module.eds", 8, "1800:02,1801:02")]
# with another SDO channel, whose client may write each entry
FURTHER = """[1201]
ParameterName=SDO channel 2
ObjectType=9
[1201sub0]
ParameterName=highest sub-index
DataType=5
AccessType=const
DefaultValue=2
[1201sub1]
ParameterName=COB-ID client to server
DataType=7
AccessType=rw
DefaultValue=$NODEID+0x640
[1201sub2]
ParameterName=COB-ID server to client
DataType=7
AccessType=rw
DefaultValue=$NODEID+0x5C0
"""
SHEETS += [("further.eds", 8, "")]
KEYS = [(0x1000, 0), (0x1001, 0), (0x1003, 0), (0x1008, 0), (0x1014, 0), (0x1015, 0), (0x1017, 0), (0x1018, 0), (0x1018, 1)]
KEYS += [(0x1800, 1), (0x1800, 2), (0x1A00, 0), (0x2000, 0), (0x2001, 1), (0x1234, 0)]
FURTHER_KEYS = [(0x1014, 0), (0x1015, 0), (0x1017, 0), (0x1017, 0), (0x1800, 1), (0x1800, 2), (0x1A00, 0)]
RPDO_KEYS = [(0x1017, 0), (0x1400, 1), (0x1400, 2), (0x1600, 0), (0x1600, 1), (0x6200, 1), (0x6200, 2), (0x6411, 1)]

SYNC_KEYS = [(0x1017, 0), (0x1018, 1), (0x1800, 1), (0x1800, 2), (0x1800, 2), (0x1801, 2), (0x1A00, 0)]
TYPES = [0, 1, 2, 2, 3, 4, 5, 7, 20, 240]
# between inputs, in seconds; of a second without any a recording begins anew
GAPS = [0.001, 0.003, 0.01, 0.1, 0.5, 1.0, 1.5, 3.0]


def data_of(it, node, keys):
    """The identifier and the data of a random frame."""
    index, sub = it.choice(keys)
    key = index.to_bytes(2, "little") + bytes([sub])
    kind = it.random()
    if kind < 0.4:
        return 0x600 + node, b"\x40" + key + bytes(4)
    if kind < 0.55:
        value = it.choice(TYPES if sub == 2 else [0, 1, 100, 500, 1000, 2000])
        return 0x600 + node, bytes([it.choice([0x2F, 0x2B, 0x23])]) + key + value.to_bytes(4, "little")
    if kind < 0.6:
        return 0x600 + node, bytes(it.randrange(256) for _ in range(8))
    if kind < 0.65:
        return 0x600 + node, bytes([it.choice([0x60, 0x70])]) + bytes(7)
    if kind < 0.8:
        return 0, bytes([it.choice([1, 2, 0x80, 0x81, 0x82]), it.choice([0, node, 9])])
    if kind < 0.85:
        return 0x80, b""
    if kind < 0.9:
        return 0x701, b"\x05"
    return 0x200 + node, bytes(it.randrange(256) for _ in range(it.randrange(9)))


def text_of(it, node):
    """The frames of a download of a text in segments, with its size or without."""
    size = it.randrange(40)
    key = it.choice([0x2002, 0x2011]).to_bytes(2, "little") + b"\0"
    indicated = it.choice([True, False])
    yield 0x600 + node, (b"\x21" + key + size.to_bytes(4, "little") if indicated else b"\x20" + key + bytes(4))
    for place in range(0, max(size, 1), 7):
        count = min(7, size - place)
        unused = 7 - count if indicated or it.random() < 0.7 else 0
        first = (place // 7 % 2) << 4 | unused << 1 | (place + 7 >= size)
        yield 0x600 + node, bytes([first]) + bytes(it.randrange(0x41, 0x5B) for _ in range(count)) + bytes(7 - count)


def write_further(folder):
    """The I/O module with another SDO channel, and a heartbeat each 500 ms."""
    with open("examples/io-module.eds", encoding="ascii") as file:
        before, header, after = file.read().partition("[1017]\n")
    text = before + header + after.replace("DefaultValue=0x0", "DefaultValue=500", 1)
    head, _, tail = text.partition("[OptionalObjects]\nSupportedObjects=")
    count, _, tail = tail.partition("\n")
    with open(f"{folder}/further.eds", "w", encoding="ascii") as file:
        file.write(f"{head}[OptionalObjects]\nSupportedObjects={int(count) + 1}\n{int(count) + 1}=0x1201\n{tail}\n{FURTHER}")


def line(stamp, identifier, data):
    return f"({stamp:.6f}) can0 {identifier:03X}#{data.hex().upper()}"


def stamp_of(text):
    return float(text[1 : text.index(")")])


def rpdo_of(it, node):
    """A frame of an RPDO: mostly the first one, whose objects are outputs."""
    return it.choice([0x200, 0x200, 0x200, 0x300]) + node, bytes(it.randrange(256) for _ in range(it.choice([1, 2, 2, 2, 3])))


def recording(it, sheet, node, folder, keys):
    """The lines of a session, with what the device sends."""
    stamp, inputs = 1000.0, []
    # how often the second client sends, where there is one
    second = it.choice([0, 0.1, 0.5]) if sheet.endswith("further.eds") else 0
    if keys is RPDO_KEYS:
        # a heartbeat each 100 ms, and operational
        inputs.append(line(stamp, 0x600 + node, b"\x2b\x17\x10\x00\x64" + bytes(3)))
        inputs.append(line(stamp + 0.1, 0, b"\x01\x00"))
        stamp += 0.2
    if keys is SYNC_KEYS:
        # TPDOs of such a type, and operational
        for index in (b"\x00\x18", b"\x01\x18"):
            inputs.append(line(stamp, 0x600 + node, b"\x2f" + index + b"\x02" + bytes([it.choice(TYPES), 0, 0, 0])))
            stamp += 0.1
        inputs.append(line(stamp, 0, b"\x01\x00"))
        stamp += 0.1
    for _ in range(it.randrange(5, 120)):
        stamp += it.choice(GAPS[:5] if keys is SYNC_KEYS else GAPS)
        if it.random() < 0.1:
            for frame in text_of(it, node):
                inputs.append(line(stamp, *frame))
                stamp += 0.001
        elif keys is RPDO_KEYS and it.random() < 0.3:
            inputs.append(line(stamp, *rpdo_of(it, node)))
        elif keys is SYNC_KEYS and it.random() < 0.8:
            inputs.append(line(stamp, 0x80, b"" if it.random() < 0.97 else bytes([it.randrange(1, 241)])))
        else:
            is_second = it.random() < second
            identifier, data = data_of(it, node, FURTHER_KEYS if is_second else keys)
            if is_second and identifier == 0x600 + node:
                identifier = 0x640 + node
            inputs.append(line(stamp, identifier, data))
    with open(f"{folder}/inputs.log", "w", encoding="ascii") as file:
        file.write("\n".join(inputs) + "\n")
    words = [*PROGRAM, "replay", sheet, f"{folder}/inputs.log", "--node", str(node)]
    sent = [it for it in subprocess.run(words, capture_output=True, text=True, check=True).stdout.splitlines() if it[0] == "("]
    # the boot-up comes before the first input
    lines, sent = [line(stamp_of(inputs[0]) - 0.0005, 0x700 + node, b"\x00")], sent[1:]
    for text in inputs:
        while sent and stamp_of(sent[0]) < stamp_of(text):
            lines.append(sent.pop(0))
        lines.append(text)
        while sent and stamp_of(sent[0]) == stamp_of(text):
            lines.append(sent.pop(0))
    return lines + sent


def keys_of(held):
    """The entries that a session is about, by what is kept of them."""
    if "6200" in held:
        return RPDO_KEYS
    return SYNC_KEYS if "1801" in held else KEYS


def main():
    different = 0
    with tempfile.TemporaryDirectory() as folder:
        write_further(folder)
        for number in range(COUNT):
            it = random.Random(SEED * 1_000_000 + number)
            sheet, node, held = it.choice(SHEETS)
            sheet = sheet.replace("further.eds", f"{folder}/further.eds")
            file = f"{folder}/session.log"
            with open(file, "w", encoding="ascii") as recorded:
                recorded.write("\n".join(recording(it, sheet, node, folder, keys_of(held))) + "\n")
            # with the room that the device has
            words = [*PROGRAM, "compare", sheet, file, "--node", str(node), "--strings", "16", "--domains", "889"]
            words += ["--held", held] if held else []
            ran = subprocess.run(words, capture_output=True, text=True, check=False)
            if ran.returncode:
                different += 1
                print(f"session {number} of seed {SEED}: status {ran.returncode}\n{ran.stdout}{ran.stderr}")
    print(f"{COUNT} sessions of seed {SEED}, {different} with a difference")
    return different > 0


if __name__ == "__main__":
    os.chdir(os.path.dirname(os.path.dirname(os.path.realpath(__file__))))
    sys.exit(main())
