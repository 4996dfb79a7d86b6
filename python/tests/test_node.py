"""A node through frames, ticks and its entries. What it sends is that of CiA 301, or of a session in examples/."""

import copy
import gc
import os
import pickle
import re
import signal
import threading
import unittest
from concurrent.futures import ProcessPoolExecutor
from pathlib import Path
from types import SimpleNamespace
from unittest import mock

import bafokun
from bafokun.faults import _ABORTS, _BUILD, _SHEET

ROOT = Path(__file__).resolve().parents[2]
SENSOR = ROOT / "examples" / "temperature-sensor.eds"
MODULE = ROOT / "examples" / "io-module.eds"

# the mandatory objects, and what a test puts after them
MANDATORY = """[MandatoryObjects]
SupportedObjects=3
1=0x1000
2=0x1001
3=0x1018
[1000]
ParameterName=Device type
DataType=7
AccessType=ro
[1001]
ParameterName=Error register
DataType=5
AccessType=ro
[1018]
ParameterName=Identity
ObjectType=9
[1018sub0]
ParameterName=Highest sub-index
DataType=5
AccessType=const
DefaultValue=1
[1018sub1]
ParameterName=Vendor-ID
DataType=7
AccessType=ro
DefaultValue=0x1F2
"""


def sheet(*objects, **more):
    """A sheet with these objects from 2000h on, each the lines of its section."""
    lists = [f"[ManufacturerObjects]\nSupportedObjects={len(objects)}"]
    lists += [f"{i + 1}={0x2000 + i}" for i in range(len(objects))]
    sections = [f"[{0x2000 + i:X}]\n{text}" for i, text in enumerate(objects)]
    return (MANDATORY + "\n".join(lists + sections) + "\n" + more.get("more", "")).encode("latin-1")


def var(kind, name="value", access="rw", **keys):
    """The lines of a VAR."""
    lines = [f"ParameterName={name}", f"DataType={kind}", f"AccessType={access}"]
    return "\n".join(lines + [f"{key}={value}" for key, value in keys.items()])


class Like:
    """An integer of another package, as one of numpy: it has __index__, and is no int."""

    def __init__(self, number):
        self.number = number

    def __index__(self):
        return self.number


def upload(node, index, sub_index):
    """The response to the upload of an entry by SDO, expedited."""
    (response,) = node.take((0x600 + node.node_id, bytes([0x40, index & 0xFF, index >> 8, sub_index, 0, 0, 0, 0])))
    return response.data


class Sessions(unittest.TestCase):
    """The sessions of examples/, which conode replay plays too."""

    def play(self, eds, node_id, session):
        node = bafokun.Node.from_sheet(eds, node_id)
        now, sent = None, [(0, frame) for frame in node.boot()]
        for line in (ROOT / "examples" / f"{session}.log").read_text().splitlines():
            words = line.split()
            frames = []
            if line.startswith("("):
                ms = int(words[0][1:-1].replace(".", "")) // 1000
                for now in range((ms if now is None else now) + 1, ms + 1):
                    sent += [(now, frame) for frame in node.tick()]
                now = ms
                identifier, data = words[2].split("#")
                frames = node.take((int(identifier, 16), bytes.fromhex(data)))
            elif words[0] == "!tick":
                for now in range(now + 1, now + int(words[1]) + 1):
                    sent += [(now, frame) for frame in node.tick()]
            elif words[0].startswith("!"):
                try:
                    self.event(node, *words)
                except bafokun.Refused as error:
                    sent.append((None, f"refused {error.code:08X}"))
                frames = node.frames()
            sent += [(now, frame) for frame in frames]
        wanted = []
        for line in (ROOT / "examples" / f"{session}.replayed").read_text().splitlines():
            words = line.split()
            if words[0] != ";":
                wanted.append((int(words[0][1:-1].replace(".", "")) // 1000, words[2]))
            elif words[1] == "line":
                wanted.append((None, " ".join(words[3:])))
        self.assertEqual([(ms, str(it)) for ms, it in sent], wanted)

    def event(self, node, name, first, *words):
        if name == "!event":
            node.event(int(first))
        elif name == "!clear":
            node.clear_errors(int(first, 16))
        elif name == "!raise":
            node.raise_error(int(first, 16), int(words[0], 16), bytes.fromhex(words[1]))
        else:
            key = tuple(int(it, 16) for it in first.split(":"))
            node.write(*key, bytes.fromhex(words[0])) if name == "!write" else node.changed(*key)

    def test_sensor(self):
        self.play(SENSOR, 5, "temperature-sensor-session")

    def test_module(self):
        self.play(MODULE, 8, "io-module-session")

    def test_many_ms(self):
        """Many ms at once give the frames of each, in order: the heartbeats of 1,000 ms."""
        at_once, one_by_one = (bafokun.Node.from_sheet(SENSOR, 5) for _ in range(2))
        frames = [frame for _ in range(2500) for frame in one_by_one.tick()]
        self.assertEqual(frames, [(0x705, b"\x7F")] * 2)
        self.assertEqual(at_once.tick(2500), frames)
        self.assertEqual(at_once.tick(0), [])


class Entries(unittest.TestCase):
    def test_names(self):
        node = bafokun.Node.from_sheet(SENSOR, 5)
        self.assertEqual(len(node), 22)
        entry = node["AI sensor type.AI sensor type 1"]
        self.assertEqual(repr(entry), "<Entry 6110:01 'AI sensor type 1' UNSIGNED16 ro>")
        self.assertIs(node[0x6110, 1], entry)
        self.assertIs(node["AI sensor type 1"], entry)
        self.assertEqual((entry.object_name, node[0x1000].object_name), ("AI sensor type", ""))
        self.assertEqual((entry.capacity, node[0x1000].capacity), (2, 4))
        self.assertEqual([it.index for it in node][:2], [0x1000, 0x1001])
        self.assertIn("Device type", node)
        for missing, text in [
            ("Number of channels", "6110:00, 6131:00, 6132:00, 6150:00, 7130:00"),
            ("Identity object", "1018:00, 1018:01, 1018:02, 1018:03, 1018:04"),
            (0x6110, "6110:00, 6110:01"),
            ("device type", "no entry"),
            ((0x1000, 1), "no entry"),
            (0x1002, "no entry is 1002h"),
            (-1, "no entry is -1"),
            ((0x1000, -1), "no entry is \\(4096, -1\\)"),
            ("1018:05", "no entry is '1018:05'"),
            ("1018:1", "no entry"),
            ("0x1018:01", "no entry"),
            ("1018:01 ", "no entry"),
            ("1018:01\n", "no entry"),
            ("\u0661\u0660\u0661\u0668:01", "no entry"),
        ]:
            self.assertNotIn(missing, node)
            with self.assertRaisesRegex(KeyError, text):
                node[missing]

    def test_keys(self):
        """As KeyError lists them: the text of a key, also in small letters; and what has __index__."""
        node = bafokun.Node.from_sheet(SENSOR, 5)
        for key in ("1018:01", (Like(0x1018), Like(1))):
            self.assertIs(node[key], node[0x1018, 1])
            self.assertIn(key, node)
        self.assertIs(node[Like(0x1000)], node[0x1000])
        node["7130:01"] = 7
        self.assertEqual(node["AI input PV 1"].raw, 7)
        node = bafokun.Node(sheet(var(5, name="2001:00"), *[var(5, name=f"other {it}") for it in range(11)]), 5)
        self.assertIs(node["200a:00"], node[0x200A])
        # a name goes first
        self.assertIs(node["2001:00"], node[0x2000])

    def test_keys_of_other_types(self):
        node = bafokun.Node.from_sheet(SENSOR, 5)
        for key in (None, 1.5, b"1018:01", [0x1018, 1], (0x1018,), (0x1018, 1, 0), (0x1018, "1"), (None, 1), ()):
            words = f"an entry is a name, an index, or a pair (index, sub-index), not {key!r}"
            for call in (lambda: node[key], lambda: key in node, lambda: node.__setitem__(key, 1)):
                with self.assertRaisesRegex(TypeError, f"^{re.escape(words)}$"):
                    call()

    def test_values_with_index(self):
        """What has __index__ is an int, as for ms."""
        for kind, data in [(0x01, "01"), (0x02, "01"), (0x06, "0100"), (0x08, "0000803F")]:
            text = var(7, OriginalDataType=8) if kind == 8 else var(kind)
            node = bafokun.Node(sheet(text), 5)
            node[0x2000].raw = Like(1)
            self.assertEqual(node[0x2000].bytes, bytes.fromhex(data))
            if kind != 8:
                with self.assertRaisesRegex(ValueError, "70000 is outside"):
                    node[0x2000].raw = Like(70000)

    def test_values(self):
        """Each type: a value, and its bytes."""
        for kind, value, data, wrong, foreign in [
            (0x01, True, "01", 2, "yes"),
            (0x02, -128, "80", -129, 1.0),
            (0x03, -2, "FEFF", 32768, "1"),
            (0x10, -2, "FEFFFF", 1 << 23, b""),
            (0x15, -1, "FF" * 8, 1 << 63, None),
            (0x05, 255, "FF", 256, 1.0),
            (0x06, 258, "0201", -1, "1"),
            (0x16, 0x030201, "010203", 1 << 24, None),
            (0x1B, (1 << 64) - 1, "FF" * 8, 1 << 64, None),
            (0x09, "a\udcffb", "61FF62", "\u00e4", 5),
            (0x0A, b"\0\1", "0001", None, 5),
            (0x0F, b"", "", None, "text"),
        ]:
            with self.subTest(kind=kind):
                node = bafokun.Node(sheet(var(kind)), 5)
                node[0x2000] = value
                self.assertEqual(node[0x2000].raw, value)
                self.assertIs(type(node[0x2000].raw), type(value))
                self.assertEqual(node[0x2000].bytes, bytes.fromhex(data))
                if wrong is not None:
                    with self.assertRaises(ValueError):
                        node[0x2000] = wrong
                with self.assertRaises(TypeError):
                    node[0x2000] = foreign
                self.assertEqual(node[0x2000].raw, value)

    def test_reals_out_of_range(self):
        """Also integers that no float has are outside."""
        for kind in (0x08, 0x11):
            node = bafokun.Node(sheet(var(0x07 if kind == 8 else 0x1B, OriginalDataType=f"0x{kind:04X}")), 5)
            for value in (10**400, -(10**400)):
                with self.assertRaisesRegex(ValueError, "is outside REAL"):
                    node[0x2000] = value

    def test_original_types(self):
        """What an adapted sheet has of types that the library doesn't know."""
        for original, kind, value, data in [
            (0x08, 0x07, 21.5, "0000AC41"),
            (0x11, 0x1B, -2.0, "00000000000000C0"),
            (0x0B, 0x0A, "\u00e4\u20ac", "E400AC20"),
            (0x0C, 0x19, 0x010000000002, "020000000001"),
        ]:
            with self.subTest(original=original):
                node = bafokun.Node(sheet(var(kind, OriginalDataType=f"0x{original:04X}")), 5)
                node[0x2000] = value
                self.assertEqual(node[0x2000].bytes, bytes.fromhex(data))
                self.assertEqual(node[0x2000].raw, value)
                self.assertEqual(node[0x2000].type, original)
        # a REAL32 is never a text, nor outside its range
        node = bafokun.Node(sheet(var(7, OriginalDataType=8)), 5)
        for wrong, error in [("1", TypeError), (b"\0\0\0\0", TypeError), (1e300, ValueError)]:
            with self.assertRaises(error):
                node[0x2000] = wrong
        # one that doesn't fit the type is none
        for other in ("0x0011", "0x0006", "none", "0x08 ; REAL32"):
            self.assertEqual(bafokun.Node(sheet(var(7, OriginalDataType=other)), 5)[0x2000].type, 7)

    def test_sheets(self):
        """What is odd in a sheet, and accepted."""
        odd = sheet(
            var(9, name="Gr\xf6\xdfe = 1", DefaultValue="x\xff"),
            "ObjectType=2\nParameterName=File",
            "ParameterName=List\nObjectType=8",
            "objecttype = 7 \r\nparametername=\nParameterName= Last\t\nDataType=0x5\nAccessType=RO",
            more="[2002SUB0]\nParameterName=Count\nDataType=5\nAccessType=ro\n[2002sub0A]\nParameterName=Tenth\n"
            "DataType=5\nAccessType=ro\n[2000sub1]\nParameterName=passed over\n[2005]\nParameterName=unlisted\n"
            "DataType=0x40\n; ParameterName=a comment\n",
        )
        node = bafokun.Node(b"\xef\xbb\xbf" + odd, 5)
        self.assertEqual(
            [repr(it) for it in node][4:],
            [
                "<Entry 2000:00 'Größe = 1' VISIBLE_STRING rw>",
                "<Entry 2001:00 'File' DOMAIN rw>",
                "<Entry 2002:00 'Count' UNSIGNED8 ro>",
                "<Entry 2002:0A 'Tenth' UNSIGNED8 ro>",
                "<Entry 2003:00 'Last' UNSIGNED8 ro>",
            ],
        )
        self.assertEqual(node["Größe = 1"].raw, "x\udcff")
        self.assertEqual(node["List.Tenth"].sub_index, 10)

    def test_set_by_the_application(self):
        """It is what a client reads; what the sheet refuses is refused, and changes nothing."""
        node = bafokun.Node.from_sheet(SENSOR, 5)
        node["AI input PV 1"] = -2
        self.assertEqual(upload(node, 0x7130, 1), bytes.fromhex("4B307101FEFF0000"))
        with self.assertRaisesRegex(bafokun.Refused, "06090032: the value is below the low limit") as caught:
            node["Measuring interval in ms"] = 9
        self.assertEqual(caught.exception.code, 0x06090032)
        self.assertEqual(node["Measuring interval in ms"].raw, 1000)
        with self.assertRaisesRegex(bafokun.Refused, "06070013"):
            node[0x2000].bytes = b"\0"
        with self.assertRaises(TypeError):
            node[0x2000].bytes = 2
        # longer than the room that is asked for first
        node = bafokun.Node.from_sheet(SENSOR, 5, strings=300)
        node["Date of the last calibration"] = "9" * 300
        self.assertEqual(node["Date of the last calibration"].raw, "9" * 300)

    def test_constant(self):
        """Not even the application writes an entry of access const."""
        node = bafokun.Node.from_sheet(MODULE, 8)
        self.assertEqual(node[0x1008].access, "const")
        with self.assertRaisesRegex(bafokun.Refused, "06010002"):
            node[0x1008] = "CIO-41"

    def test_read_and_written_by_key(self):
        node = bafokun.Node.from_sheet(SENSOR, 5)
        node.write(0x7130, 1, b"\xd7\0")
        self.assertEqual(node.read(0x7130, 1), b"\xd7\0")
        with self.assertRaisesRegex(KeyError, "7130:02"):
            node.read(0x7130, 2)
        with self.assertRaisesRegex(bafokun.Refused, "no such sub-index"):
            node.write(0x7130, 2, b"\xd7\0")

    def test_changed_entries(self):
        """What comes from SDO clients, RPDOs and resets, once, also if the bytes are the same; nothing that the application sets."""
        node = bafokun.Node.from_sheet(SENSOR, 5)
        self.assertEqual(node.changed_entries(), [])
        for _ in range(2):
            node.take((0x605, bytes.fromhex("2B002000F4010000")))
            self.assertEqual([(it.name, it.raw) for it in node.changed_entries()], [("Measuring interval in ms", 500)])
            self.assertEqual(node.changed_entries(), [])
        node["AI input PV 1"] = -2
        self.assertEqual(node.changed_entries(), [])
        node.take((0, bytes.fromhex("8205")))
        self.assertEqual(node.changed_entries(), [it for it in node if 0x1000 <= it.index <= 0x1FFF])
        node.take((0, bytes.fromhex("8105")))
        self.assertEqual(node.changed_entries(), list(node))

    def test_changed_entries_at_sync(self):
        """Those of several RPDOs, by key."""
        node = bafokun.Node.from_sheet(MODULE, 8)
        node[0x1400, 2] = node[0x1401, 2] = 1
        node.take((0, b"\x01\x08"))
        for _ in range(2):
            node.take((0x308, bytes.fromhex("01000200")))
            node.take((0x208, bytes.fromhex("0A0B")))
            self.assertEqual(node.changed_entries(), [])
            node.take((0x80, b""))
            keys = [(it.index, it.sub_index, it.raw) for it in node.changed_entries()]
            self.assertEqual(keys, [(0x6200, 1, 10), (0x6200, 2, 11), (0x6411, 1, 1), (0x6411, 2, 2)])


class Inputs(unittest.TestCase):
    def test_events_wait(self):
        """What the application's side sends comes first in what the next input gives, or by itself."""
        node = bafokun.Node.from_sheet(MODULE, 8)
        self.assertEqual(node.boot(), [(0x708, b"\0")])
        self.assertEqual(node.state, bafokun.State.PRE_OPERATIONAL)
        self.assertEqual(node.take((0, b"\x01\x08")), [])
        self.assertEqual(node.state, bafokun.State.OPERATIONAL)
        node[0x6000, 1] = 5
        node.raise_error(0x3120)
        # TPDO1 at the change (1A00h), the emergency with the bit of voltage
        self.assertEqual(
            [str(it) for it in node.take((0x123, b""))], ["188#0500", "088#2031050000000000"]
        )
        node.clear_errors()
        node.event(0)
        node.tick(99)
        self.assertEqual([str(it) for it in node.frames()], [])
        self.assertEqual(node[0x1001].raw, 0)
        self.assertEqual((node.node_id, node.held(0)), (8, 0))

    def test_bus_changed(self):
        """8120h and 8140h come and go (CiA 301, 7.2.7.1); at bus-off operational is left, by 1029:01 (7.5.2.32)."""
        node = bafokun.Node.from_sheet(MODULE, 8)
        node.take((0, b"\x01\x08"))
        for change, frames, state in [
            (bafokun.BusChange.PASSIVE, ["088#2081110000000000"], bafokun.State.OPERATIONAL),
            (bafokun.BusChange.ACTIVE, ["088#0000000000000000"], bafokun.State.OPERATIONAL),
            (bafokun.BusChange.OFF, [], bafokun.State.PRE_OPERATIONAL),
            (bafokun.BusChange.RECOVERED, ["088#4081110000000000"], bafokun.State.PRE_OPERATIONAL),
            (bafokun.BusChange.ACTIVE, ["088#0000000000000000"], bafokun.State.PRE_OPERATIONAL),
        ]:
            node.bus_changed(change)
            self.assertEqual([str(it) for it in node.frames()], frames)
            self.assertIs(node.state, state)

    def test_idle(self):
        """Nothing is due before the next heartbeat, and never where there is none (CiA 301, 7.2.8.3.2)."""
        node = bafokun.Node.from_sheet(SENSOR, 5)
        self.assertEqual(node.idle(), 999)
        self.assertEqual((node.tick(400), node.idle()), ([], 599))
        self.assertEqual((node.tick(599), node.idle()), ([], 0))
        self.assertEqual([str(it) for it in node.tick()], ["705#7F"])
        node.write(0x1017, 0, bytes(2))
        self.assertIsNone(node.idle())

    def test_happened(self):
        """What NMT, SYNC, RPDOs and the heartbeats of others did, once (CiA 301, 7.2.5, 7.2.8)."""
        node = bafokun.Node.from_sheet(MODULE, 8)
        node.boot()
        self.assertIsNone(node.happened())
        node.take((0, b"\x01\x08"))
        node.take((0x80, b""))
        self.assertEqual(node.happened(), bafokun.Events(state=bafokun.State.OPERATIONAL, sync=True))
        self.assertIsNone(node.happened())
        node.take((0, b"\x81\x08"))
        self.assertEqual(
            node.happened(), bafokun.Events(reset_node=True, state=bafokun.State.PRE_OPERATIONAL)
        )
        node.write(0x1016, 1, bytes.fromhex("64000700"))
        node.take((0x707, b"\x05"))
        node.tick(100)
        self.assertEqual(node.happened(), bafokun.Events(lost=frozenset({7}), silent=frozenset({7})))
        node.take((0x707, b"\x05"))
        self.assertEqual(node.happened(), bafokun.Events(back=frozenset({7})))

    def test_words_out_of_range(self):
        node = bafokun.Node.from_sheet(SENSOR, 5)
        for call in (
            lambda: node.take((0x800, b"")),
            lambda: node.take((-1, b"")),
            lambda: node.take((0x605, bytes(9))),
            lambda: node.tick(-1),
            lambda: node.write(0x17130, 1, b"\0\0"),
            lambda: node.read(0x7130, 257),
            lambda: node.event(0x10000),
            lambda: node.raise_error(0x14200),
            lambda: node.raise_error(0x4200, 256),
            lambda: node.raise_error(0x4200, 8, b"1234"),
            lambda: node.held(256),
            lambda: bafokun.Node.from_sheet(SENSOR, 261),
            lambda: bafokun.Node.from_sheet(SENSOR, 5, domains=65536),
        ):
            with self.assertRaises(ValueError):
                call()
        for call, words in (
            (lambda: node.bus_changed(4), "change isn't 0 to 3: 4"),
            (lambda: node.bus_changed(-1), "change isn't 0 to 3: -1"),
            (lambda: bafokun.Node.from_sheet(SENSOR, 256), "node_id isn't 1 to 127: 256"),
            (lambda: bafokun.Node.from_sheet(SENSOR, -1), "node_id isn't 1 to 127: -1"),
        ):
            with self.assertRaisesRegex(ValueError, f"^{words}$"):
                call()
        node = bafokun.Node.from_sheet(MODULE, 8)
        node.bus_changed(3)
        self.assertEqual([str(it) for it in node.frames()], ["088#4081110000000000"])

    def test_messages(self):
        """A message of python-can is checked as a pair is; one that a device doesn't hear is passed over before that."""
        node = bafokun.Node.from_sheet(SENSOR, 5)

        def message(identifier, data, **kind):
            kinds = dict.fromkeys(("is_extended_id", "is_remote_frame", "is_error_frame", "is_fd"), False)
            return SimpleNamespace(arbitration_id=identifier, data=data, **{**kinds, **kind})

        request = bytearray.fromhex("4000100000000000")
        self.assertEqual([str(it) for it in node.take(message(0x605, request))], ["585#4300100094010200"])
        for frame, error, words in (
            (message(0x10605, request), ValueError, "a frame's identifier isn't 0 to 2047: 67077"),
            (message(-1, request), ValueError, "a frame's identifier isn't 0 to 2047: -1"),
            (message(0x605, request + b"\0"), ValueError, "a frame's data isn't at most 8 bytes: "),
            (message(605.0, request), TypeError, "a frame's identifier isn't an int: 605.0"),
            (message(0x605, None), TypeError, "a frame's data isn't bytes: None"),
        ):
            with self.assertRaisesRegex(error, f"^{words}"):
                node.take(frame)
        for kind in ("is_extended_id", "is_remote_frame", "is_error_frame", "is_fd"):
            self.assertEqual(node.take(message(0x10605, bytes(64), **{kind: True})), [])

    def test_words_of_other_types(self):
        """Each is said by a TypeError, which has what is wanted."""
        text, node = SENSOR.read_bytes(), bafokun.Node.from_sheet(SENSOR, 5)
        for call, words in (
            (lambda: bafokun.Node(str(SENSOR), 5), "bytes, not as str; Node.from_sheet reads a file"),
            (lambda: bafokun.Node(text.decode()), "bytes, not as str"),
            (lambda: bafokun.Node(None, 5), "a sheet's text isn't bytes: None"),
            (lambda: bafokun.Node(text, 5.0), "node_id isn't an int: 5.0"),
            (lambda: bafokun.Node(text, "5"), "node_id isn't an int: '5'"),
            (lambda: bafokun.Node(text, 5, domains=8.0), "domains isn't an int: 8.0"),
            (lambda: node.tick(1.5), "ms isn't an int: 1.5"),
            (lambda: node.take([0x605, b""]), "pair .* or a message of python-can, not \\[1541, b''\\]"),
            (lambda: node.take((0x605, b"", 0)), "pair .* or a message"),
            (lambda: node.take(None), "pair .* or a message of python-can, not None"),
            (lambda: node.take("605#40"), "pair .* or a message"),
            (lambda: node.take((605.0, b"")), "identifier isn't an int: 605.0"),
            (lambda: node.take((0x605, "40")), "data isn't bytes: '40'"),
            (lambda: node.take((0x605, 8)), "data isn't bytes: 8"),
            (lambda: node.write(0x7130, 1, "00"), "data isn't bytes: '00'"),
            (lambda: node.write(0x7130, 1.0, b"\0\0"), "sub_index isn't an int: 1.0"),
            (lambda: setattr(node[0x7130, 1], "bytes", 2), "data isn't bytes: 2"),
            (lambda: node.read("7130", 1), "index isn't an int: '7130'"),
            (lambda: node.event(0.0), "tpdo isn't an int: 0.0"),
            (lambda: node.bus_changed("OFF"), "^change isn't a BusChange: 'OFF'$"),
            (lambda: node.bus_changed(None), "^change isn't a BusChange: None$"),
            (lambda: node.bus_changed(1.0), "^change isn't a BusChange: 1.0$"),
            (lambda: bafokun.run(object(), node), r"run\(node, bus\): <object object at \w+> is none"),
            (lambda: bafokun.running(object(), node).__enter__(), r"run\(node, bus\): <object object at \w+> is none"),
            (lambda: node.raise_error("4200"), "code isn't an int: '4200'"),
            (lambda: node.raise_error(0x4200, 8, "12345"), "manufacturer isn't bytes: '12345'"),
        ):
            with self.assertRaisesRegex(TypeError, words):
                call()

    def test_like_bytes(self):
        """A bytearray and a memoryview are taken as bytes."""
        for like in (bytearray, memoryview):
            node = bafokun.Node(like(SENSOR.read_bytes()), 5)
            node.write(0x7130, 1, like(b"\x01\x02"))
            self.assertEqual(node.read(0x7130, 1), b"\x01\x02")
            (response,) = node.take((0x605, like(bytes.fromhex("4030710100000000"))))
            self.assertEqual(str(response), "585#4B30710101020000")
            node = bafokun.Node(like(MODULE.read_bytes()), 8)
            node.raise_error(0x4200, manufacturer=like(b"abcde"))
            self.assertEqual(node.frames(), [(0x88, b"\x00\x42\x09abcde")])

    def test_closed(self):
        with bafokun.Node.from_sheet(SENSOR, 5) as node:
            entry = node[0x1000]
        node.close()
        for call in (node.tick, node.boot, lambda: entry.raw, lambda: node.state):
            with self.assertRaisesRegex(ValueError, "closed"):
                call()

    def test_given_back(self):
        """Also where nobody closes it: a node that is lost is freed."""
        freed = bafokun.Node.from_sheet(SENSOR, 5)._free
        gc.collect()
        self.assertFalse(freed.alive)

    def test_threads(self):
        """Calls from several threads come one after the other."""
        node = bafokun.Node.from_sheet(SENSOR, 5)
        request = (0x605, bytes.fromhex("4000100000000000"))
        responses = []

        def ask():
            responses.extend(frame for _ in range(500) for frame in node.take(request))

        threads = [threading.Thread(target=ask) for _ in range(4)]
        for thread in threads:
            thread.start()
        for thread in threads:
            thread.join()
        self.assertEqual(responses, [(0x585, bytes.fromhex("4300100094010200"))] * 2000)


    def test_signal_handler(self):
        """No call may come within another one of its thread, whose frames come once; between two calls each may."""
        node, library = bafokun.Node.from_sheet(SENSOR, 5), bafokun.library.load()
        request = (0x605, bytes.fromhex("4000100000000000"))
        calls = (
            lambda: node.take(request),
            lambda: node.tick(1000),
            lambda: setattr(node["AI input PV 1"], "raw", 1),
            lambda: node.bus_changed(bafokun.BusChange.PASSIVE),
            lambda: node["AI input PV 1"].raw,
            lambda: node.state,
            node.frames,
            node.changed_entries,
            node.close,
        )
        said, is_within = [], []

        def handle(*_):
            is_within.append(True)
            for call in calls:
                with self.assertRaises(RuntimeError) as caught:
                    call()
                said.append(str(caught.exception))

        def take(*words):
            count = library.bafokun_take(*words)
            if not is_within:
                signal.raise_signal(signal.SIGUSR1)
            return count

        before = signal.signal(signal.SIGUSR1, handle)
        try:
            with mock.patch.object(node, "_library", mock.Mock(wraps=library, bafokun_take=take)):
                responses = node.take(request)
        finally:
            signal.signal(signal.SIGUSR1, before)
        self.assertEqual(said, ["a call of this node isn't over: none may come from a signal handler"] * len(calls))
        self.assertEqual([str(it) for it in responses], ["585#4300100094010200"])
        self.assertEqual(node.frames(), [])
        self.assertEqual(node.take(request), responses)

    def test_call_after_an_exception(self):
        """A call that ended by an exception is over."""
        node = bafokun.Node.from_sheet(SENSOR, 5)
        with mock.patch.object(node, "_library", mock.Mock(bafokun_take=mock.Mock(side_effect=KeyboardInterrupt))):
            with self.assertRaises(KeyboardInterrupt):
                node.take((0x605, bytes(8)))
        self.assertEqual(node.state, bafokun.State.PRE_OPERATIONAL)

    def test_call_after_a_lock_that_stayed(self):
        """A call that ended before it gave the lock back, as an exception may do it before Python 3.10, is over too."""
        node, states = bafokun.Node.from_sheet(SENSOR, 5), []
        node._lock.acquire()
        self.assertEqual(node.state, bafokun.State.PRE_OPERATIONAL)
        thread = threading.Thread(target=lambda: states.append(node.state), daemon=True)
        thread.start()
        thread.join(10)
        self.assertEqual(states, [bafokun.State.PRE_OPERATIONAL])


class Faults(unittest.TestCase):
    def test_sheet(self):
        path = ROOT / "examples" / "typical-mistake.eds"
        with self.assertRaises(bafokun.SheetFault) as caught:
            bafokun.Node.from_sheet(path, 5)
        fault = caught.exception
        self.assertEqual((fault.number, fault.name, fault.line), (9, "BadList", 59))
        self.assertTrue(str(fault).startswith(f"{path}:59: BadList: SupportedObjects and the keys don't agree"))
        # no line is to blame
        for path, place in (("x.eds", "x.eds: "), ("", "")):
            words = rf"^{place}MissingSection: there is no section \[MandatoryObjects\]: add it, with 1000h"
            with self.assertRaisesRegex(bafokun.SheetFault, words) as caught:
                bafokun.Node(b"", 5, path=path)
            self.assertEqual(caught.exception.line, 0)
        with self.assertRaisesRegex(bafokun.SheetFault, "^line 1: BadLine: "):
            bafokun.Node(b"[", 5)

    def test_build(self):
        with self.assertRaisesRegex(ValueError, "BadMapping 1A00:00") as caught:
            bafokun.Node.from_sheet(ROOT / "examples" / "unmappable-entry.eds", 5)
        fault = caught.exception
        self.assertIsInstance(fault, bafokun.BuildFault)
        self.assertEqual((fault.number, fault.index, fault.sub_index), (5, 0x1A00, 0))

    def test_node_id(self):
        """That of a device configuration file counts where none is given."""
        self.assertEqual(bafokun.Node.from_sheet(ROOT / "examples" / "temperature-sensor.dcf").node_id, 5)
        self.assertEqual(bafokun.Node.from_sheet(ROOT / "examples" / "temperature-sensor.dcf", 6).node_id, 6)
        for node_id in (None, 0, 128):
            with self.assertRaisesRegex(bafokun.BuildFault, "NodeId") as caught:
                bafokun.Node.from_sheet(SENSOR, node_id)
            self.assertEqual((caught.exception.number, caught.exception.name), (1, "NodeId"))
            self.assertEqual("no node-ID is given" in str(caught.exception), node_id is None)
        without = "no node-ID is given, and the sheet has none: "
        for call, words in (
            (lambda: bafokun.Node.from_sheet(SENSOR), f"{SENSOR}: NodeId: {without}Node.from_sheet(PATH, 5)"),
            (lambda: bafokun.Node(SENSOR.read_bytes()), f"NodeId: {without}Node(BYTES, 5)"),
        ):
            with self.assertRaises(bafokun.BuildFault) as caught:
                call()
            fault = caught.exception
            self.assertEqual(str(fault), words)
            self.assertEqual(f"{fault.meaning}: {fault.fix}", words.partition("NodeId: ")[2])
        # what is wrong in the sheet goes first
        with self.assertRaises(bafokun.SheetFault):
            bafokun.Node.from_sheet(ROOT / "examples" / "typical-mistake.eds")

    def test_pickled_and_copied(self):
        """Each exception stays what it is, also on its way from another process."""
        node = bafokun.Node.from_sheet(SENSOR, 5)
        for call in (
            lambda: node.write(0x7130, 2, b"\0"),
            lambda: bafokun.Node.from_sheet(ROOT / "examples" / "typical-mistake.eds", 5),
            lambda: bafokun.Node(b"", 5),
            lambda: bafokun.Node.from_sheet(ROOT / "examples" / "unmappable-entry.eds", 5),
            lambda: bafokun.Node.from_sheet(SENSOR),
        ):
            with self.assertRaises((bafokun.Fault, bafokun.Refused)) as caught:
                call()
            error = caught.exception
            error.note = "of the caller"
            others = [pickle.loads(pickle.dumps(error, protocol)) for protocol in range(pickle.HIGHEST_PROTOCOL + 1)]
            for other in (*others, copy.copy(error), copy.deepcopy(error)):
                self.assertIs(type(other), type(error))
                self.assertEqual((str(other), repr(other), vars(other)), (str(error), repr(error), vars(error)))
        with ProcessPoolExecutor(1) as pool:
            path = ROOT / "examples" / "typical-mistake.eds"
            with self.assertRaisesRegex(bafokun.SheetFault, "^.*typical-mistake.eds:59: BadList: ") as caught:
                pool.submit(bafokun.Node.from_sheet, path, 5).result()
            self.assertEqual((caught.exception.line, caught.exception.path), (59, str(path)))

    def test_words(self):
        """The names and the numbers are those of docs/SHEETS.md, the abort codes those of docs/TRACES.md."""
        pages = (ROOT / "docs" / "SHEETS.md").read_text(), (ROOT / "docs" / "TRACES.md").read_text()
        faults, builds = pages[0].split("### The build faults")
        for page, table in ((faults, _SHEET), (builds, _BUILD)):
            named = re.findall(r"^\*\*(\d+) (\w+)[ .]", page, re.MULTILINE)
            self.assertEqual([(int(number), name) for number, name in named], [(it, table[it][0]) for it in table])
        meanings = re.findall(r"^\| ([0-9A-F]{8}) \| [ *]*\| (.*?) \|", pages[1], re.MULTILINE)
        said = {int(code, 16): meaning for code, meaning in meanings}
        for code, same in ((0x08000021, "for"), (0x08000022, "in")):
            self.assertRegex(said[code], f"^the same, {same} ")
            del said[code]
            self.assertTrue(_ABORTS.pop(code).startswith(_ABORTS[0x08000020]))
        self.assertEqual(said, _ABORTS)


class Package(unittest.TestCase):
    def test_version(self):
        header = (ROOT / "include" / "bafokun.h").read_text()
        self.assertIn(f'#define BAFOKUN_VERSION "{bafokun.__version__}"\n', header)

    def test_library_of_the_environment(self):
        """The chosen library is taken, and none in its place."""
        bafokun.library.load.cache_clear()
        chosen = os.environ.get("BAFOKUN_LIBRARY")
        try:
            os.environ["BAFOKUN_LIBRARY"] = str(ROOT / "include" / "bafokun.h")
            with self.assertRaises(OSError):
                bafokun.Node.from_sheet(SENSOR, 5)
        finally:
            del os.environ["BAFOKUN_LIBRARY"]
            if chosen:
                os.environ["BAFOKUN_LIBRARY"] = chosen
            bafokun.library.load.cache_clear()

    def test_another_version(self):
        """So is one of another version, but for the third number."""
        bafokun.library.load.cache_clear()
        major, minor, _ = bafokun.__version__.split(".")
        try:
            with mock.patch("bafokun.library.__version__", f"{major}.{minor}.255"):
                self.assertEqual(bafokun.Node.from_sheet(SENSOR, 5).node_id, 5)
            bafokun.library.load.cache_clear()
            with mock.patch("bafokun.library.__version__", f"{major}.255.0"):
                with self.assertRaisesRegex(OSError, f"has version {major}.{minor}.[0-9]+, this package {major}.255.0: take both from one"):
                    bafokun.Node.from_sheet(SENSOR, 5)
        finally:
            bafokun.library.load.cache_clear()

    def test_another_library(self):
        """Also a library that isn't this one is an OSError."""
        bafokun.library.load.cache_clear()
        chosen = os.environ.get("BAFOKUN_LIBRARY")
        try:
            os.environ["BAFOKUN_LIBRARY"] = "libc.so.6"
            with self.assertRaisesRegex(OSError, "libc.so.6 isn't libbafokun.so of this version: it has no bafokun_build"):
                bafokun.Node.from_sheet(SENSOR, 5)
        finally:
            del os.environ["BAFOKUN_LIBRARY"]
            if chosen:
                os.environ["BAFOKUN_LIBRARY"] = chosen
            bafokun.library.load.cache_clear()


if __name__ == "__main__":
    unittest.main()
