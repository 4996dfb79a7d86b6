"""A node on the virtual bus of python-can, where that is installed."""

import threading
import time
import unittest
from pathlib import Path
from unittest import mock

import bafokun

try:
    import can
except ImportError:
    can = None

ROOT = Path(__file__).resolve().parents[2]
SENSOR = ROOT / "examples" / "temperature-sensor.eds"
MODULE = ROOT / "examples" / "io-module.eds"


@unittest.skipUnless(can, "python-can isn't installed")
class Bus(unittest.TestCase):
    def setUp(self):
        self.node = bafokun.Node.from_sheet(SENSOR, 5)
        # however late a busy machine is, none comes between
        self.node["Producer heartbeat time"] = 0
        self.bus, self.tool = (can.Bus(self.id(), interface="virtual") for _ in range(2))

    def tearDown(self):
        self.bus.shutdown()
        self.tool.shutdown()

    def send(self, identifier, data, **kind):
        kind.setdefault("is_extended_id", False)
        self.tool.send(can.Message(arbitration_id=identifier, data=bytes.fromhex(data), **kind))

    def next(self):
        """The next frame on the bus, as text."""
        message = self.tool.recv(10)
        self.assertIsNotNone(message, "no frame for ten seconds")
        self.assertFalse(message.is_extended_id)
        return str(bafokun.Frame(message.arbitration_id, bytes(message.data)))

    def test_messages(self):
        """A message is the frame that it has; one that a device doesn't hear is passed over."""
        request = dict(arbitration_id=0x605, data=bytes.fromhex("4000100000000000"))
        (response,) = self.node.take(can.Message(is_extended_id=False, **request))
        self.assertEqual(str(response), "585#4300100094010200")
        self.assertEqual(response.message().arbitration_id, 0x585)
        self.assertEqual(self.node.take(can.Message(**request)), [])
        self.assertEqual(self.node.take(can.Message(is_extended_id=False, is_fd=True, **request)), [])
        self.assertEqual(self.node.take(can.Message(is_extended_id=False, arbitration_id=0x605, is_remote_frame=True)), [])
        # python-can makes these too
        request["arbitration_id"] = 0x10605
        with self.assertRaisesRegex(ValueError, "identifier isn't 0 to 2047: 67077"):
            self.node.take(can.Message(is_extended_id=False, **request))
        with self.assertRaisesRegex(ValueError, "data isn't at most 8 bytes"):
            self.node.take(can.Message(is_extended_id=False, arbitration_id=0x605, data=bytes(9)))

    def test_running(self):
        with bafokun.running(self.node, self.bus):
            self.assertEqual(self.next(), "705#00")
            self.node["AI input PV 1"] = 215
            self.send(0x605, "4030710100000000")
            self.assertEqual(self.next(), "585#4B307101D7000000")
            # the heartbeat time becomes 50 ms: the clock is never ahead, and late on a busy machine
            begin = time.monotonic()
            self.send(0x605, "2B17100032000000")
            self.assertEqual(self.next(), "585#6017100000000000")
            self.assertEqual([self.next() for _ in range(20)], ["705#7F"] * 20)
            self.assertGreater(time.monotonic() - begin, 0.99)
        while self.tool.recv(0):
            pass
        self.assertIsNone(self.tool.recv(0.1))

    def test_run(self):
        """It ends after so many seconds; or when it is told to."""
        begin = time.monotonic()
        bafokun.run(self.node, self.bus, seconds=0.05)
        self.assertGreaterEqual(time.monotonic() - begin, 0.05)
        stop = threading.Event()
        stop.set()
        bafokun.run(self.node, self.bus, stop=stop)
        self.assertEqual(self.next(), "705#00")

    def test_run_again(self):
        """A node boots up once: then it goes on as it is, with what waits, until it is reset (CiA 301, 7.3.2)."""
        node = bafokun.Node.from_sheet(MODULE, 8)
        bafokun.run(node, self.bus, seconds=0.02)
        self.assertEqual(self.next(), "708#00")
        node.take((0, b"\x01\x08"))
        node.raise_error(0x4200)
        with bafokun.running(node, self.bus):
            self.assertEqual(self.next(), "088#0042090000000000")
            self.assertEqual(node.state, bafokun.State.OPERATIONAL)
            self.send(0, "8108")
            self.assertEqual(self.next(), "708#00")
            self.assertEqual(node.state, bafokun.State.PRE_OPERATIONAL)
        # also where the boot-up was somewhere else
        node = bafokun.Node.from_sheet(MODULE, 8)
        node.boot()
        bafokun.run(node, self.bus, seconds=0.02)
        self.assertIsNone(self.tool.recv(0.1))

    def test_run_twice(self):
        """Not at once; one after the other, also where the one before ended by an exception."""
        words = "^the node runs already, on another bus or in another thread$"
        other = can.Bus(self.id() + " other", interface="virtual")
        with bafokun.running(self.node, self.bus):
            for call in (
                lambda: bafokun.run(self.node, other, seconds=0.02),
                lambda: bafokun.running(self.node, self.bus).__enter__(),
            ):
                with self.assertRaisesRegex(RuntimeError, words):
                    call()
            # another node may
            bafokun.run(bafokun.Node.from_sheet(MODULE, 8), other, seconds=0.02)
            self.assertEqual(self.next(), "705#00")
            # and the first one goes on
            self.send(0x605, "4000100000000000")
            self.assertEqual(self.next(), "585#4300100094010200")
        with self.assertRaises(ZeroDivisionError):
            with bafokun.running(self.node, self.bus):
                1 / 0
        with mock.patch.object(other, "recv", side_effect=[can.CanError("gone")] * 2):
            with self.assertRaisesRegex(can.CanError, "gone"):
                bafokun.run(self.node, other)
            with self.assertRaisesRegex(can.CanError, "gone"):
                with bafokun.running(self.node, other):
                    pass
        with mock.patch("threading.Thread.start", side_effect=RuntimeError("can't start new thread")):
            with self.assertRaisesRegex(RuntimeError, "can't start"):
                bafokun.running(self.node, self.bus).__enter__()
        bafokun.run(self.node, self.bus, seconds=0.02)
        other.shutdown()

    def test_wrong_order(self):
        for call in (lambda: bafokun.run(self.bus, self.node), lambda: bafokun.running(self.bus, self.node).__enter__()):
            with self.assertRaisesRegex(TypeError, r"^the node comes first, as in run\(node, bus\): <"):
                call()

    def test_own_frames(self):
        """A bus that gives what it sent itself: a node doesn't hear that."""
        own = can.Bus(self.id(), interface="virtual", receive_own_messages=True)
        node = bafokun.Node.from_sheet(SENSOR, 5)
        heard = []
        node.take = lambda message: heard.append(message) or []
        bafokun.run(node, own, seconds=0.05)
        own.shutdown()
        self.assertEqual(heard, [])

    def test_full_bus(self):
        """Frames that the bus doesn't take wait, in order; after a second that is an error."""
        send, refusals = self.bus.send, [3]

        def busy(message):
            refusals[0] -= 1
            if refusals[0] >= 0:
                raise can.CanError("queue is full")
            send(message)

        self.bus.send = busy
        with bafokun.running(self.node, self.bus):
            self.send(0x605, "4000100000000000")
            self.assertEqual([self.next(), self.next()], ["705#00", "585#4300100094010200"])
        # one that takes each second time has no pause of a second, though some frame always waits
        node, sends = bafokun.Node.from_sheet(SENSOR, 5), [0, 0]
        node["Producer heartbeat time"] = 1

        def slow(message):
            sends[0] += 1
            if sends[0] % 2:
                raise can.CanError("queue is full")
            sends[1] += 1

        self.bus.send = slow
        bafokun.run(node, self.bus, seconds=1.5)
        self.assertGreater(sends[1], 100)
        self.bus.send = busy
        refusals[0] = 1 << 30
        begin = time.monotonic()
        with self.assertRaisesRegex(can.CanError, "full"):
            bafokun.run(bafokun.Node.from_sheet(SENSOR, 5), self.bus, seconds=10)
        self.assertGreater(time.monotonic() - begin, 1)


if __name__ == "__main__":
    unittest.main()
