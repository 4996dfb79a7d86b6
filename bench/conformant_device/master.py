"""What else is on the bus: the master, an SDO client, other nodes."""
import random

from .bus import ANSWER, BOOTING, ENTER_PRE, MS, OFF, RESET, RESET_COMMUNICATION, SECOND, START, STOP, Process
from .sheet import SIZES


class Master:
    """The NMT master, the producer of SYNC, an SDO client and other nodes."""

    fifo = False

    def __init__(self, bus, node, device, known):
        self.bus, self.node, self.device, self.known, self.it = bus, node, device, known, random.Random(bus.it.random())
        self.awaiting, self.got, self.quiet = False, None, 0
        bus.sync_period = self.it.choice([0, 0, 20 * MS, 50 * MS, 100 * MS, 400 * MS])
        self.client = Process(bus, self.asks())
        for steps in (self.commands(), self.others(), self.sync(), self.switches(), self.guards(), self.crowd()):
            Process(bus, steps)

    def receive(self, frame):
        if frame.id == 0x580 + self.node and self.awaiting:
            self.got, self.awaiting = frame.data, False
            self.bus.at(self.bus.now + self.it.choice([100, 300, 2 * MS]), self.client.go)

    def commands(self):
        """NMT commands, most of which go on with a Start soon."""
        pause = self.it.choice([300 * MS, 3 * SECOND, 10 * SECOND])
        while True:
            yield self.it.choice([3 * MS, pause // 10, pause, pause]) + self.it.randrange(pause // 5)
            command = self.it.choice([START] * 8 + [STOP] * 3 + [ENTER_PRE] * 3 + [RESET, RESET_COMMUNICATION])
            node = self.it.choice([0, self.node, self.node, self.node % 127 + 1])
            settled = self.device.open is None and self.device.state not in (OFF, BOOTING)
            data, odd = bytes([command, node]), self.it.random()
            if odd < 0.05 and settled:
                data += bytes(6)
            elif odd < 0.07:
                self.bus.saw["command that is none"] += 1
                data = self.it.choice([b"", b"\1", bytes([3, node]), bytes([0, 0])])
            self.bus.send(self, 0, data, what="command")

    def sync(self):
        while self.bus.sync_period:
            yield self.bus.sync_period if self.it.random() < 0.99 else 10 * self.bus.sync_period
            self.bus.send(self, 0x80, b"" if self.it.random() < 0.98 else b"\1", what="sync")

    def guards(self):
        """Node guarding, in a few sessions."""
        pause = self.it.choice([0] * 12 + [300 * MS])
        while pause:
            yield pause
            self.bus.send(self, 0x700 + self.node, remote=True)

    def others(self):
        """Frames of other nodes, and in some sessions many right after one another."""
        pause, bursts = self.it.choice([50 * MS, 300 * MS, SECOND, 6 * SECOND]), self.it.choice([0, 0, 0.03, 0.2])
        many = 0
        while True:
            yield self.it.randrange(pause) + many * 2 * MS
            other = (self.node + self.it.randrange(1, 127) - 1) % 127 + 1
            many = self.it.random() < bursts and not self.bus.waiting and self.it.randrange(10, 200)
            for _ in range(many or 1):
                base = self.it.choice([0x180, 0x280, 0x380, 0x80, 0x580, 0x600, 0x700]) if not many else 0x180
                data = bytes(self.it.randrange(256) for _ in range(self.it.randrange(9)))
                kind = self.it.random()
                if many and kind < 0.02:
                    self.amid()
                elif kind < 0.8 or many:
                    self.bus.send(None, base + other if base + other != 0x180 + self.node else 0x79, data)
                elif kind < 0.9:
                    self.bus.send(None, 0x200 + self.node, data[:1] if self.it.random() < 0.1 else b"\1\2")
                else:
                    self.bus.send(None, self.it.choice([0x100, 0x7E5, 0x18FF0000 + other]), data)

    def amid(self):
        """A command or a write while the bus is busy."""
        if self.it.random() < 0.6:
            self.bus.send(self, 0, bytes([self.it.choice([START, START, STOP, ENTER_PRE]), self.node]), what="command")
        elif not self.awaiting and self.bus.now > self.quiet:
            self.quiet = self.bus.now + 2 * ANSWER
            key, value = self.it.choice([(0x1017, 100), (0x1017, 500), (0x1015, 500), (0x1015, 0)])
            self.bus.doubt = self.bus.now + 3 * ANSWER
            self.bus.send(self, 0x600 + self.node, b"\x2B" + self.head((key, 0)) + value.to_bytes(4, "little"))

    def crowd(self):
        """In some sessions the bus is busy while the device boots up."""
        often = self.it.choice([0, 0.5, 1])
        while often:
            yield 2 * MS
            if self.device.state == BOOTING and 0 < self.device.boots_at - self.bus.now < 2 * MS and self.it.random() < often:
                for _ in range(self.it.randrange(10, 150)):
                    self.bus.send(None, 0x180 + self.node % 127 + 1, bytes(8))
                    yield 100 * self.bus.bit
                    if self.it.random() < 0.05:
                        self.amid()

    def switches(self):
        """Power goes off and on, or a cable is pulled."""
        often = self.it.choice([0, 0, 0, 1]) or self.known & {"cable", "boots twice", "restart unseen", "short switch"}
        yield self.it.randrange(100 * MS)
        self.device.power_on()
        while often:
            yield self.it.randrange(2 * SECOND, 15 * SECOND)
            if "cable" in self.known:
                self.device.cut = True
                yield self.it.choice([SECOND, 5 * SECOND])
                self.device.cut = False
                continue
            self.device.power_off()
            yield self.it.choice([20 * MS, 300 * MS, 3 * SECOND, 15 * SECOND])
            self.device.power_on()

    # ---- the SDO client

    def ask(self, data, what=""):
        """Sends a request and awaits the answer, for as long as it may take."""
        self.got, self.awaiting, until = None, True, self.bus.now + ANSWER + self.it.randrange(50 * MS, SECOND)
        self.bus.send(self, 0x600 + self.node, data, what=what)
        if data[1:3] == b"\x10\x10":
            until += 6 * SECOND
        while self.got is None and self.bus.now < until:
            yield until - self.bus.now
        self.awaiting = False
        if self.got is None:
            self.bus.doubt = self.bus.now + 3 * ANSWER

    def asks(self):
        pause = self.it.choice([5 * MS, 100 * MS, SECOND, 5 * SECOND])
        odd = self.it.choice([0, 0, 0.03, 0.1])
        while True:
            yield self.it.randrange(pause // 10, pause)
            if self.bus.now < self.quiet:
                yield self.quiet - self.bus.now
            if self.it.random() < odd:
                yield from self.oddity()
                self.bus.doubt = self.bus.now + 1.2 * ANSWER
            else:
                yield from self.whole(*self.it.choice([self.reads, self.reads, self.writes])())

    def reads(self):
        entries = self.device.entries
        known = [(0x1017, 0), (0x1015, 0), (0x1000, 0), (0x1018, 1), (0x1800, 2), (0x1008, 0), (0x1234, 0), (0x1018, 9), (0x1003, 0)]
        return self.it.choice(known + [self.it.choice(sorted(entries))]), None

    def writes(self):
        """An entry, and what is written to it."""
        key = self.it.choice([(0x1017, 0)] * 3 + [(0x1015, 0)] + [(it, sub) for it in (0x1800, 0x1801) for sub in (1, 2, 3, 5)]
                             + [(0x2001, 0), (0x2001, 0), (0x2002, 0), (0x1000, 0), (0x1029, 1), (0x1014, 0), (0x1010, 1), (0x6411, 1)])
        values = {0x1017: [0, 50, 100, 200, 500, 1000, 2000], 0x1015: [0, 0, 200, 1000, 5000], 0x2001: [0, 50, 100, 101, 255],
                  0x1029: [0, 1, 2], 0x1000: [0x000F0191], 0x1010: [0x65766173, 1], 0x6411: [5, 0x8000], 0x2002: [0]}.get(key[0])
        if values is None:
            cob = self.device.entries.get(key, self.device.entries[0x1014, 0]).default
            cob = int.from_bytes(cob, "little")
            values = {2: [0, 1, 1, 2, 4, 254, 255, 255], 3: [0, 100, 1000], 5: [0, 0, 50, 1000]}.get(key[1], [cob, cob, cob | 1 << 31])
            if key[0] == 0x1014:
                values = [cob, cob, cob | 1 << 31]
        return key, self.it.choice(values)

    def head(self, key):
        return key[0].to_bytes(2, "little") + bytes([key[1]])

    def whole(self, key, value, left=0.0):
        """A transfer, which is left with a chance at each frame."""
        entry = self.device.entries.get(key)
        if value is None:
            yield from self.ask(b"\x40" + self.head(key) + bytes(4))
            toggle = 0
            while self.got and self.got[0] >> 5 == 2 and not self.got[0] & 2 or toggle and self.got and not self.got[0] & 0x81:
                if self.it.random() < left:
                    return
                yield from self.ask(bytes([0x60 | (toggle & 1) << 4]) + bytes(7), "segment")
                toggle = 3 - (toggle or 2)
        elif entry and entry.kind == 9:
            text = bytes(self.it.randrange(65, 91) for _ in range(self.it.randrange(20)))
            yield from self.ask(b"\x21" + self.head(key) + len(text).to_bytes(4, "little"))
            for place in range(0, max(len(text), 1), 7):
                if not self.got or self.got[0] == 0x80 or self.it.random() < left:
                    return
                part = text[place : place + 7]
                first = (place // 7 % 2) << 4 | (7 - len(part)) << 1 | (place + 7 >= len(text))
                yield from self.ask(bytes([first]) + part.ljust(7, b"\0"), "segment")
        else:
            size = SIZES.get(entry.kind, 4) if entry and self.it.random() < 0.95 else self.it.choice([1, 2, 4])
            first = 0x23 | (4 - size) << 2 if self.it.random() < 0.9 else 0x22
            yield from self.ask(bytes([first]) + self.head(key) + (value % 256**size).to_bytes(4, "little"))

    def oddity(self):
        """What a client shouldn't do: two requests at once, a transfer that is left, a segment without one."""
        kinds = ["two requests at once", "left transfer", "abort by the client", "stray segment", "wrong toggle bit", "short request"]
        kind = self.it.choice(kinds)
        self.bus.saw[kind] += 1
        self.bus.doubt = self.bus.now + 10 * SECOND
        if kind == "two requests at once":
            for key in self.it.sample([(0x1000, 0), (0x1018, 1), (0x1018, 2), (0x2001, 0), (0x1234, 0)], 2):
                self.bus.send(self, 0x600 + self.node, b"\x40" + self.head(key) + bytes(4))
                yield self.it.choice([300, 20 * MS, 300 * MS])
        elif kind == "short request":
            self.bus.send(self, 0x600 + self.node, b"\x40" + self.head((0x1000, 0)))
        elif kind == "stray segment":
            yield from self.ask(bytes([0x60]) + bytes(7))
        else:
            yield from self.whole(*self.it.choice([((0x2003, 0), None), ((0x2002, 0), None), ((0x2002, 0), 0)]), 0.5)
            if kind == "abort by the client":
                self.bus.send(self, 0x600 + self.node, b"\x80" + self.head((0x2002, 0)) + (0x08000000).to_bytes(4, "little"))
            elif kind == "wrong toggle bit":
                yield from self.ask(b"\x70" + bytes(7))
        yield 3 * SECOND
