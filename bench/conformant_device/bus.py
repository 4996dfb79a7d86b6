"""The time, the bus and what goes on there."""
import collections
import heapq

MS, SECOND = 1000, 1000000
# how long the answer to a request may take
ANSWER = SECOND
STOPPED, OPERATIONAL, PRE, BOOTING, OFF = 4, 5, 127, 0, None
START, STOP, ENTER_PRE, RESET, RESET_COMMUNICATION = 1, 2, 128, 129, 130

Frame = collections.namedtuple("Frame", "owner id data remote what sent")


class Bus:
    """The time in µs, what comes to be, and one bus, on which of the frames that wait the lowest identifier goes first."""

    def __init__(self, it):
        self.it, self.now, self.events, self.count, self.bit = it, 0, [], 0, it.choice([1, 2, 2, 4])
        self.waiting, self.busy, self.log, self.nodes = [], False, [], []
        self.saw, self.hazards, self.doubt, self.longest, self.sync_period = collections.Counter(), [], 0, 0, 0

    def at(self, time, call):
        heapq.heappush(self.events, (max(int(time), self.now), self.count, call))
        self.count += 1

    def run(self, until):
        while self.events and self.events[0][0] < until:
            self.now, _, call = heapq.heappop(self.events)
            call()

    def send(self, owner, identifier, data=b"", remote=False, what="", sent=None):
        if getattr(owner, "cut", False):
            return
        self.waiting.append(Frame(owner, identifier, bytes(data), remote, what, sent))
        if not self.busy:
            self.busy = True
            self.at(self.now, self.arbitrate)

    def drop(self, owner, test):
        self.waiting = [frame for frame in self.waiting if frame.owner is not owner or not test(frame)]

    def arbitrate(self):
        first, queues = [], set()
        for frame in self.waiting:
            if not (frame.owner in queues and getattr(frame.owner, "fifo", False)):
                first.append(frame)
            queues.add(frame.owner)
        self.busy = bool(first)
        if first:
            frame = min(first, key=lambda frame: frame.id if frame.id < 2048 else frame.id >> 18)
            self.waiting.remove(frame)
            bits = 47 + len(frame.data) * 9 + (20 if frame.id > 2047 else 0)
            self.at(self.now + bits * self.bit, lambda: self.deliver(frame))

    def deliver(self, frame):
        self.log.append((self.now, frame))
        if frame.sent:
            frame.sent()
        for node in self.nodes:
            if node is not frame.owner:
                node.receive(frame)
        self.at(self.now + 3 * self.bit, self.arbitrate)

    def hazard(self, begin, end):
        """In this time a fault of the recorder makes a known exception."""
        self.hazards.append((begin, end))


class Process:
    """Goes on with a generator, after the time that it yields or when it is woken."""

    def __init__(self, bus, steps):
        self.bus, self.steps, self.turn = bus, steps, 0
        bus.at(bus.now, self.go)

    def go(self):
        self.turn += 1
        turn, wait = self.turn, next(self.steps, None)
        if wait is not None:
            self.bus.at(self.bus.now + wait, lambda: self.turn == turn and self.go())
