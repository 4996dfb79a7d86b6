"""The recording, and the faults of its recorder."""
from .bus import ANSWER, MS, SECOND, Frame


class Recorder:
    """The recording of a bus: its lines, with faults that docs/COMPARE.md lets a recorder have."""

    def __init__(self, bus, it, known):
        self.bus, self.it = bus, it
        coarse, base = it.random() < 0.3, 1000 * SECOND
        self.frames = [((stamp // MS * MS if coarse else stamp) + base, stamp, frame) for stamp, frame in bus.log]
        self.known = "hidden command" in known
        self.gap = max(1.2 * ANSWER, 3.3 * MS * bus.longest)
        self.saw = bus.saw
        faults = it.choice([[], [self.begins], [self.begins], [self.gaps], [self.bad, self.bad], [self.errors], [self.lost], [self.clock],
                            [self.begins, self.bad, self.errors, self.lost, self.gaps, self.clock]])
        for fault in faults:
            fault()

    def place(self, test=lambda frame: True):
        """A random frame at which a fault makes no known exception."""
        for _ in range(20):
            at = self.it.randrange(len(self.frames))
            _, stamp, frame = self.frames[at]
            if test(frame) and any(begin <= stamp <= end for begin, end in self.bus.hazards) == self.known:
                return at
        return None

    def begins(self):
        at = self.place()
        if at is not None:
            self.saw["recording begins later"] += 1
            self.frames = self.frames[at:]

    def gaps(self):
        at = self.place()
        if at is not None:
            end = self.frames[at][1]
            before = [each for each in self.frames[:at] if each[1] < end - self.gap]
            self.saw["gap"] += len(before) > 0
            self.frames = before + self.frames[at:]

    def bad(self):
        at = self.place()
        if at is not None:
            self.saw["bad line"] += 1
            shown, stamp, frame = self.frames[at]
            text = self.it.choice(["(1234.5", "?", "(1000.000000) can0 70", "(1.0) can0 123#0G"])
            self.frames[at] = shown, stamp, frame._replace(what="bad line", data=text)

    def errors(self):
        for _ in range(self.it.randrange(1, 4)):
            instead = self.it.random() < 0.5
            at = self.place(lambda frame: not instead or frame.what in ("sync", "command") or frame.owner is None)
            if at is not None:
                self.saw["error frame" + (" in place of a frame" if instead else "")] += 1
                shown, stamp, _ = self.frames[at]
                error = (shown, stamp, Frame(None, 0x20000004, bytes([0, 1, 0, 0, 0, 0, 0, 0]), False, "", None))
                self.frames[at : at + instead] = [error]

    def lost(self):
        twice = self.it.random() < 0.5
        at = self.place(lambda frame: frame.what == "segment" and (not twice or frame.id > 0x600))
        if at is not None:
            self.saw["segment doubled" if twice else "segment lost"] += 1
            self.frames[at : at + 1] = [self.frames[at]] * 2 if twice else []

    def clock(self):
        at = self.place()
        if at is not None:
            step = self.it.choice([-100 * SECOND, int(self.gap)])
            self.saw["clock set forward" if step > 0 else "clock set back"] += 1
            self.frames[at:] = [(shown + step, stamp, frame) for shown, stamp, frame in self.frames[at:]]

    def text(self):
        lines = []
        for shown, _, frame in self.frames:
            if frame.what == "bad line":
                lines.append(frame.data)
                continue
            data = "R" if frame.remote else frame.data.hex().upper()
            identifier = f"{frame.id:08X}" if frame.id > 2047 else f"{frame.id:03X}"
            lines.append(f"({shown // SECOND}.{shown % SECOND:06d}) can0 {identifier}#{data}")
        # a recording that is stopped may be cut within a line
        return "\n".join(lines)[: -self.it.randrange(1, 9)] if self.it.random() < 0.2 else "\n".join(lines) + "\n"
