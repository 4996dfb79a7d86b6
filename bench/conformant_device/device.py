"""The device: NMT, error control, EMCY and TPDOs."""
import random

from .bus import ANSWER, BOOTING, ENTER_PRE, MS, OFF, OPERATIONAL, PRE, RESET, RESET_COMMUNICATION, SECOND, START, STOP, STOPPED
from .server import Server
from .sheet import entries_of


class Device(Server):
    """A CANopen slave: NMT, error control, EMCY, two TPDOs, an SDO server."""

    def __init__(self, bus, node, text, known, mistake):
        self.bus, self.node, self.known, self.mistake, it = bus, node, known, mistake, bus.it
        self.it, self.made, self.errs_by = random.Random(it.random()), 0, random.Random(it.random())
        self.entries = entries_of(text, node)
        self.stored = {key: entry.default for key, entry in self.entries.items()}
        self.stores, self.starts = (0x1010, 1) in self.entries, "SimpleBootUpMaster=1" in text and it.random() < 0.8
        if self.stores and it.random() < 0.5:
            self.stored[0x1017, 0] = it.choice([0, 100, 300, 1000]).to_bytes(2, "little")
            self.stored[0x1015, 0] = it.choice([0, 1000]).to_bytes(2, "little")
        self.values, self.state, self.timers, self.jobs, self.working = dict(self.stored), OFF, {}, [], False
        self.chosen = {
            "clock": 1 + it.uniform(-0.009, 0.009),
            "jitter": it.choice([0, 500, 8000]),
            "start": it.choice([0, 0, 5 * MS, 300 * MS, 3 * SECOND]),
            "stop": 200 * MS if "late stop" in known else it.choice([0, 2 * MS, 9 * MS]),
            "boot": it.choice([2 * MS, 100 * MS, SECOND, 8 * SECOND]),
            "fifo": it.random() < 0.3,
            "takes long commands": it.random() < 0.5,
            "begins before its boot-up": it.random() < 0.5,
            "1017 written": it.choice(["anew", "old", "at once", "since last"]),
            "beats at change": it.choice(["no", "no", "anew", "between"]),
            "beats on a grid": it.random() < 0.5,
            "register when sent": it.random() < 0.5,
            "keeps EMCYs while stopped": it.random() < 0.5,
            "keeps EMCYs of errors that are over": it.random() < 0.5,
            "clears mailboxes": it.random() < 0.5,
            "times anew at start": it.random() < 0.5,
            "sends at start": it.random() < 0.5,
            "phase": it.random() < 0.3,
            "answers SYNC": it.choice([200, 2 * MS, None]),
            "timer runs freely": it.random() < 0.3,
            "answers": it.choice([300, 300, 20 * MS, 400 * MS, 900 * MS]),
            "indicates sizes": it.random() < 0.7,
            "segments all": it.random() < 0.15,
            "short segments": it.random() < 0.15,
            "drops while busy": it.random() < 0.3,
            "keeps transfers": it.random() < 0.5,
            "refuses while valid": it.random() < 0.4,
            "timeout": it.choice([None, None, 500 * MS, 2 * SECOND]),
            "EMCY for short RPDOs": it.random() < 0.5,
        }
        self.fifo = self.chosen["fifo"]
        self.open, self.shown, self.listening, self.followed, self.last_boot, self.hidden = None, None, False, 0, -2 * SECOND, False

    def saw(self, what):
        self.bus.saw[what] += 1

    def errs(self, kind, chance=0.3):
        if kind != self.mistake or self.errs_by.random() > chance:
            return False
        self.made += 1
        return True

    def number(self, index, sub):
        return int.from_bytes(self.values.get((index, sub), b""), "little")

    def timer(self, name, wait, call):
        token = self.timers[name] = object()
        self.bus.at(self.bus.now + int(wait) + 1, lambda: self.timers.get(name) is token and (self.timers.pop(name), call()))

    def late(self):
        return self.it.randrange(self.chosen["jitter"] + 1)

    # ---- NMT

    def power_on(self):
        self.values, self.state = dict(self.stored), BOOTING
        wait = self.it.randrange(1 * MS, self.chosen["boot"])
        if "boots twice" not in self.known:
            wait = max(wait, self.last_boot + SECOND + 50 * MS - self.bus.now)
        early = self.chosen["begins before its boot-up"]
        if self.was_reset or self.before == STOPPED and self.bus.now - self.off_at < self.off_period * 1.02 * MS + 20 * MS:
            early = early and "short switch" in self.known
        self.was_reset = False
        if self.shown_before is None and "restart unseen" not in self.known:
            early = False
        elif early:
            self.restart_from = self.shown_before
        self.boots_at = self.bus.now + wait
        self.timer("boot", wait, lambda: self.boot(early))

    def power_off(self):
        self.shown_before = self.shown if self.number(0x1017, 0) and self.state != BOOTING else None
        self.before, self.off_at, self.off_period = self.state, self.bus.now, self.number(0x1017, 0)
        self.saw("switched off and on")
        self.leave()
        self.state = OFF

    shown_before, restart_from, was_reset, before, off_at, off_period, cut = None, None, False, None, 0, 0, False

    def leave(self):
        """Ends all that runs."""
        if self.written is not None:
            self.bus.hazard(self.written[0], self.bus.now)
            self.written = None
        self.timers, self.jobs, self.working, self.emcies, self.transfer, self.listening = {}, [], False, [], None, False
        self.bus.drop(self, lambda frame: True)

    def reset(self, command):
        self.saw("reset")
        self.leave()
        kept = {key: value for key, value in self.values.items() if key[0] > 0x1FFF and command == RESET_COMMUNICATION}
        self.values, self.state = {**self.stored, **kept}, BOOTING
        wait = self.it.randrange(1 * MS, self.chosen["boot"])
        self.boots_at = self.bus.now + wait
        self.timer("boot", wait, lambda: self.boot(self.chosen["begins before its boot-up"]))

    def boot(self, early):
        self.state, self.registers, self.emcies, self.emcy_free, self.transfer = PRE, set(), [], 0, None
        self.tpdos = [{"index": 0x1800, "last": None, "count": 0}, {"index": 0x1801, "last": None, "count": 0}]
        self.listening, self.shown, self.hidden = early, None, False
        self.began = self.beat_base = began = self.bus.now
        self.guard = 0
        if self.number(0x1017, 0):
            self.plan_beat(began)

        def sent():
            if self.bus.now - began > 2 * MS:
                self.saw("boot-up waits for the bus")
            self.listening, self.last_boot = True, self.bus.now
            self.shown = None if self.stores or self.wrote_early else began
            if self.restart_from is not None:
                self.bus.hazard(self.restart_from, self.bus.now)
            self.restart_from, self.wrote_early = None, False
            if self.open is not None and not self.took_early:
                self.bus.hazard(self.open, self.bus.now)
                self.open = None
            self.took_early = False
            if self.starts and "follow" not in self.timers and self.state == PRE:
                self.pending = START
                self.timer("follow", self.it.choice([0, 10 * MS, SECOND]), lambda: (self.saw("starts by itself"), self.change(OPERATIONAL)))

        self.wrote_early = self.took_early = False
        if self.errs("boot-missing", 0.6):
            sent()
            return
        self.bus.send(self, 0x700 + self.node, [0], sent=sent)
        if self.errs("boot-twice", 0.6):
            self.timer("twice", 300, lambda: self.bus.send(self, 0x700 + self.node, [0]))

    wrote_early, took_early, guard = False, False, 0

    def command(self, data):
        """Takes an NMT command."""
        command, target = data[0], {START: OPERATIONAL, STOP: STOPPED, ENTER_PRE: PRE}.get(data[0])
        if len(data) > 2 and not self.chosen["takes long commands"]:
            self.saw("command of more bytes ignored")
            return
        pending = self.timers.get("follow") and self.pending
        if pending and pending != START:
            if pending in (RESET, RESET_COMMUNICATION):
                return
            self.timers.pop("follow")
            self.follow(pending)
        if target is None and command not in (RESET, RESET_COMMUNICATION):
            return
        if self.open is None and (target != self.state or pending):
            self.open = self.bus.now
        if self.last_boot < self.began:
            self.took_early = True
            self.saw("command before its boot-up frame")
        if command == START and pending == START:
            return
        if command == START:
            wait = self.it.randrange(self.chosen["start"] + 1)
            if (self.state == OPERATIONAL and "late command" not in self.known) or (self.hidden and "hidden stop" not in self.known):
                wait = 0
            self.saw("Start followed later than --answer" if wait > ANSWER else "Start followed late" if wait > 10 * MS else "Start")
        else:
            wait = self.it.randrange(self.chosen["stop"] + 1)
            self.saw("newest command wins" if pending == START else "Stop" if command == STOP else "other command")
        self.pending = command
        self.timer("follow", wait, lambda: self.follow(command))

    def follow(self, command):
        if command in (RESET, RESET_COMMUNICATION):
            self.reset(command)
        elif command in (STOP, ENTER_PRE) and self.errs("command-ignored"):
            self.open = None
        else:
            self.change({START: OPERATIONAL, STOP: STOPPED, ENTER_PRE: PRE}[command])

    def change(self, state):
        before, self.state, self.followed = self.state, state, self.bus.now
        if before == state and not (state == OPERATIONAL and self.chosen["times anew at start"]):
            return
        self.hidden = False
        if self.chosen["clears mailboxes"]:
            self.bus.drop(self, lambda frame: frame.id in (0x180 + self.node, 0x280 + self.node) and state != OPERATIONAL)
            self.bus.drop(self, lambda frame: frame.id in (0x80 + self.node, 0x580 + self.node) and state == STOPPED)
        for at, tpdo in enumerate(self.tpdos):
            for name in ("inhibit", "event", "sync"):
                self.timers.pop(f"{name} {at}", None)
            if state == OPERATIONAL:
                tpdo["last"] = None if self.chosen["times anew at start"] else tpdo["last"]
                self.begin_tpdo(at, tpdo)
        if before == STOPPED and not self.chosen["keeps EMCYs of errors that are over"]:
            self.emcies = [each for each in self.emcies if each[2] in self.registers]
        if state == STOPPED:
            self.timers.pop("job", None)
            self.jobs, self.working = [], False
            if not self.chosen["keeps transfers"]:
                self.transfer = None
            self.emcies = []
        self.send_emcies()
        way = self.chosen["beats at change"] if self.written is None or "old period" in self.known else "anew"
        if self.chosen["beats at change"] != "no" and before != state and self.number(0x1017, 0):
            self.saw("heartbeat at once")
            old = self.beat_period
            self.send_beat()
            if way == "anew":
                self.plan_beat(self.bus.now, old if "old period" in self.known else None)

    def receive(self, frame):
        if self.state == OFF and frame.id == 0 and frame.data[:1] in (bytes([RESET]), bytes([RESET_COMMUNICATION])):
            self.was_reset = True
        if self.state in (OFF, BOOTING) or not self.listening or self.cut:
            return
        if frame.remote:
            if frame.id == 0x700 + self.node and not self.number(0x1017, 0):
                self.saw("node guarding answered")
                self.bus.send(self, frame.id, [self.state | self.guard])
                self.guard ^= 0x80
            return
        if frame.id == 0 and len(frame.data) >= 2 and frame.data[1] in (0, self.node):
            self.command(frame.data)
        elif frame.id == 0x600 + self.node and len(frame.data) == 8:
            if self.state != STOPPED or self.errs("answer-state"):
                self.request(frame.data)
        elif frame.id == 0x80 and not frame.data and self.state == OPERATIONAL:
            if self.last_boot >= self.began or "early SYNC" in self.known:
                self.sync()
        elif frame.id == 0x200 + self.node and self.state == OPERATIONAL and len(frame.data) < 2 and self.chosen["EMCY for short RPDOs"]:
            self.emcy(0x8210, 4)

    def end(self):
        """The session ends: what isn't shown stays so."""
        for begin in (self.open, self.written and self.written[0]):
            if begin is not None:
                self.bus.hazard(begin, self.bus.now)

    # ---- error control

    def plan_beat(self, base, period=None):
        self.beat_base, self.beat_period = base, self.number(0x1017, 0) if period is None else period
        self.bus.longest = max(self.bus.longest, self.beat_period)
        wait = self.beat_period * MS * self.chosen["clock"] + self.late()
        if self.errs("heartbeat-late"):
            wait += 30 * MS + wait / 20
        self.timer("beat", base + wait - self.bus.now, self.beat)

    beat_period, beat_base, began, boots_at = 0, 0, 0, 0

    def beat(self):
        self.send_beat()
        if self.number(0x1017, 0):
            grid = self.beat_base + self.beat_period * MS * self.chosen["clock"]
            self.plan_beat(grid if self.chosen["beats on a grid"] and grid > self.bus.now - 20 * MS else self.bus.now)

    def send_beat(self):
        state, queued, data = self.state, self.bus.now, [self.state]

        def sent():
            self.hidden = False
            if self.bus.now - queued > 10 * MS:
                self.saw("heartbeat waits for the bus")
            if self.written and queued >= self.written[1]:
                self.bus.hazard(self.written[0], self.bus.now)
                self.written = None
            if self.open is not None and "follow" not in self.timers and state == self.state and queued > self.followed + 15 * MS:
                self.bus.hazard(self.open, self.bus.now)
                self.open = None

        if self.state == PRE and self.errs("heartbeat-state"):
            data = [OPERATIONAL]
        if self.errs("heartbeat-byte"):
            data = [3]
        if self.errs("heartbeat-length"):
            data = [self.state, 0]
        self.bus.send(self, 0x700 + self.node, data, sent=sent)

    written = None

    def write_beat(self, old, was_shown):
        """1017:00 is written: what becomes of the period that runs."""
        new, way = self.number(0x1017, 0), self.chosen["1017 written"]
        running, self.bus.longest = "beat" in self.timers, max(self.bus.longest, new)
        if way == "old" and old > new and running and new:
            if was_shown is None and "old period" not in self.known:
                way = "anew"
            elif was_shown is not None:
                self.written = min([was_shown] + ([self.written[0]] if self.written else [])), self.bus.now
        if not new or not running or way == "anew":
            self.timers.pop("beat", None)
            if new:
                self.plan_beat(self.bus.now)
        elif way == "at once":
            self.send_beat()
            self.plan_beat(self.bus.now)
        elif way == "since last":
            self.plan_beat(max(self.beat_base, self.bus.now - new * MS))
        self.saw(f"1017:00 written, {way}" + (", shorter" if new and old > new else ""))

    # ---- EMCY

    def emcy(self, code, bit):
        """An error comes; or, with code 0, goes."""
        if code:
            self.registers.add(bit)
        else:
            self.registers.discard(bit)
        register = sum(1 << each for each in self.registers) | (1 if self.registers else 0)
        self.values[0x1001, 0] = bytes([register])
        if (self.number(0x1014, 0) >> 31) or (self.state == STOPPED and not self.chosen["keeps EMCYs while stopped"]):
            if not (self.state == STOPPED and self.errs("emcy-state", 0.8)):
                return
            self.bus.send(self, 0x80 + self.node, code.to_bytes(2, "little") + bytes([register]) + bytes(5))
        if self.state == STOPPED:
            # the most recent one may be sent when it leaves stopped, also where its error is over by then
            self.emcies = [[code, None, bit]] if code else self.emcies
        else:
            self.emcies.append([code, None if self.chosen["register when sent"] else register, bit])
        self.send_emcies()

    def send_emcies(self):
        while self.emcies and self.state in (PRE, OPERATIONAL):
            if self.bus.now < self.emcy_free and not self.errs("emcy-inhibit"):
                self.saw("EMCY waits for its inhibit time")
                self.timer("emcy", self.emcy_free - self.bus.now, self.send_emcies)
                return
            code, register, _ = self.emcies.pop(0)
            register = self.number(0x1001, 0) if register is None else register
            if code and register and self.errs("emcy-register"):
                register = register & 0xFE or 4
            data = code.to_bytes(2, "little") + bytes([register]) + bytes(5)
            self.bus.send(self, 0x80 + self.node, data[:7] if self.errs("emcy-length") else data)
            self.emcy_free = self.bus.now + self.number(0x1015, 0) * 100 * self.chosen["clock"]
            self.saw("EMCY")

    def misfortune(self):
        """Errors come and go; one of the communication changes the state as 1029h has it."""
        pause = self.it.choice([30 * MS, 300 * MS, 3 * SECOND])
        while True:
            yield self.it.randrange(pause // 10, pause * (3 if self.it.random() < 0.3 else 1)) + self.it.choice([0, 0, 5 * SECOND])
            if self.state in (OFF, BOOTING):
                continue
            if self.registers and self.it.random() < 0.5:
                self.emcy(0, self.it.choice(sorted(self.registers)))
                continue
            serious = self.it.random() < 0.3 and "follow" not in self.timers and self.listening
            self.emcy(*self.it.choice([(0x8130, 4), (0x8120, 4)] if serious else [(0x2310, 1), (0x3110, 2), (0x4200, 3), (0xFF01, 7)]))
            reaction = {0: PRE, 2: STOPPED}.get(self.number(0x1029, 1))
            if serious and reaction and (reaction == STOPPED or self.state == OPERATIONAL) and self.state != STOPPED:
                self.saw("stops by itself" if reaction == STOPPED else "falls back by itself")
                self.change(reaction)
                self.hidden = reaction == STOPPED

    # ---- TPDOs

    def tpdo_is(self, tpdo, test):
        return not self.number(tpdo["index"], 1) >> 31 and test(self.number(tpdo["index"], 2))

    def begin_tpdo(self, at, tpdo):
        """Operational, or its parameters are written."""
        kind = self.number(tpdo["index"], 2)
        tpdo["count"] = self.it.randrange(kind) if self.chosen["phase"] and 0 < kind < 241 else 0
        tpdo["wanted"] = False
        if self.tpdo_is(tpdo, lambda kind: kind > 253):
            self.plan_event(at, tpdo)
            if self.chosen["sends at start"]:
                self.want(at, tpdo)

    def plan_event(self, at, tpdo):
        wait = self.number(tpdo["index"], 5) * MS * self.chosen["clock"] + min(self.late(), 8 * MS)
        if wait >= MS:
            if self.errs("pdo-late"):
                wait = wait * 1.5 + 50 * MS
            self.timer(f"event {at}", wait, lambda: self.on_event(at, tpdo))

    def on_event(self, at, tpdo):
        self.saw("TPDO by its timer")
        self.plan_event(at, tpdo)
        self.want(at, tpdo)

    def want(self, at, tpdo):
        """It is to be sent, now or when its inhibit time has passed."""
        if (self.state == OPERATIONAL or self.errs("pdo-state")) and self.tpdo_is(tpdo, lambda kind: kind > 253):
            free = self.bus.now
            if tpdo["last"] is not None:
                free = tpdo["last"] + self.number(tpdo["index"], 3) * 100 * self.chosen["clock"]
            if free > self.bus.now and not self.errs("pdo-inhibit"):
                self.saw("TPDO waits for its inhibit time")
                self.timer(f"inhibit {at}", free - self.bus.now, lambda: self.want(at, tpdo))
                return
            self.timers.pop(f"inhibit {at}", None)
            if not self.chosen["timer runs freely"] or f"event {at}" not in self.timers:
                self.plan_event(at, tpdo)
            self.send_tpdo(tpdo)

    def send_tpdo(self, tpdo):
        size, identifier = (2 if tpdo["index"] == 0x1800 else 8) + (self.errs("pdo-length") and -1), self.number(tpdo["index"], 1) & 0x7FF
        if self.number(tpdo["index"], 2) < 241:
            # one that still waits for the bus is overwritten
            self.bus.drop(self, lambda frame: frame.id == identifier)
        self.bus.send(self, identifier, bytes(self.it.randrange(256) for _ in range(size)))
        tpdo["last"] = self.bus.now
        self.saw("TPDO")

    def inputs(self):
        pause = self.it.choice([20 * MS, 200 * MS, 2 * SECOND])
        while True:
            yield self.it.randrange(pause // 20, pause)
            if self.state in (PRE, OPERATIONAL):
                at = self.it.randrange(2)
                self.tpdos[at]["wanted"] = True
                self.want(at, self.tpdos[at])
                if self.tpdo_is(self.tpdos[at], lambda kind: 0 < kind < 241) and self.state == OPERATIONAL and self.errs("pdo-sync", 0.05):
                    self.send_tpdo(self.tpdos[at])

    def sync(self):
        for at, tpdo in enumerate(self.tpdos):
            if not self.tpdo_is(tpdo, lambda kind: kind < 241):
                continue
            kind, tpdo["count"] = self.number(tpdo["index"], 2), tpdo["count"] + 1
            if tpdo.get("wanted") if kind == 0 else tpdo["count"] >= kind:
                tpdo["count"], tpdo["wanted"] = 0, False
                slow = self.chosen["answers SYNC"]
                wait = self.it.randrange(slow) if slow else self.it.randrange(9 * self.bus.sync_period // 10)
                self.saw("TPDO for a SYNC")
                self.timer(f"sync {at}", wait, lambda tpdo=tpdo: self.tpdo_is(tpdo, lambda kind: kind < 241) and self.send_tpdo(tpdo))
