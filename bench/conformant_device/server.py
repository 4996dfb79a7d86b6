"""The SDO server of the device."""
from .bus import ANSWER, MS, OPERATIONAL, SECOND, STOPPED
from .sheet import SIZES


class Server:
    """The default SDO server: expedited transfers and segments, in which each choice is the device's."""

    def request(self, data):
        if self.working and self.chosen["drops while busy"]:
            self.saw("request dropped by a busy server")
            return
        if self.last_boot < self.began:
            self.wrote_early = True
            self.saw("request before its boot-up frame")
        self.timers.pop("timeout", None)
        self.jobs.append((self.bus.now, data))
        if not self.working:
            self.next_job()

    def next_job(self):
        self.working = bool(self.jobs)
        if self.jobs:
            asked, data = self.jobs.pop(0)
            wait = self.it.randrange(100, self.chosen["answers"] + 1)
            if data[1:3] == b"\x10\x10" and data[0] == 0x23:
                wait = self.it.randrange(5 * SECOND)
                self.bus.hazard(asked, self.bus.now + wait + ANSWER)
            if self.errs("answer-slow"):
                wait += ANSWER + 100 * MS
            self.timer("job", wait, lambda: self.serve(asked, data))

    def serve(self, asked, data):
        if self.state != STOPPED or self.mistake == "answer-state":
            answer = self.answer(asked, data)
            if answer is not None and not self.errs("answer-missing"):
                key = bytes([answer[1] ^ 1])
                if answer[0] == 0x80 and self.errs("abort-key") or answer[0] >> 5 in (2, 3) and self.errs("answer-key"):
                    answer = answer[:1] + key + answer[2:]
                if answer[0] >> 5 == 2 and self.errs("answer-form"):
                    answer = b"\x60" + answer[1:]
                what = "segment" if answer[0] >> 5 in (0, 1) else ""
                self.bus.send(self, 0x580 + self.node, answer, what=what)
                if self.errs("answer-twice"):
                    self.bus.send(self, 0x580 + self.node, answer, what=what)
            if self.transfer and self.chosen["timeout"]:
                self.timer("timeout", self.chosen["timeout"] * self.chosen["clock"], self.time_out)
        self.next_job()

    def time_out(self):
        if self.transfer and self.state != STOPPED:
            self.saw("SDO timeout")
            self.bus.doubt = self.bus.now + 1.2 * ANSWER
            if self.it.random() < 0.8:
                self.bus.send(self, 0x580 + self.node, self.abort(self.transfer["key"], 0x05040000))
            self.transfer = None

    @staticmethod
    def abort(key, code):
        return b"\x80" + key[0].to_bytes(2, "little") + bytes([key[1]]) + code.to_bytes(4, "little")

    def answer(self, asked, data):
        specifier, key = data[0] >> 5, (int.from_bytes(data[1:3], "little"), data[3])
        entry, transfer = self.entries.get(key), self.transfer
        if data[0] == 0x80:
            self.transfer = None
            return None
        if specifier in (0, 3):
            if not transfer or transfer["up"] != (specifier == 3):
                self.transfer = None
                return self.abort(self.it.choice([(0, 0), (0x1000, 0)]), 0x05040001)
            if data[0] >> 4 & 1 != transfer["toggle"]:
                self.transfer = None
                return self.abort(transfer["key"], 0x05030000)
            return self.up_segment() if specifier == 3 else self.down_segment(data)
        self.transfer = None
        if specifier not in (1, 2) or data[0] in (0x22, 0x20) and specifier == 2:
            return self.abort(key, 0x05040001)
        if entry is None:
            return self.abort(key, 0x06090011 if any(key[0] == each for each, _ in self.entries) else 0x06020000)
        return self.upload(asked, key, entry) if specifier == 2 else self.download(asked, key, entry, data)

    def upload(self, asked, key, entry):
        value = self.values[key]
        if entry.access == "wo" or (entry.access != "wo" and self.errs("access-read")):
            return self.abort(key, 0x06010001)
        if key == (0x1003, 0) or key[0] != 0x1003:
            pass
        elif self.number(0x1003, 0) < key[1]:
            return self.abort(key, 0x08000024)
        if key in ((0x1018, 1), (0x1000, 0)) and self.errs("value-const"):
            value = bytes([value[0] ^ 1]) + value[1:]
        if entry.kind in SIZES and self.errs("value-length"):
            value = value + b"\0" if len(value) < 4 else value[:2]
        head, indicated = key[0].to_bytes(2, "little") + bytes([key[1]]), self.chosen["indicates sizes"]
        if len(value) > 4 or not value or self.chosen["segments all"]:
            self.transfer = {"up": True, "key": key, "toggle": 0, "value": value}
            size = len(value) + (self.errs("answer-size") and 1)
            self.saw("upload in segments")
            return bytes([0x41 if indicated else 0x40]) + head + (size if indicated else 0).to_bytes(4, "little")
        if key == (0x1017, 0):
            self.shown = asked - 1.2 * ANSWER if asked > self.bus.doubt else self.shown
        first = 0x43 | (4 - len(value)) << 2 if indicated else 0x42
        return bytes([first]) + head + value.ljust(4, b"\0")

    def up_segment(self):
        transfer = self.transfer
        count = self.it.randrange(1, 8) if self.chosen["short segments"] else 7
        data, transfer["value"] = transfer["value"][:count], transfer["value"][count:]
        first = (transfer["toggle"] ^ self.errs("answer-toggle")) << 4 | (7 - len(data)) << 1 | (not transfer["value"])
        transfer["toggle"] ^= 1
        if not transfer["value"]:
            self.transfer = None
        return bytes([first]) + data.ljust(7, b"\0")

    def down_segment(self, data):
        transfer = self.transfer
        transfer["value"] += data[1 : 8 - (data[0] >> 1 & 7)]
        if data[0] & 1:
            self.transfer = None
            if len(transfer["value"]) > 16:
                return self.abort(transfer["key"], 0x06070012)
            self.values[transfer["key"]] = transfer["value"]
        toggle = transfer["toggle"] ^ self.errs("answer-toggle")
        transfer["toggle"] ^= 1
        return bytes([0x20 | toggle << 4]) + bytes(7)

    def refusal(self, key, entry, data):
        """Why an expedited download is refused."""
        size, count = SIZES[entry.kind], 4 - (data[0] >> 2 & 3) if data[0] & 1 else SIZES[entry.kind]
        value = int.from_bytes(data[4 : 4 + size], "little", signed=entry.kind == 3)
        if count != size:
            return self.it.choice([0x06070010, 0x06070012 if count > size else 0x06070013])
        if not (entry.low or 0 if entry.kind != 3 else entry.low or -32768) <= value <= (2**32 if entry.high is None else entry.high):
            return None if self.errs("access-limits", 0.8) else self.it.choice([0x06090030, 0x06090031])
        valid = 0x1800 <= key[0] < 0x1A00 and not self.number(key[0], 1) >> 31 and key[1] in (2, 3)
        if valid and self.chosen["refuses while valid"]:
            return 0x08000022
        if key == (0x1010, 1) and data[4:] != b"save":
            return 0x08000020
        return 0x06090030 if key == (0x1003, 0) and value else None

    def download(self, asked, key, entry, data):
        if entry.access in ("ro", "const") and not self.errs("access-write", 0.8):
            return self.abort(key, 0x06010002)
        acknowledge = b"\x60" + data[1:4] + bytes(4)
        if not data[0] & 2:
            if entry.kind != 9:
                return self.abort(key, 0x06070010)
            self.saw("download in segments")
            self.transfer = {"up": False, "key": key, "toggle": 0, "value": b""}
            return acknowledge
        if entry.kind not in SIZES:
            self.values[key] = data[4 : 8 - (data[0] >> 2 & 3 if data[0] & 1 else 0)]
            return acknowledge
        code = self.refusal(key, entry, data)
        if code:
            return self.abort(key, code)
        if key == (0x1010, 1):
            self.saw("parameters stored")
            self.stored = {**self.values, (0x1001, 0): b"\0", (0x1003, 0): b"\0"}
            return acknowledge
        old, self.values[key] = self.number(*key), data[4 : 4 + SIZES[entry.kind]]
        self.written_now(asked, key, old)
        return acknowledge

    def written_now(self, asked, key, old):
        """What a written entry brings about."""
        if key == (0x1017, 0):
            sure = asked > self.bus.doubt and self.last_boot >= self.began
            self.write_beat(old, self.shown if sure else None)
            self.shown = asked - 1.2 * ANSWER if sure else None
        elif key == (0x1015, 0):
            self.saw("1015:00 written")
            if "waiting register" not in self.known:
                self.emcies = []
            if self.it.random() < 0.5:
                self.emcy_free = min(self.emcy_free, self.bus.now)
                self.send_emcies()
        elif 0x1800 <= key[0] < 0x1A00 and self.state == OPERATIONAL:
            self.saw("parameter of a TPDO written")
            at = key[0] - 0x1800
            for name in ("inhibit", "event", "sync"):
                self.timers.pop(f"{name} {at}", None)
            if key[1] == 1:
                self.tpdos[at]["last"] = None
            self.begin_tpdo(at, self.tpdos[at])
