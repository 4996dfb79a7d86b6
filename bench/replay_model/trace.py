"""Random traces for replay_random.py. They are made while the model plays them, so that most lines go on with what is open."""
from replay_model.device import OPERATIONAL, STOPPED, WIDTHS, BadLine, Player, bytes_of, consumed_node, key_text, type_range
from replay_model.sheet import COB_IDS, RESTRICTED, TYPES, chance

TICKS = 3000


def any_bytes(code, number):
    """A number that fits into the bytes of a type: 0 to 255 into those of a BOOLEAN."""
    low, high = (0, 255) if code == 0x01 else type_range(code)
    number = max(low, min(high, number))
    return bytes([number]) if code == 0x01 else bytes_of(code, number)


BAD_LINES = ("x", "!tick 0", " ", "!write 2000 00", "(1.000000) can0 800#", "(99999999999.000000) can0 080#",
             "(1.00000) can0 080#", "!event 65536", "(1.000000) can0 705#0")


class Trace:
    """A trace for a device: `lines`, and the model's `player` that has taken them."""

    def __init__(self, rng, sheet, node):
        self.rng, self.sheet, self.node, self.player = rng, sheet, node, Player(node)
        self.dictionary, self.lines = node.dictionary, []
        self.values = {}            # of an open download, by channel: what its client sends
        self.before = {}            # the request before, by channel
        self.script, self.counter = [], 0
        self.keys = sorted(self.dictionary.entries)
        self.often = [key for key in self.keys if key[1] and key[0] < 0x2000 and key[0] not in (0x1018, 0x1003)] or self.keys
        self.profile = [key for key in self.keys if key[0] >= 0x2000] or self.keys
        weights = ((self.request, 40), (self.ticks, 12), (self.synchronise, 12), (self.give_pdo, 12), (self.beat, 5),
                   (self.command, 6), (self.write, 6), (self.notify, 6), (self.raise_or_clear, 3), (self.noise, 3),
                   (self.begin_script, 2), (self.fill, 2), (self.count_on, 1))
        self.actions = [action for action, weight in weights for _ in range(weight)]

    def make(self, count, reads_back):
        """Makes so many lines, and those that read all entries back; gives what the model prints, and its status."""
        try:
            if chance(self.rng, 0.75):
                self.send(0, bytes([1, self.node.dictionary.node]))
            while len(self.lines) < count:
                self.step()
            if chance(self.rng, 0.03):
                self.put(self.rng.choice(BAD_LINES))
            if reads_back:
                self.read_back()
            return self.player.printed + [self.player.totals()], 0
        except BadLine:
            return self.player.printed + [self.player.stop()], 1

    def step(self):
        if self.script and chance(self.rng, 0.8):
            self.set(*self.script.pop(0))
        else:
            self.rng.choice(self.actions)()

    # Lines

    def put(self, line):
        self.lines.append(line)
        return self.player.take(line)

    def send(self, identifier, data, tail=""):
        rng, clock = self.rng, self.player.clock
        stamp = clock + rng.choice((0, 0, 0, 0, 0, 0, 0, 1, 1, 2, 3, rng.randint(0, 12)))
        if not self.player.started:
            stamp = rng.choice((0, 1, 1700000000123, clock + 5))
        elif chance(rng, 0.04):
            stamp = max(0, clock - rng.randint(1, 2000))
        micros = rng.choice((0, 0, 999))
        text = tail or data.hex().upper()
        text = f"{identifier:03X}#{text}" if chance(rng, 0.9) else f"{identifier:03x}#{text.lower() if not tail else tail}"
        line = f"({stamp // 1000}.{stamp % 1000:03}{micros:03}) {rng.choice(('can0', 'can0', 'slcan12'))} {text}"
        return self.put(line + rng.choice(("", "", "", " T", "  R")))

    # SDO

    def request(self):
        rng, channels = self.rng, self.node.channels
        channel = channels[0] if chance(rng, 0.5) else rng.choice(channels)
        for _ in range(rng.choice((1, 1, 1, 1, 3, 3, 8, 8, 30, 30))):
            self.send(channel.request, self.next_request(channel))
            if not channel.open:
                return

    def fill(self):
        """Block transfers of more than one sub-block, where a DOMAIN has room for them."""
        rng, channel = self.rng, self.rng.choice(self.node.channels)
        rooms = [key for key in self.profile if self.dictionary.entries[key].capacity >= 889]
        if not rooms or self.node.state == STOPPED or len(self.lines) > 400:
            return
        key = rng.choice(rooms)
        head = key[0].to_bytes(2, "little") + bytes([key[1]])
        self.values[channel.request] = rng.randbytes(rng.choice((882, 883, 888, 889, 890, 1000)))
        for first in (b"\xC0" + head + bytes(4), b"\xA0" + head + b"\x7F" + bytes(3)):
            self.send(channel.request, first)
            while channel.open and len(self.lines) < 1000:
                self.send(channel.request, self.go_on(channel, channel.open))

    def next_request(self, channel):
        rng = self.rng
        right = self.go_on(channel, channel.open) if channel.open else self.begin(channel)
        if channel.open and chance(rng, 0.06):
            right = bytes([right[0] ^ rng.choice((0x10, 0x10, 0x01, 0x02, 0x80, 0x0E))]) + right[1:]
        if chance(rng, 0.03):
            right = bytes([right[0] ^ 1 << rng.randint(0, 7)]) + right[1:]
        if chance(rng, 0.02):
            at = rng.randint(1, 7)
            right = right[:at] + bytes([rng.choice((0, 1, 127, 128, rng.randint(0, 255)))]) + right[at + 1:]
        if chance(rng, 0.05):
            others = [bytes([first]) + right[1:] for first in (0x00, 0x7F, 0x80, 0x81, 0x9F, 0xA1, 0xC1, 0xE0)]
            again = self.before.get(channel.request, right)
            right = rng.choice((right[:7], b"", rng.randbytes(8), bytes(8), again, again, self.begin(channel), *others))
        self.before[channel.request] = right
        return right

    def go_on(self, channel, transfer):
        rng, value = self.rng, self.values.get(channel.request, b"")
        rest = value[len(transfer.held):]
        size = 7 if chance(rng, 0.93) else rng.randint(0, 7)
        part = rest[:size]
        last = len(part) == len(rest)
        if transfer.kind == "download":
            return self.padded(bytes([transfer.toggle << 4 | 7 - len(part) << 1 | last]) + part)
        if transfer.kind == "upload":
            return self.padded(bytes([0x60 | transfer.toggle << 4]))
        if transfer.kind == "block download" and not transfer.ended:
            sequence = min(127, transfer.taken + (1 if chance(rng, 0.99) else rng.choice((2, 3, 0, 127))))
            return self.padded(bytes([sequence | (0x80 if len(rest) <= 7 else 0)]) + rest[:7])
        if transfer.kind == "block download":
            return self.padded(bytes([0xC1 | min(7, max(0, len(transfer.held) - len(value))) << 2]))
        if transfer.sent is None:
            return self.padded(b"\xA3")
        if transfer.ended:
            return self.padded(b"\xA1")
        taken = transfer.sent if chance(rng, 0.75) else rng.choice((0, rng.randint(0, transfer.sent), transfer.sent + 1))
        return self.padded(bytes([0xA2, taken, rng.choice((127, 127, 4, 1, rng.randint(1, 127), 0 if chance(rng, 0.2) else 2))]))

    def padded(self, data):
        more = 8 - len(data)
        return data + (bytes(more) if chance(self.rng, 0.8) else self.rng.randbytes(more))

    def begin(self, channel):
        rng, key = self.rng, self.some_key()
        head = key[0].to_bytes(2, "little") + bytes([key[1]])
        if chance(rng, 0.35):
            if chance(rng, 0.6):
                return self.padded(bytes([0x40 | (rng.randint(0, 31) if chance(rng, 0.05) else 0)]) + head)
            size = rng.choice((127, 127, 5, 1, 2, 3, 0, 128))
            return self.padded(bytes([0xA0 | rng.choice((0, 0, 4))]) + head + bytes([size, rng.choice((0, 0, 9))]))
        value = self.value_for(key)
        self.values[channel.request] = value
        if 1 <= len(value) <= 4 and chance(rng, 0.6):
            if chance(rng, 0.15):
                return self.padded(b"\x22" + head + value)
            return self.padded(bytes([0x23 | 4 - len(value) << 2]) + head + value)
        told = len(value) + rng.choice((0,) * 12 + (1, -1, 70000))
        told = max(0, told)
        block = chance(rng, 0.45)
        if chance(rng, 0.25):
            return self.padded((b"\xC0" if block else b"\x20") + head)
        return (bytes([0xC2 | rng.choice((0, 0, 4))]) if block else b"\x21") + head + told.to_bytes(4, "little")

    # Entries and values

    def some_key(self):
        rng = self.rng
        if chance(rng, 0.03):
            return rng.choice(((0x3000, 0), (0x1018, 9), (0x2000, 0), (0x1000, 1), (0xFFFF, 255), (0x1003, 254), (0x1017, 0)))
        strings = [key for key in self.profile if self.dictionary.entries[key].type not in WIDTHS]
        return rng.choice(rng.choice((self.keys, self.often, self.profile, strings or self.profile)))

    def value_for(self, key):
        rng, entry = self.rng, self.dictionary.entries.get(key)
        if entry is None:
            return rng.randbytes(rng.randint(0, 6))
        if entry.type not in WIDTHS:
            room = entry.capacity
            length = rng.choice((0, 1, 4, 5, 7, 8, 14, 15, room, room, room + 1, rng.randint(0, room)))
            return rng.randbytes(min(length, room + rng.choice((1, 9, 20))))
        data = any_bytes(entry.type, self.number_for(key, entry))
        if chance(rng, 0.04):
            data = rng.choice((data + b"\x00", data[:-1], data + bytes(5)))
        return data

    def number_for(self, key, entry):
        rng, (index, sub) = self.rng, key
        word = self.dictionary.word(key)
        if self.dictionary.is_cob_id(key):
            other = rng.choice((word ^ 0x80000000, word ^ 0x80000000, word | 0x80000000, word & 0x7FFFFFFF, word, word ^ 1,
                                word ^ 0x40000000))
            identifier = rng.choice((*COB_IDS, *RESTRICTED))
            return rng.choice((other, other, other, identifier, identifier | 0x80000000, 0, 0x800, 0x80000800))
        if (0x1600 <= index <= 0x17FF or 0x1A00 <= index <= 0x1BFF):
            if sub == 0:
                return rng.choice((0, 0, word, 1, 2, 3, rng.randint(0, 9)))
            others = [0, 0x00050108, 0x00050008, 0x00050010, 0x00070020, 0x00080008, 0x00010008]
            others += [self.sheet.any_mapping_word() for _ in range(5)]
            return rng.choice(self.sheet.mappable(index < 0x1800) + others)
        if (0x1400 <= index <= 0x15FF or 0x1800 <= index <= 0x19FF) and sub == 2:
            return rng.choice(TYPES)
        if key == (0x1005, 0):
            return rng.choice((*(0x80, 0x80, 0x100, 0x80000080) * 3, 0x40000080, 0x880, *COB_IDS, *RESTRICTED))
        if index == 0x1016 and sub:
            return rng.choice((0, 7, 7, 8, 9, 127, 128)) << 16 | rng.choice((0, 1, 4, 10, 25)) | rng.choice((0, 0, 0xAB000000))
        small = {0x1003: (0, 0, 1), 0x1015: (0, 10, 95, 300), 0x1017: (0, 1, 3, 10, 40), 0x1019: (0, 0, 1, 2, 4, 240, 241),
                 0x1029: (0, 1, 2, 3)}
        if index in small:
            return rng.choice(small[index])
        if 0x1800 <= index <= 0x19FF:
            return rng.choice({3: (0, 10, 25, 90), 5: (0, 1, 4, 9, 30)}.get(sub, (0, 1, 2, 3, 240, 241)))
        inside = rng.randint(entry.low, entry.high)
        return rng.choice((entry.low, entry.high, entry.low - 1, entry.high + 1, self.sheet.number(entry.type), inside, inside))

    def set(self, key, number):
        """A write of a script, by the application or expedited."""
        entry = self.dictionary.entries.get(key)
        if entry is None or entry.type not in WIDTHS:
            return
        data = bytes_of(entry.type, number)
        if chance(self.rng, 0.5) or len(data) > 4:
            self.put(f"!write {key_text(key)} {data.hex().upper()}")
        else:
            head = key[0].to_bytes(2, "little") + bytes([key[1]])
            self.send(self.node.channels[0].request, (bytes([0x23 | 4 - len(data) << 2]) + head + data).ljust(8, b"\0"))

    def begin_script(self):
        """A PDO is taken out of use, mapped anew and put back."""
        rng, pdos = self.rng, self.node.rpdos + self.node.tpdo_indices
        if not pdos:
            return
        index = rng.choice(pdos)
        word = self.dictionary.word((index, 1)) & 0x7FFFFFFF or rng.choice(COB_IDS)
        words, length = [], 0
        for mapped in self.sheet.mappable(index < 0x1800)[:rng.randint(1, 8)]:
            if length + (mapped & 0xFF) <= 64 or chance(rng, 0.1):
                words.append(mapped if chance(rng, 0.97) else self.sheet.any_mapping_word())
                length += mapped & 0xFF
        self.script = [((index, 1), word | 0x80000000), ((index + 0x200, 0), 0)]
        self.script += [((index + 0x200, sub), mapped) for sub, mapped in enumerate(words, 1)]
        self.script += [((index + 0x200, 0), len(words)), ((index, 1), word)]
        for sub, numbers in ((2, TYPES), (3, (0, 10, 40)), (5, (0, 3, 8)), (6, (0, 1, 3))):
            if chance(rng, 0.5):
                self.script.insert(rng.randint(0, len(self.script)), ((index, sub), rng.choice(numbers)))
        if chance(rng, 0.15):
            self.script.pop(rng.randrange(len(self.script)))

    # Other inputs

    def ticks(self):
        rng, node = self.rng, self.node
        now, ends = node.now, [rng.randint(1, 3)]
        ends += [node.time - (now - channel.last) for channel in node.channels if channel.open and node.time]
        ends += [node.word(0x1016, sub) % 0x10000 - (now - since) for sub, since in node.heard.items()]
        if node.word(0x1017):
            ends.append(node.word(0x1017) - (now - node.heartbeat) % node.word(0x1017))
        for index, tpdo in node.tpdos.items():
            ends.append(node.word(index, 5) - (now - tpdo.timed))
            ends.append((node.word(index, 3) + 9) // 10 - (now - (tpdo.sent or now)))
        if node.emergency:
            ends.append(node.emergency[1] - (now - node.emergency[0]))
        count = rng.choice(ends) + rng.choice((0, 0, 0, 0, -1, 1))
        if 1 <= count <= 1100 and self.player.ticks + count <= TICKS:
            self.put(f"!tick {count}")

    def synchronise(self):
        rng, length = self.rng, self.node.word(0x1019)
        self.counter = self.counter % (length if 1 < length <= 240 else 4) + 1
        data = bytes([self.counter]) if length else b""
        if chance(rng, 0.06):
            data = rng.choice((b"", b"\x01", b"\x02", b"\x01\x02", bytes(8)))
        word = self.node.word(0x1005)
        self.send(word & 0x7FF if word and chance(rng, 0.97) else 0x80, data)

    def count_on(self):
        """So many SYNCs that a TPDO of type 240 is sent."""
        for index, tpdo in self.node.tpdos.items():
            counted = (tpdo.syncs or 0) % 240
            if self.node.word(index, 2) == 240 and len(self.lines) < 400 and self.node.state == OPERATIONAL:
                for _ in range(240 - counted):
                    self.synchronise()

    def give_pdo(self):
        rng, node = self.rng, self.node
        if not node.rpdos:
            return
        used = [index for index in node.rpdos if self.dictionary.pdo_acts(index)]
        index = rng.choice(used or node.rpdos)
        data = b""
        for key, width in self.dictionary.mapping(index + 0x200):
            entry = self.dictionary.entries.get(key)
            if entry and chance(rng, 0.9):
                inside = rng.randint(entry.low, entry.high)
                data += any_bytes(entry.type, rng.choice((entry.low, entry.high, inside, self.outside(entry))))
            else:
                data += rng.randbytes(width)
        if chance(rng, 0.1):
            data = rng.choice((data[:-1], data + b"\x01", b"", rng.randbytes(8)))
        self.send(node.word(index, 1) & 0x7FF, data[:8])

    def outside(self, entry):
        """At times a number outside an entry's limits."""
        if chance(self.rng, 0.6):
            return entry.high
        return self.rng.choice((entry.low - 1, entry.high + 1))

    def beat(self):
        rng, node = self.rng, self.node
        nodes = [consumed_node(node.word(0x1016, sub)) for sub in (1, 2, 3, 5, 127, 128)]
        other = rng.choice([other for other in nodes if other] or [7])
        if chance(rng, 0.1):
            other = rng.choice((0, 7, 8, node.dictionary.node, 127, 128))
        self.send(0x700 + other, rng.choice((b"\x05", b"\x05", b"\x7F", b"\x04", b"\x05", b"\x00", b"\x05\x05", b"", b"\x85")))

    def command(self):
        rng, node = self.rng, self.node
        code = rng.choice((1,) * 8 + (2, 128, 129, 130))
        if node.state != OPERATIONAL and chance(rng, 0.7) or node.state == STOPPED:
            code = rng.choice((1, 1, 1, 1, code))
        data = bytes([code, rng.choice((0, node.dictionary.node, node.dictionary.node))])
        if chance(rng, 0.08):
            other = node.dictionary.node % 127 + 1
            data = rng.choice((data[:1], data + b"\0", bytes([code, other]), bytes([3, 0]), b"", bytes([code, 128])))
        self.send(0, data)

    def write(self):
        key = self.some_key()
        data = self.value_for(key)[:249]
        self.put(f"!write {key_text(key)} {data.hex() or '-'}")
        if chance(self.rng, 0.3):
            self.put(f"!changed {key_text(key)}")

    def notify(self):
        rng, node = self.rng, self.node
        if chance(rng, 0.08) or not node.tpdo_indices:
            others = "!event 0", "!event 511", "!event 512", "!event 65535", "!changed 3000:00"
            self.put(rng.choice((*others, f"!changed {key_text(self.some_key())}")))
            return
        index = rng.choice(node.tpdo_indices)
        mapped = self.dictionary.mapping(index + 0x200)
        if mapped and chance(rng, 0.4):
            self.put(f"!changed {key_text(rng.choice(mapped)[0])}")
        else:
            self.put(f"!event {rng.choice(('', '0'))}{index - 0x1800}")

    def raise_or_clear(self):
        rng = self.rng
        if chance(rng, 0.3):
            self.put(f"!clear {rng.choice(('01', '10', '11', 'FF', '00', '82'))}")
            return
        for _ in range(rng.choice((1, 1, 1, 2, 12))):
            code, bits = rng.choice(("1000", "8110", "FF01", "0000")), rng.choice(("01", "00", "82"))
            self.put(f"!raise {code} {bits} {rng.randbytes(5).hex()}")

    def noise(self):
        rng = self.rng
        kind = rng.randint(0, 5)
        if kind == 0:
            self.put(rng.choice(("", "; a comment", ";")))
        elif kind == 1:
            self.send(rng.randint(0, 0x7FF), rng.randbytes(rng.randint(0, 8)))
        elif kind == 2:
            self.send(self.node.channels[0].request, b"", rng.choice(("R", "R8", "#0", "#10011223344")))
        elif kind == 3:
            self.put(f"({self.player.clock // 1000 + 1}.000000) can0 1FFFFFF{rng.randint(0, 9)}#{rng.randbytes(3).hex()}"
                     if self.player.ticks < TICKS else "")
        else:
            self.send(rng.choice((*COB_IDS, *RESTRICTED)), rng.randbytes(rng.randint(0, 8)))

    def read_back(self):
        """All entries, uploaded one by one from channel 0."""
        channel = self.node.channels[0]
        self.send(0, b"\x80\x00")
        self.send(channel.request, b"\x80" + bytes(7))
        for key in self.keys:
            self.send(channel.request, b"\x40" + key[0].to_bytes(2, "little") + bytes([key[1]]) + bytes(4))
            while channel.open:
                self.send(channel.request, bytes([0x60 | channel.open.toggle << 4]) + bytes(7))
