"""A CANopen device as `conode replay` plays it, as a model in Python for replay_random.py.

Written from CiA 301 and from what the pages say, not from the program: it keeps times of events and looks at the distances between
them, where the program counts down. It is as slow as it is plain. An entry of the data sheet is a `Row`; a trace is text."""
import re
from collections import namedtuple

# data types by code: their width in bytes
WIDTHS = {0x01: 1, 0x02: 1, 0x03: 2, 0x04: 4, 0x05: 1, 0x06: 2, 0x07: 4, 0x10: 3, 0x12: 5, 0x13: 6, 0x14: 7, 0x15: 8,
          0x16: 3, 0x18: 5, 0x19: 6, 0x1A: 7, 0x1B: 8}
SIGNED = (0x02, 0x03, 0x04, 0x10, 0x12, 0x13, 0x14, 0x15)
VISIBLE_STRING, OCTET_STRING, DOMAIN = 0x09, 0x0A, 0x0F
DUMMIES = range(0x0002, 0x0008)

TOGGLE, TIMEOUT, COMMAND, BLOCK_SIZE, SEQUENCE = 0x05030000, 0x05040000, 0x05040001, 0x05040002, 0x05040003
WRITE_ONLY, READ_ONLY, NO_OBJECT, NO_SUB_INDEX = 0x06010001, 0x06010002, 0x06020000, 0x06090011
NOT_MAPPABLE, PDO_LENGTH, INCOMPATIBLE = 0x06040041, 0x06040042, 0x06040043
TOO_LONG, TOO_SHORT, VALUE, TOO_HIGH, TOO_LOW = 0x06070012, 0x06070013, 0x06090030, 0x06090031, 0x06090032
NOT_STORED, DEVICE_STATE, NO_DATA = 0x08000020, 0x08000022, 0x08000024

PRE_OPERATIONAL, OPERATIONAL, STOPPED = 127, 5, 4
DAY = 86_400_000

# An entry of a data sheet. `low`, `high`: a limit or None. `preset`: None, an int, bytes, or ("node", added); a ParameterValue
# stands in `value` in the same forms.
Row = namedtuple("Row", "key type access low high preset value mappable")
Entry = namedtuple("Entry", "type access low high capacity mappable initial")


def type_range(code):
    bits = 8 * WIDTHS[code]
    if code == 0x01:
        return 0, 1
    return (-(1 << bits - 1), (1 << bits - 1) - 1) if code in SIGNED else (0, (1 << bits) - 1)


def number_of(code, data):
    return int.from_bytes(data, "little", signed=code in SIGNED)


def bytes_of(code, number):
    return number.to_bytes(WIDTHS[code], "little", signed=code in SIGNED)


def is_valid(word):
    return word != 0 and not word >> 31


def key_text(key):
    return f"{key[0]:04X}:{key[1]:02X}"


class Dictionary:
    """The entries of a device, what may be read and written, and what a write is refused by."""

    def __init__(self, rows, dummies, node, strings, domains):
        self.node, self.dummies = node, dummies
        self.out_of_range = []
        self.entries = {row.key: self.entry(row, strings, domains) for row in sorted(rows, key=lambda row: row.key)}
        self.objects = {key[0] for key in self.entries}
        self.bytes = {key: entry.initial for key, entry in self.entries.items()}
        self.channels = [(0, 0x600 + node, 0x580 + node)]
        for number in range(1, 128):
            words = [self.word((0x1200 + number, sub)) for sub in (1, 2)]
            if all(is_valid(word) for word in words):
                self.channels.append((number, words[0] & 0x7FF, words[1] & 0x7FF))
        self.identifiers = {identifier for channel in self.channels for identifier in channel[1:]}

    def entry(self, row, strings, domains):
        preset = row.preset if row.value is None else row.value
        if row.type in WIDTHS:
            ends = type_range(row.type)
            low = ends[0] if row.low is None else row.low
            high = ends[1] if row.high is None else row.high
            number = self.initial_number(row.key, preset, low, high)
            initial = bytes_of(row.type, number)
            return Entry(row.type, row.access, low, high, WIDTHS[row.type], row.mappable, initial)
        initial = b"" if row.type == DOMAIN or preset is None else preset
        room = domains if row.type == DOMAIN else len(initial)
        if row.type != DOMAIN and row.access not in ("ro", "const"):
            room = max(room, strings)
        return Entry(row.type, row.access, None, None, room, row.mappable, initial)

    def initial_number(self, key, preset, low, high):
        nearest = min(max(0, low), high)
        number = nearest if preset is None else preset
        if isinstance(preset, tuple):
            number = preset[1] + self.node
            if not low <= number <= high:
                self.out_of_range.append(key)
                number = nearest
        return {(0x1200, 1): 0x600 + self.node, (0x1200, 2): 0x580 + self.node}.get(key, number)

    def word(self, key):
        """An entry's number, 0 where there is none."""
        return number_of(self.entries[key].type, self.bytes[key]) if key in self.entries else 0

    # What is built

    def build_fault(self):
        """`N Kind WHERE` of the first build fault, or None."""
        if self.out_of_range:
            return f"2 ValueRange {key_text(min(self.out_of_range))}"
        cob_ids = sorted(self.bad_channel_words() + [key for key in self.entries if self.is_bad_cob_id(key)])
        if cob_ids:
            return f"3 BadCobId {key_text(cob_ids[0])}"
        pairs = [index for index in sorted(self.objects) if self.lacks_its_pair(index)]
        if pairs:
            return f"4 PdoPair {pairs[0]:04X}"
        for key in sorted(self.entries):
            if (0x1600 <= key[0] <= 0x17FF or 0x1A00 <= key[0] <= 0x1BFF) and key[1] == 0:
                if self.count_refusal(key[0], self.word(key)):
                    return f"5 BadMapping {key_text(key)}"
        return None

    def bad_channel_words(self):
        bad, seen = [], []
        for number, *identifiers in self.channels:
            for sub, identifier in zip((1, 2), identifiers):
                word = self.word((0x1200 + number, sub))
                restricted = identifier <= 0x7F or 0x101 <= identifier <= 0x180 or identifier >= 0x6E0
                if number > 0 and (word & 0x3FFFF800 or restricted) or identifier in seen:
                    bad.append((0x1200 + number, sub))
                seen.append(identifier)
        return bad

    def is_bad_cob_id(self, key):
        word = self.word(key)
        if key == (0x1005, 0):
            return word != 0 and not self.is_good_sync(word)
        return self.is_cob_id(key) and word != 0 and not self.is_good(word)

    def lacks_its_pair(self, index):
        if 0x1400 <= index <= 0x15FF or 0x1800 <= index <= 0x19FF:
            return index + 0x200 not in self.objects or (index, 1) not in self.entries or (index, 2) not in self.entries
        if 0x1600 <= index <= 0x17FF or 0x1A00 <= index <= 0x1BFF:
            return index - 0x200 not in self.objects or (index, 0) not in self.entries
        return False

    # COB-IDs

    @staticmethod
    def is_cob_id(key):
        """Whether the entry is the COB-ID of the EMCY or of a PDO."""
        return key == (0x1014, 0) or (0x1400 <= key[0] <= 0x15FF or 0x1800 <= key[0] <= 0x19FF) and key[1] == 1

    def is_free(self, identifier):
        ranges = (0x000, 0x07F), (0x101, 0x180), (0x581, 0x5FF), (0x601, 0x67F), (0x6E0, 0x7FF)
        return identifier not in self.identifiers and not any(low <= identifier <= high for low, high in ranges)

    def is_good(self, word):
        return bool(word >> 31) or word & 0x3FFFF800 == 0 and self.is_free(word & 0x7FF)

    def is_good_sync(self, word):
        return word & 0x7FFFF800 == 0 and self.is_free(word & 0x7FF)

    # Reading and writing: each gives an abort code, or 0

    def absence(self, key):
        return NO_OBJECT if key[0] not in self.objects else NO_SUB_INDEX if key not in self.entries else 0

    def read_refusal(self, key):
        if self.absence(key):
            return self.absence(key)
        if self.entries[key].access == "wo":
            return WRITE_ONLY
        return NO_DATA if key[0] == 0x1003 and key[1] > self.word((0x1003, 0)) else 0

    def length_refusal(self, key, length):
        entry = self.entries[key]
        if length > entry.capacity:
            return TOO_LONG
        return TOO_SHORT if entry.type in WIDTHS and length < entry.capacity else 0

    def begin_refusal(self, key, size):
        if self.absence(key):
            return self.absence(key)
        if self.entries[key].access in ("ro", "const") or 0x1200 <= key[0] <= 0x127F:
            return READ_ONLY
        return 0 if size is None else self.length_refusal(key, size)

    def store_refusal(self, key, data):
        """What refuses bytes that come to an entry in the end."""
        return self.length_refusal(key, len(data)) or self.limit_refusal(key, data) or self.rule_refusal(key, data)

    def application_refusal(self, key, data):
        if self.absence(key):
            return self.absence(key)
        if self.entries[key].access == "const" or 0x1200 <= key[0] <= 0x127F:
            return READ_ONLY
        return self.store_refusal(key, data)

    def limit_refusal(self, key, data):
        entry = self.entries[key]
        if entry.type not in WIDTHS:
            return 0
        number = number_of(entry.type, data)
        return TOO_HIGH if number > entry.high else TOO_LOW if number < entry.low else 0

    def rule_refusal(self, key, data):
        """The own rule of an entry of the communication profile."""
        index, sub = key
        number = int.from_bytes(data, "little")
        if index in (0x1010, 0x1011):
            return NOT_STORED
        if self.is_cob_id(key):
            return self.cob_id_refusal(self.word(key), number)
        if index == 0x1016 and 1 <= sub <= 0x7F:
            return INCOMPATIBLE if self.is_consumed_elsewhere(sub, number) else 0
        if 0x1800 <= index <= 0x19FF and sub in (3, 6):
            if is_valid(self.word((index, 1))):
                return DEVICE_STATE
            return VALUE if sub == 6 and number > 240 else 0
        if (0x1600 <= index <= 0x17FF or 0x1A00 <= index <= 0x1BFF) and sub <= 64:
            return self.mapping_refusal(index, sub, number)
        wrong = (key == (0x1003, 0) and number != 0 or
                 key == (0x1005, 0) and not self.is_good_sync(number) or
                 key == (0x1019, 0) and (number == 1 or number > 240) or
                 key == (0x1029, 1) and number > 2 or
                 (0x1400 <= index <= 0x15FF or 0x1800 <= index <= 0x19FF) and sub == 2 and 241 <= number <= 253)
        return VALUE if wrong else 0

    def cob_id_refusal(self, old, new):
        if not self.is_good(new):
            return VALUE
        changed = is_valid(old) and not new >> 31 and (old ^ new) & 0x3FFFFFFF
        return DEVICE_STATE if changed else 0

    def is_consumed_elsewhere(self, sub, number):
        node = consumed_node(number)
        others = [consumed_node(self.word((0x1016, other))) for other in range(1, 0x80) if other != sub]
        return node is not None and node in others

    # PDO mapping

    def mapping_refusal(self, index, sub, number):
        if is_valid(self.word((index - 0x200, 1))) or sub > 0 and self.word((index, 0)) != 0:
            return DEVICE_STATE
        if sub == 0:
            return self.count_refusal(index, number)
        return self.mapped_refusal(index < 0x1800, number) if number else 0

    def mapped_refusal(self, received, word):
        """What keeps a mapping word from being mapped into an RPDO (`received`), or a TPDO."""
        key, bits = (word >> 16, word >> 8 & 0xFF), word & 0xFF
        if received and key[0] in self.dummies:
            return NO_SUB_INDEX if key[1] else NOT_MAPPABLE if bits != 8 * WIDTHS[key[0]] else 0
        if self.absence(key):
            return self.absence(key)
        entry = self.entries[key]
        rights = ("rw", "rww", "wo") if received else ("ro", "rw", "rwr", "const")
        mapped = entry.mappable and entry.type in WIDTHS and entry.access in rights and not (received and key[0] < 0x2000)
        return 0 if mapped and bits == 8 * entry.capacity else NOT_MAPPABLE

    def count_refusal(self, index, count):
        present = 0
        while present < 64 and (index, present + 1) in self.entries:
            present += 1
        if count > present:
            return VALUE
        words = [self.word((index, sub)) for sub in range(1, count + 1)]
        if any(word == 0 or self.mapped_refusal(index < 0x1800, word) for word in words):
            return NOT_MAPPABLE
        return PDO_LENGTH if sum(word & 0xFF for word in words) > 64 else 0

    def mapping(self, index):
        """What is mapped by 1600h to 17FFh or 1A00h to 1BFFh, in order: pairs of a key and a width."""
        words = [self.word((index, sub)) for sub in range(1, self.word((index, 0)) + 1)]
        return [((word >> 16, word >> 8 & 0xFF), (word & 0xFF) // 8) for word in words]

    def pdo_acts(self, index):
        """Whether the PDO of this communication parameter is in use."""
        kind = self.word((index, 2))
        return is_valid(self.word((index, 1))) and self.word((index + 0x200, 0)) != 0 and (kind <= 240 or kind >= 254)

    # Errors and resets

    def push_error(self, code):
        length = 0
        while length < 254 and (0x1003, length + 1) in self.entries:
            length += 1
        if (0x1003, 0) in self.entries and length:
            for sub in range(length, 1, -1):
                self.bytes[0x1003, sub] = self.bytes[0x1003, sub - 1]
            self.bytes[0x1003, 1] = bytes_of(7, code)
            self.bytes[0x1003, 0] = bytes([min(self.word((0x1003, 0)) + 1, length)])

    def reset(self, all_of_it):
        for key, entry in self.entries.items():
            if all_of_it or 0x1000 <= key[0] <= 0x1FFF:
                self.bytes[key] = entry.initial


def consumed_node(word):
    """The node whose heartbeat an entry of 1016h consumes, or None."""
    node = word >> 16 & 0xFF
    return node if word & 0xFFFF and 1 <= node <= 127 else None


class Channel:
    """An SDO server's channel. `open` is the open transfer, or None; `last` the tick of the last request."""

    def __init__(self, request, answer):
        self.request, self.answer, self.open, self.last = request, answer, None, 0

    def answered(self, data):
        return self.answer, bytes(data) + bytes(8 - len(data))

    def abort(self, code, key=None):
        key = key or (self.open.key if self.open else (0, 0))
        self.open = None
        return [self.answered(b"\x80" + key[0].to_bytes(2, "little") + bytes([key[1]]) + code.to_bytes(4, "little"))]

    def take(self, dictionary, data, now):
        """The answers to a request of eight bytes, and the key of an entry that is to be set with its bytes, or None."""
        self.last = now
        transfer, first = self.open, data[0]
        if transfer and transfer.kind == "block download" and not transfer.ended:
            return self.take_segment_of_block(dictionary, data), None
        top = first >> 5
        if top == 4:
            self.open = None
            return [], None
        if top in (1, 2) or top == 5 and first & 3 == 0 or top == 6 and not first & 1:
            self.open = None
            return self.begin(dictionary, data)
        if transfer and transfer.kind == "download" and top == 0:
            return self.take_segment(dictionary, data)
        if transfer and transfer.kind == "upload" and top == 3:
            return self.send_segment(first >> 4 & 1), None
        if transfer and transfer.kind == "block upload" and top == 5:
            return self.go_on_with_block(data), None
        if transfer and transfer.kind == "block download" and top == 6:
            return self.complete(dictionary, transfer.held[:len(transfer.held) - (first >> 2 & 7)], b"\xA1")
        return self.abort(COMMAND), None

    def begin(self, dictionary, data):
        first, key = data[0], (data[1] | data[2] << 8, data[3])
        head, size, top = data[1:4], int.from_bytes(data[4:], "little"), first >> 5
        if top == 1 and first & 2:
            return self.expedited(dictionary, data, key)
        if top in (1, 6):
            told = size if first & (1 if top == 1 else 2) else None
            refusal = dictionary.begin_refusal(key, told)
            if refusal:
                return self.abort(refusal, key), None
            self.open = Transfer("download" if top == 1 else "block download", key, told)
            return [self.answered(b"\x60" + head if top == 1 else b"\xA0" + head + b"\x7F")], None
        refusal = dictionary.read_refusal(key) or (BLOCK_SIZE if top == 5 and not 1 <= data[4] <= 127 else 0)
        if refusal:
            return self.abort(refusal, key), None
        value = dictionary.bytes[key]
        if top == 2 and 1 <= len(value) <= 4:
            return [self.answered(bytes([0x43 | 4 - len(value) << 2]) + head + value)], None
        self.open = Transfer("upload" if top == 2 else "block upload", key, None, value, data[4])
        return [self.answered((b"\x41" if top == 2 else b"\xC2") + head + len(value).to_bytes(4, "little"))], None

    def expedited(self, dictionary, data, key):
        if dictionary.absence(key):
            return self.abort(dictionary.absence(key), key), None
        length = 4 - (data[0] >> 2 & 3) if data[0] & 1 else min(4, dictionary.entries[key].capacity)
        value = data[4:4 + length]
        refusal = dictionary.begin_refusal(key, length) or dictionary.store_refusal(key, value)
        if refusal:
            return self.abort(refusal, key), None
        return [self.answered(b"\x60" + data[1:4])], (key, value)

    def take_segment(self, dictionary, data):
        transfer, first = self.open, data[0]
        part = data[1:8 - (first >> 1 & 7)]
        if first >> 4 & 1 != transfer.toggle:
            return self.abort(TOGGLE), None
        if len(transfer.held) + len(part) > dictionary.entries[transfer.key].capacity:
            return self.abort(TOO_LONG), None
        transfer.held += part
        transfer.toggle ^= 1
        answer = bytes([0x20 | first & 0x10])
        return self.complete(dictionary, transfer.held, answer) if first & 1 else ([self.answered(answer)], None)

    def complete(self, dictionary, value, answer):
        key, told = self.open.key, self.open.told
        refusal = 0
        if told is not None and len(value) != told:
            refusal = TOO_LONG if len(value) > told else TOO_SHORT
        refusal = refusal or dictionary.store_refusal(key, value)
        if refusal:
            return self.abort(refusal), None
        self.open = None
        return [self.answered(answer)], (key, value)

    def take_segment_of_block(self, dictionary, data):
        transfer, first = self.open, data[0]
        if first == 0x80:
            self.open = None
            return []
        if first == 0:
            return []
        sequence, last = first & 0x7F, bool(first & 0x80)
        if sequence == transfer.taken + 1:
            transfer.taken += 1
            transfer.held += data[1:]
            transfer.ended = last
        if not last and sequence != 127:
            return []
        if not transfer.ended and len(transfer.held) > dictionary.entries[transfer.key].capacity:
            return self.abort(TOO_LONG)
        taken, transfer.taken = transfer.taken, 0
        return [self.answered([0xA2, taken, 127])]

    def send_segment(self, toggle):
        transfer = self.open
        if toggle != transfer.toggle:
            return self.abort(TOGGLE)
        part, transfer.held = transfer.held[:7], transfer.held[7:]
        transfer.toggle ^= 1
        if not transfer.held:
            self.open = None
        return [self.answered(bytes([toggle << 4 | 7 - len(part) << 1 | (not transfer.held)]) + part)]

    def go_on_with_block(self, data):
        transfer, what = self.open, data[0] & 3
        if what == 3 and transfer.sent is None:
            return self.send_sub_block()
        if what == 1 and transfer.ended:
            self.open = None
            return []
        if what != 2 or transfer.sent is None or transfer.ended:
            return self.abort(COMMAND)
        if data[1] > transfer.sent:
            return self.abort(SEQUENCE)
        position = transfer.position + 7 * data[1]
        if data[1] and position >= len(transfer.held):
            transfer.ended = True
            return [self.answered([0xC1 | position - len(transfer.held) << 2])]
        transfer.position, transfer.block_size = position, data[2]
        return self.send_sub_block() if 1 <= data[2] <= 127 else self.abort(BLOCK_SIZE)

    def send_sub_block(self):
        transfer, frames = self.open, []
        rest = transfer.held[transfer.position:]
        parts = [rest[start:start + 7] for start in range(0, len(rest), 7)] or [b""]
        for sequence, part in enumerate(parts[:transfer.block_size], 1):
            frames.append(self.answered(bytes([sequence | (0x80 if sequence == len(parts) else 0)]) + part))
        transfer.sent = len(frames)
        return frames


class Transfer:
    """An open transfer. `held`: the bytes of a download so far; of an upload those that are still to be sent, of a block upload all
    of them. `ended`: a block's last segment was taken, or its end sent. `taken`, `sent`: segments of this sub-block."""

    def __init__(self, kind, key, told, held=b"", block_size=0):
        self.kind, self.key, self.told, self.held, self.block_size = kind, key, told, held, block_size
        self.toggle, self.taken, self.ended, self.sent, self.position = 0, 0, False, None, 0


class Tpdo:
    """What has happened to a TPDO since its start, in ticks."""

    def __init__(self, now):
        self.syncs = None           # SYNCs counted, None before the one that begins the count
        self.event = False          # an event came that isn't answered
        self.sent = None            # its last sending, since the start
        self.timed = now            # its event timer's last start


class Node:
    """The device. Each input gives the frames that it sends, pairs of an identifier and bytes."""

    def __init__(self, dictionary, time):
        self.dictionary, self.time, self.now = dictionary, time, 0
        self.channels = [Channel(request, answer) for _, request, answer in dictionary.channels]
        self.rpdos = sorted(index for index in dictionary.objects if 0x1400 <= index <= 0x15FF)
        self.tpdo_indices = sorted(index for index in dictionary.objects if 0x1800 <= index <= 0x19FF)
        self.begin()

    def begin(self):
        """As after the build."""
        self.state = PRE_OPERATIONAL
        for channel in self.channels:
            channel.open = None
        self.queue, self.emergency = [], None   # waiting emergencies; the tick of the last one sent, and its inhibit time in ms
        self.heartbeat = self.now               # since when the producer counts
        self.heard = {}                         # sub-index of 1016h: the tick of the last heartbeat
        self.slots = {}                         # index of a synchronous RPDO: its data
        self.tpdos = {index: Tpdo(self.now) for index in self.tpdo_indices}

    def word(self, index, sub=0):
        return self.dictionary.word((index, sub))

    def boot(self):
        return [(0x700 + self.dictionary.node, b"\x00")]

    # Inputs

    def frame(self, identifier, data):
        channel = next((channel for channel in self.channels if channel.request == identifier), None)
        rpdo = next((index for index in self.rpdos
                     if self.word(index, 1) & 0x7FF == identifier and self.dictionary.pdo_acts(index)), None)
        answers, service, due = [], [], []
        if identifier == 0:
            service = self.nmt(data)
        elif self.word(0x1005) and identifier == self.word(0x1005) & 0x7FF:
            due = self.sync(data)
        elif channel:
            answers = self.sdo(channel, data)
        elif rpdo:
            self.receive(rpdo, data)
        else:
            self.consume(identifier, data)
        return answers + self.emergencies() + service + self.images(due)

    def tick(self):
        self.now += 1
        late = [channel for channel in self.channels if channel.open and self.time and self.now - channel.last >= self.time]
        aborts = late[0].abort(TIMEOUT) if late else []
        for sub in sorted(self.heard):
            if self.now - self.heard[sub] == self.word(0x1016, sub) & 0xFFFF:
                self.lose_heartbeat(sub)
        emergencies = [] if aborts else self.emergencies()
        period = self.word(0x1017)
        beats = period and (self.now - self.heartbeat) % period == 0
        service = [(0x700 + self.dictionary.node, bytes([self.state]))] if beats else []
        due = [index for index in self.tpdo_indices if self.is_due_at_tick(index)] if self.state == OPERATIONAL else []
        return aborts + emergencies + service + self.images(due)

    def application(self, event, *words):
        """The frames of an application event, and the abort code that refuses it, or 0."""
        refusal, due = getattr(self, event)(*words)
        return self.emergencies() + self.images(due), refusal

    # Network management

    def nmt(self, data):
        if len(data) != 2 or data[1] not in (0, self.dictionary.node):
            return []
        if data[0] in (129, 130):
            self.dictionary.reset(data[0] == 129)
            self.begin()
            return self.boot()
        state = {1: OPERATIONAL, 2: STOPPED, 128: PRE_OPERATIONAL}.get(data[0])
        if state:
            self.enter(state)
        return []

    def enter(self, state):
        if state == self.state:
            return
        if state == STOPPED:
            for channel in self.channels:
                channel.open = None
        self.slots = {}
        if state == OPERATIONAL:
            self.tpdos = {index: Tpdo(self.now) for index in self.tpdo_indices}
        self.state = state

    # SDO, and what a write does

    def sdo(self, channel, data):
        if len(data) != 8 or self.state == STOPPED:
            return []
        answers, change = channel.take(self.dictionary, data, self.now)
        if change:
            self.set(*change)
        return answers

    def set(self, key, data):
        self.dictionary.bytes[key] = data
        index, sub = key
        if key == (0x1017, 0):
            self.heartbeat = self.now
        if index == 0x1016:
            self.heard.pop(sub, None)
        if sub in (1, 2):
            self.slots.pop(index, None)
        if index in self.tpdos and sub in (1, 2):
            self.tpdos[index] = Tpdo(self.now)
        if index in self.tpdos and sub == 5:
            self.tpdos[index].timed = self.now

    # Heartbeats

    def consume(self, identifier, data):
        for key in self.dictionary.entries:
            if key[0] == 0x1016 and 1 <= key[1] <= 0x7F and data in (b"\x04", b"\x05", b"\x7F"):
                node = consumed_node(self.dictionary.word(key))
                if node is not None and identifier == 0x700 + node:
                    self.heard[key[1]] = self.now

    def lose_heartbeat(self, sub):
        del self.heard[sub]
        self.raise_error(0x8130, 0x11, bytes(5))
        reaction = self.word(0x1029, 1)
        if reaction == 0 and self.state == OPERATIONAL:
            self.enter(PRE_OPERATIONAL)
        if reaction == 2:
            self.enter(STOPPED)

    # Emergencies

    def raise_error(self, code, bits, extra):
        register = self.word(0x1001) | bits | 1
        self.dictionary.bytes[0x1001, 0] = bytes([register])
        self.dictionary.push_error(code)
        self.enqueue(code, extra)

    def enqueue(self, code, extra):
        self.queue = (self.queue + [code.to_bytes(2, "little") + self.dictionary.bytes[0x1001, 0] + extra])[-8:]

    def emergencies(self):
        """The emergency that goes at the end of an input, if any."""
        word = self.word(0x1014)
        waits = self.emergency and self.now - self.emergency[0] < self.emergency[1]
        if not self.queue or self.state == STOPPED or not is_valid(word) or waits:
            return []
        self.emergency = self.now, (self.word(0x1015) + 9) // 10
        return [(word & 0x7FF, self.queue.pop(0))]

    # SYNC and PDOs

    def sync(self, data):
        if self.state == STOPPED:
            return []
        if len(data) != (1 if self.word(0x1019) else 0):
            self.raise_error(0x8240, 0x11, bytes(5))
        if self.state != OPERATIONAL:
            return []
        slots, self.slots = self.slots, {}
        for index in sorted(slots):
            self.apply(index, slots[index])
        return [index for index in self.tpdo_indices if self.is_due_at_sync(index, data)]

    def is_due_at_sync(self, index, data):
        kind, tpdo = self.word(index, 2), self.tpdos[index]
        if not self.dictionary.pdo_acts(index) or kind > 240:
            return False
        if kind == 0:
            due, tpdo.event = tpdo.event, False
            return due
        start = self.word(index, 6)
        if tpdo.syncs is not None:
            tpdo.syncs += 1
        elif start == 0 or start > 240 or self.word(0x1019) == 0 or data == bytes([start]):
            tpdo.syncs = 1
        return tpdo.syncs is not None and tpdo.syncs % kind == 0

    def is_due_at_tick(self, index):
        kind, timer, tpdo = self.word(index, 2), self.word(index, 5), self.tpdos[index]
        if not self.dictionary.pdo_acts(index) or kind < 254:
            return False
        if timer and self.now - tpdo.timed == timer:
            tpdo.event = True
        return self.goes_on_event(index)

    def goes_on_event(self, index):
        """Whether a TPDO of type 254 or 255 is sent now; it counts as sent then."""
        tpdo, inhibit = self.tpdos[index], (self.word(index, 3) + 9) // 10
        if not tpdo.event or tpdo.sent is not None and self.now - tpdo.sent < inhibit:
            return False
        tpdo.event, tpdo.sent, tpdo.timed = False, self.now, self.now
        return True

    def notify(self, index):
        """An event of a TPDO: whether it is sent now."""
        kind = self.word(index, 2)
        if self.state != OPERATIONAL or not self.dictionary.pdo_acts(index) or 1 <= kind <= 240:
            return False
        self.tpdos[index].event = True
        return kind >= 254 and self.goes_on_event(index)

    def images(self, due):
        frames = []
        for index in due:
            data = b"".join(self.dictionary.bytes[key] for key, _ in self.dictionary.mapping(index + 0x200))
            frames.append((self.word(index, 1) & 0x7FF, data))
        return frames

    def receive(self, index, data):
        if self.state != OPERATIONAL:
            return
        length = sum(width for _, width in self.dictionary.mapping(index + 0x200))
        if len(data) < length:
            self.raise_error(0x8210, 0x11, bytes(5))
            return
        if len(data) > length:
            self.raise_error(0x8220, 0x11, bytes(5))
        if self.word(index, 2) >= 254:
            self.apply(index, data)
        else:
            self.slots[index] = data

    def apply(self, index, data):
        parts = []
        for key, width in self.dictionary.mapping(index + 0x200):
            if key[0] not in DUMMIES:
                parts.append((key, data[:width]))
            data = data[width:]
        if any(self.dictionary.limit_refusal(key, part) for key, part in parts):
            self.raise_error(0x8200, 0x11, bytes(5))
            return
        for key, part in parts:
            self.dictionary.bytes[key] = part

    # Application events: each gives the abort code that refuses it, or 0, and the TPDOs to send

    def write(self, key, data):
        refusal = self.dictionary.application_refusal(key, data)
        if not refusal:
            self.set(key, data)
        return refusal, []

    def event(self, number):
        index = 0x1800 + number
        if index not in self.tpdos:
            return NO_OBJECT, []
        return 0, [index] if self.notify(index) else []

    def changed(self, key):
        refusal = self.dictionary.absence(key)
        if refusal:
            return refusal, []
        mapping = [index for index in self.tpdo_indices if key in dict(self.dictionary.mapping(index + 0x200))]
        return 0, [index for index in mapping if self.notify(index)]

    def raised(self, code, bits, extra):
        if code == 0:
            return VALUE, []
        self.raise_error(code, bits, extra)
        return 0, []

    def clear(self, bits):
        self.dictionary.bytes[0x1001, 0] = bytes([self.word(0x1001) & ~bits])
        self.enqueue(0, bytes(5))
        return 0, []


class BadLine(Exception):
    """A line that is no line of a trace."""


class Player:
    """Plays a trace to a node line by line; `printed` are the lines that `conode replay` writes for it."""

    FRAME = re.compile(r"\((\d{1,12})\.(\d{6})\)[ \t]+[^ \t]{1,15}[ \t]+([^ \t]+)(?:[ \t]+[RT])?")
    DATA = re.compile(r"([0-9A-Fa-f]{3}|[0-9A-Fa-f]{8})#((?:[0-9A-Fa-f]{2}){0,8}|R[0-9]?|#.*)")
    KEY = r"([0-9A-Fa-f]{4}):([0-9A-Fa-f]{2})"
    EVENTS = [(name, re.compile(form)) for name, form in (
        ("tick", r"!tick (\d+)"), ("write", rf"!write {KEY} ((?:[0-9A-Fa-f]{{2}})+|-)"), ("event", r"!event (\d+)"),
        ("changed", rf"!changed {KEY}"), ("raised", r"!raise ([0-9A-Fa-f]{4}) ([0-9A-Fa-f]{2}) ([0-9A-Fa-f]{10})"),
        ("clear", r"!clear ([0-9A-Fa-f]{2})"))]

    def __init__(self, node):
        self.node, self.clock, self.started, self.lines = node, 0, False, 0
        self.handed = self.ticks = self.frames = 0
        self.printed = []
        self.send(node.boot())

    def send(self, frames):
        self.frames += len(frames)
        for identifier, data in frames:
            stamp = f"({self.clock // 1000:010}.{self.clock % 1000:03}000)"
            self.printed.append(f"{stamp} can0 {identifier:03X}#{data.hex().upper()}")
        return frames

    def tick(self, many):
        for _ in range(many):
            self.clock += 1
            self.ticks += 1
            self.send(self.node.tick())

    def take(self, line):
        """A line without its end; gives the frames that it sent itself."""
        self.lines += 1
        if len(line.encode()) > 512:
            raise BadLine
        if line == "" or line[0] == ";":
            return []
        if line[0] == "!":
            return self.take_event(line)
        return self.take_frame(line)

    def take_frame(self, line):
        form = self.FRAME.fullmatch(line)
        data = form and self.DATA.fullmatch(form[3])
        if not data or len(data[1]) == 3 and int(data[1], 16) > 0x7FF:
            raise BadLine
        stamp = int(form[1]) * 1000 + int(form[2]) // 1000
        if self.started and stamp > self.clock + DAY:
            raise BadLine
        if self.started:
            self.tick(max(0, stamp - self.clock))
        else:
            self.started, self.clock = True, stamp
        if len(data[1]) == 8 or data[2][:1] in ("R", "#"):
            return []
        self.handed += 1
        return self.send(self.node.frame(int(data[1], 16), bytes.fromhex(data[2])))

    def take_event(self, line):
        name, form = next(((name, form.fullmatch(line)) for name, form in self.EVENTS if form.fullmatch(line)), (None, None))
        if name == "tick" and 1 <= int(form[1]) <= DAY:
            self.tick(int(form[1]))
            return []
        if name in (None, "tick") or name == "event" and int(form[1]) > 65535:
            raise BadLine
        words = {
            "write": lambda: ((int(form[1], 16), int(form[2], 16)), bytes.fromhex(form[3].strip("-"))),
            "event": lambda: (int(form[1]),),
            "changed": lambda: ((int(form[1], 16), int(form[2], 16)),),
            "raised": lambda: (int(form[1], 16), int(form[2], 16), bytes.fromhex(form[3])),
            "clear": lambda: (int(form[1], 16),),
        }[name]()
        frames, refusal = self.node.application(name, *words)
        if refusal:
            self.printed.append(f"; line {self.lines} refused {refusal:08X}")
        return self.send(frames)

    def totals(self):
        return f"; in {self.handed}, out {self.frames}, ticks {self.ticks}"

    def stop(self):
        return f"stopped: BadLine {self.lines}"


def replay(device, trace):
    """The lines and the status of `conode replay`. `device`: a build fault's text, or a node."""
    if isinstance(device, str):
        return [f"build fault {device}"], 1
    player = Player(device)
    for line in trace:
        try:
            player.take(line)
        except BadLine:
            return player.printed + [player.stop()], 1
    return player.printed + [player.totals()], 0
