"""Random data sheets for replay_random.py: the rows of a device, as the model takes them, and their text, as `conode` reads it."""
from replay_model.device import (DOMAIN, OCTET_STRING, SIGNED, VISIBLE_STRING, WIDTHS, Dictionary, Node, Row, type_range)

ACCESS = ("ro", "wo", "rw", "rw", "rw", "rw", "rwr", "rww", "const")
# objects next to those that have rules of their own, or to the end of an area
EDGES = (0x1002, 0x1004, 0x1008, 0x100F, 0x1012, 0x1280, 0x11FF, 0x13FF, 0x1C00, 0x1FFF, 0x2000, 0x5FFF, 0x6000, 0xFFFF)
# identifiers that are free, those at the ends of their ranges among them, and those next to these
COB_IDS = (0x80, 0x85, 0x100, 0x181, 0x1FF, 0x205, 0x285, 0x301, 0x3AA, 0x57F, 0x580, 0x600, 0x680, 0x6DF)
RESTRICTED = (0x00, 0x7F, 0x101, 0x180, 0x581, 0x5FF, 0x601, 0x67F, 0x6E0, 0x7FF)
TYPES = (255, 255, 255, 254, 254, 0, 0, 1, 1, 2, 3, 240, 241, 252, 253)


def chance(rng, share):
    return rng.random() < share


class Sheet:
    """A random data sheet: its rows, the usable dummies, and its text; and the words of the command line."""

    def __init__(self, rng):
        self.rng, self.rows, self.kinds = rng, [], {}
        self.node = rng.choice((1, 5, 5, 5, 17, 127, rng.randint(1, 127)))
        self.strings, self.domains = rng.choice((0, 3, 16, 16, 30)), rng.choice((0, 5, 16, 30, 30, 120, 889))
        self.time = rng.choice((0, 1, 3, 5, 10, 20, 50, 1000))
        self.in_file = chance(rng, 0.05)    # the node-ID is that of the file
        self.dummies = [index for index in range(2, 8) if chance(rng, 0.5)]
        self.manufacturer()
        self.communication()
        for kind in (0x1400, 0x1800):
            numbers = rng.sample((0, 0, 1, 2, 3, 4, 77, 511), rng.choice((0, 1, 1, 2, 2, 3, 4)))
            for number in sorted(set(numbers)):
                self.pdo(kind + number)
        self.rows.sort(key=lambda row: row.key)

    def add(self, key, code, access="rw", preset=None, mappable=False, low=None, high=None):
        """An entry; sometimes its value is a ParameterValue, and its access another than is usual."""
        rng, value = self.rng, None
        if access == "rw" and key[0] < 0x2000 and chance(rng, 0.06):
            access = rng.choice(ACCESS)
        if code in WIDTHS and low is None and high is None and chance(rng, 0.03):
            low, high = self.limits(code, preset)
        if preset is not None and chance(rng, 0.1):
            value, preset = preset, rng.choice((None, preset))
        self.rows.append(Row(key, code, access, low, high, preset, value, mappable))

    def limits(self, code, preset):
        low, high = type_range(code)
        ends = sorted(self.number(code) for _ in range(2))
        if isinstance(preset, int):
            ends = [min(ends[0], preset), max(ends[1], preset)]
        return self.rng.choice(((ends[0], ends[1]), (ends[0], None), (None, ends[1]), (low, high)))

    def number(self, code):
        low, high = type_range(code)
        rng = self.rng
        return max(low, min(high, rng.choice((0, 1, low, high, rng.randint(-200, 300), rng.randint(low, high)))))

    def object(self, index, kind):
        """7 VAR, 8 ARRAY, 9 RECORD."""
        self.kinds[index] = kind

    def record(self, index, count=None):
        """A RECORD or ARRAY, with its sub-index 0."""
        self.object(index, self.rng.choice((8, 9)))
        self.add((index, 0), 5, self.rng.choice(("ro", "ro", "const", "rw")), count)

    def manufacturer(self):
        rng = self.rng
        for index in rng.sample(range(0x2001, 0x2010), rng.randint(3, 8)) + rng.sample(EDGES, rng.randint(0, 2)):
            if chance(rng, 0.6):
                self.object(index, 7)
                self.value((index, 0))
                continue
            self.record(index, 3)
            for sub in sorted(rng.sample((1, 2, 3, 5, 6, 0x7F, 0xFE, 0xFF), rng.randint(1, 4))):
                self.value((index, sub))

    def value(self, key):
        rng = self.rng
        code = rng.choice((*WIDTHS, 1, 2, 3, 4, 5, 5, 6, 6, 7, 7, *(VISIBLE_STRING, OCTET_STRING) * 2, *(DOMAIN,) * 3))
        access = rng.choice(ACCESS)
        if code == DOMAIN:
            self.add(key, code, rng.choice((access, "rw")))
        elif code not in WIDTHS:
            length = rng.choice((0, 1, 3, 4, 5, 7, 13, 14, 40))
            letters = b"abcXYZ019;=#$" if code == VISIBLE_STRING else range(256)
            self.add(key, code, rng.choice((access, "rw")), bytes(rng.choice(letters) for _ in range(length)) or None)
        else:
            low, high = self.limits(code, None) if chance(rng, 0.3) else (None, None)
            ends = type_range(code)
            number = self.number(code)
            number = max(ends[0] if low is None else low, min(ends[1] if high is None else high, number))
            preset = rng.choice((None, number, number))
            if code not in SIGNED and code != 1 and low is None and high is None and chance(rng, 0.05):
                preset = ("node", rng.choice((0, 1, 0x80, 0x100)))
            self.add(key, code, access, preset, chance(rng, 0.8), low, high)

    def cob_id(self, base):
        rng = self.rng
        if chance(rng, 0.01):
            return rng.choice((*COB_IDS, *RESTRICTED, 0x885, 0x20000085))
        word = rng.choice((0x80000000, 0xC0000000 | base, base, base, base, base, base)) | rng.choice((0, 0, 0, 0x40000000))
        if chance(rng, 0.05):
            return 0
        return ("node", word) if chance(rng, 0.5) else rng.choice((word + self.node, word & 0xC0000000 | rng.choice(COB_IDS[:10])))

    def communication(self):
        rng = self.rng
        self.object(0x1000, 7)
        self.add((0x1000, 0), 7, "ro", 0x191)
        self.object(0x1001, 7)
        self.add((0x1001, 0), 5, rng.choice(("ro", "ro", "rw")), rng.choice((None, 0, 0x81)), chance(rng, 0.5))
        self.record(0x1018, 1)
        self.add((0x1018, 1), 7, "ro", rng.choice((None, 1)))
        if chance(rng, 0.7):
            self.record(0x1003, rng.choice((None, None, 0, 2, 200, 255)))
            some = rng.choice(((), (1,), (1, 2), (1, 2, 3, 4, 5), (1, 2, 4), (2, 3)))
            for sub in range(1, rng.choice((254, 256))) if chance(rng, 0.01) else some:
                self.add((0x1003, sub), 7, rng.choice(("ro", "ro", "rw")))
        singles = ((0x1005, 7, (*(0x80, 0x80, 0, 0x80000080, 0x100, 0x181) * 8, 0x7F, 0x40000080)), (0x1014, 7, None),
                   (0x1015, 6, (0, 0, 10, 95, 101)), (0x1017, 6, (0, 0, 1, 3, 10, 40)), (0x1019, 5, (0, 0, 2, 3, 4, 240, 1, 250)))
        for index, code, presets in singles:
            if chance(rng, 0.75):
                self.object(index, 7)
                self.add((index, 0), code, "rw", rng.choice(presets) if presets else self.cob_id(0x80))
        for index in (0x1010, 0x1011):
            if chance(rng, 0.15):
                self.record(index, 1)
                self.add((index, 1), 7)
        self.monitored()
        self.servers()

    def monitored(self):
        rng = self.rng
        if chance(rng, 0.6):
            self.record(0x1016)
            for sub in rng.choice(((1,), (1, 2), (1, 2, 3), (2, 5), (1, 0x7F), (1, 0x80))):
                word = rng.choice((rng.choice((0, 7, 7, 8, 9, 127, 128)) << 16 | rng.choice((0, 1, 4, 10, 25)), 0x55_07_000A, None))
                self.add((0x1016, sub), 7, "rw", word)
        if chance(rng, 0.6):
            self.record(0x1029)
            self.add((0x1029, 1), 5, "rw", rng.choice((None, 0, 1, 2, 2, 3)))

    def servers(self):
        rng = self.rng
        if chance(rng, 0.3):
            self.record(0x1200, 2)
            for sub in (1, 2):
                self.add((0x1200, sub), 7, "ro", rng.choice((None, 0x123, ("node", 0x600))))
        for index in sorted(set(rng.choices((0x1201, 0x1202, 0x1210, 0x127F), k=rng.choice((0, 0, 1, 1, 2))))):
            self.record(index, 2)
            for sub in (1, 2):
                word = 0x681 + 2 * (index & 0x1F) + sub
                others = word | 0x40000000, word | 0x80000000, 0x600 + self.node + 1, ("node", 0x190), 0x680
                word = rng.choice((word, word, word, word, *others))
                if chance(rng, 0.02):
                    word = rng.choice((0x580 + self.node, 0x10000681, *COB_IDS, *RESTRICTED))
                if not chance(rng, 0.04):
                    self.add((index, sub), 7, rng.choice(("ro", "rw", "const")), word)

    def pdo(self, index):
        rng, sends = self.rng, index >= 0x1800
        self.record(index, rng.choice((2, 5, 6)))
        self.add((index, 1), 7, "rw", self.cob_id(0x180 if sends else 0x200))
        self.add((index, 2), 5, "rw", rng.choice(TYPES))
        if sends and chance(rng, 0.6):
            self.add((index, 3), 6, "rw", rng.choice((None, 0, 10, 25, 90)))
        if sends and chance(rng, 0.6):
            self.add((index, 5), 6, "rw", rng.choice((None, 0, 1, 4, 9, 30)))
        if sends and chance(rng, 0.5):
            self.add((index, 6), 5, "rw", rng.choice((None, 0, 1, 2, 3, 240, 241)))
        if not chance(rng, 0.007):
            self.mapping(index + 0x200)

    def mapping(self, index):
        rng, words, length = self.rng, [], 0
        for word in self.mappable(index < 0x1800):
            if length + (word & 0xFF) <= 64 and len(words) < 8:
                words.append(word)
                length += word & 0xFF
        words = words[:rng.randint(1, 8)]
        present = range(1, len(words) + 1 + rng.choice((0, 1, 2)))
        if chance(rng, 0.01):
            words.append(0x2FFF0008)
        self.record(index, rng.choice((0, len(words), len(words), len(words), len(words))) + (chance(rng, 0.01)))
        self.rows[-1] = self.rows[-1]._replace(access=rng.choice(("rw", "rw", "rw", "const")))
        if chance(rng, 0.02):
            present = rng.choice((range(1, 65), range(1, 66), range(2, 4), (*present, 65)))
        for sub in present:
            word = words[sub - 1] if sub <= len(words) else rng.choice((None, 0, 0x12345678, words[0] if words else 0))
            self.add((index, sub), 7, "rw", word)

    def mappable(self, received):
        """Words that an RPDO (`received`) or a TPDO may map, in random order, some twice."""
        rng, words = self.rng, []
        for row in self.rows:
            rights = ("rw", "rww", "wo") if received else ("ro", "rw", "rwr", "const")
            if row.mappable and row.type in WIDTHS and row.access in rights and not (received and row.key[0] < 0x2000):
                words.append(row.key[0] << 16 | row.key[1] << 8 | 8 * WIDTHS[row.type])
        if received:
            words += [index << 16 | 8 * WIDTHS[index] for index in self.dummies]
        return rng.sample(words * 2, min(len(words), 12))

    def any_mapping_word(self):
        """A word of any entry, most of which can't be mapped."""
        row = self.rng.choice(self.rows)
        return row.key[0] << 16 | row.key[1] << 8 | 8 * WIDTHS.get(row.type, 4) + self.rng.choice((0, 0, 0, 8, -7, 1))

    # Its text

    def text(self):
        rng, lines, lists = self.rng, [], {"MandatoryObjects": [], "OptionalObjects": [], "ManufacturerObjects": []}
        for index in sorted(self.kinds):
            other = rng.choice(("OptionalObjects", "ManufacturerObjects"))
            lists["MandatoryObjects" if index in (0x1000, 0x1001, 0x1018) else other].append(index)
        blocks = [self.list_block(name, indices) for name, indices in lists.items()]
        blocks.append(["[DummyUsage]"] + [f"Dummy{index:04X}={int(index in self.dummies)}" for index in range(2, 8)])
        blocks.append(["[FileInfo]", "FileName=random.eds"])
        if self.in_file or chance(rng, 0.05):
            node = self.node if self.in_file else rng.randint(1, 127)
            name = self.cased(rng.choice(("DeviceComissioning", "DeviceCommissioning")))
            blocks.append([f"[{name}]", f"NodeID={self.numeral(node)}"])
        for index, kind in self.kinds.items():
            blocks += self.object_blocks(index, kind)
        rng.shuffle(blocks)
        for block in blocks:
            lines += block + rng.choice(([], [""], ["; a comment"]))
        end = rng.choice(("\n", "\n", "\r\n"))
        return rng.choice(("", "", "", "\ufeff")) + end.join(lines) + end

    def list_block(self, name, indices):
        self.rng.shuffle(indices)
        places = [f"{at}={self.numeral(index)}" for at, index in enumerate(indices, 1)]
        return [f"[{self.cased(name)}]", f"SupportedObjects={len(indices)}", *places]

    def cased(self, word):
        return self.rng.choice((word, word, word.upper(), word.lower()))

    def numeral(self, number, code=None):
        rng = self.rng
        if number < 0:
            return rng.choice((str(number), f"0x{number + (1 << 8 * WIDTHS[code]):X}"))
        return rng.choice((str(number), f"0x{number:X}", f"0x{number:x}", f"0x{number:08X}"))

    def spelt(self, preset, code):
        rng = self.rng
        if isinstance(preset, tuple):
            added = self.numeral(preset[1])
            return rng.choice((f"$NODEID+{added}", f"{added}+$NODEID", f"$nodeid + {added}"))
        if isinstance(preset, bytes):
            return preset.decode() if code == VISIBLE_STRING else preset.hex()
        return self.numeral(preset, code)

    def object_blocks(self, index, kind):
        name = self.rng.choice((f"{index:04X}", f"{index:x}"))
        rows = [row for row in self.rows if row.key[0] == index]
        head = [f"[{name}]", "ParameterName=an object"]
        if kind != 7 or chance(self.rng, 0.5):
            head.append(f"ObjectType={self.numeral(kind)}")
        if kind == 7 and rows[0].type == DOMAIN and chance(self.rng, 0.5):
            return [[f"[{name}]", "ObjectType=2"] + self.entry_lines(rows[0])[0 if rows[0].access != "rw" else 2:]]
        if kind == 7:
            return [head + self.entry_lines(rows[0])]
        subs = [f"{self.cased('sub')}{row.key[1]:{self.rng.choice(('X', 'x', '02X'))}}" for row in rows]
        return [head] + [[f"[{name}{sub}]"] + self.entry_lines(row) for sub, row in zip(subs, rows)]

    def entry_lines(self, row):
        rng = self.rng
        lines = [f"{self.cased('DataType')}={self.numeral(row.type)}", f"AccessType={self.cased(row.access)}"]
        texts = (("LowLimit", row.low), ("HighLimit", row.high), ("DefaultValue", row.preset), ("ParameterValue", row.value))
        for name, value in texts:
            if value is not None or chance(rng, 0.05):
                spelt = "" if value is None else self.spelt(value, row.type)
                lines.append(f"{self.cased(name)}{rng.choice(('=', ' = '))}{spelt}")
        if row.mappable or chance(rng, 0.3):
            lines.append(f"PDOMapping={int(row.mappable)}")
        rest = lines[2:]
        rng.shuffle(rest)
        return lines[:2] + rest

    def device(self):
        """A new node of the model, or the build fault."""
        dictionary = Dictionary(self.rows, self.dummies, self.node, self.strings, self.domains)
        return dictionary.build_fault() or Node(dictionary, self.time)
