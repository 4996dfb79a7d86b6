#!/usr/bin/env python3
"""Random data sheets with the forms that `conode adapt` rewrites, by its rules and by its options: each is accepted after it,
or refused for a fault that this script put in. Entries that were readable before are shown the same after, and each rewritten one has the value that Python
computes.

    bench/adapt_random.py [PROGRAM [COUNT [SEED]]]     COUNT is 10000 if not given
"""
import os
import random
import re
import struct
import subprocess
import sys
import tempfile

root = os.path.dirname(os.path.dirname(os.path.abspath(__file__)))
program = sys.argv[1] if len(sys.argv) > 1 else os.path.join(root, "crates/conode/out/conode")
count = int(sys.argv[2]) if len(sys.argv) > 2 else 10000
seed = int(sys.argv[3]) if len(sys.argv) > 3 else 1
dice = random.Random(seed)

SIGNED = {0x02: 1, 0x03: 2, 0x10: 3, 0x04: 4, 0x12: 5, 0x13: 6, 0x14: 7, 0x15: 8}
UNSIGNED = {0x05: 1, 0x06: 2, 0x16: 3, 0x07: 4, 0x18: 5, 0x19: 6, 0x1A: 7, 0x1B: 8}


def number(width, signed):
    """A number of a type, in one of the forms that are read."""
    low, high = (-(1 << 8 * width - 1), (1 << 8 * width - 1) - 1) if signed else (0, (1 << 8 * width) - 1)
    value = dice.choice([low, high, 0, 1, dice.randint(low, high)])
    if dice.random() < 0.5:
        return value, str(value)
    return value, "0x%X" % (value % (1 << 8 * width))


class Sheet:
    """A sheet, what is expected of it after `adapt`, and whether it is to be refused."""

    def __init__(self):
        self.sections, self.listed, self.optional = [], [0x1000, 0x1001, 0x1018], []
        self.plain, self.values, self.refused = set(), {}, False
        self.zeros = dice.choice([None, None, "octal", "decimal"])
        self.force = dice.random() < 0.3
        # a list of optional objects stands even where it is empty, since CompactPDO needs it
        self.info = None
        if dice.random() < 0.2:
            self.pdos()
        if dice.random() < 0.2:
            self.sync()
        if dice.random() < 0.2:
            self.mapping()
        self.add("[1000]", ["DataType=7", "AccessType=ro", "DefaultValue=0x191"], plain="1000:00")
        self.add("[1001]", ["DataType=5", "AccessType=ro", "PDOMapping=1"], plain="1001:00")
        self.add("[1018]", ["ObjectType=9"])
        self.sub0("1018", 1)
        self.add("[1018sub1]", ["DataType=7", "AccessType=ro"], plain="1018:01")
        for index in dice.sample(range(0x2000, 0x6000), dice.randint(1, 6)):
            self.listed.append(index)
            dice.choice([self.number, self.number, self.signed, self.real, self.text, self.octets, self.time, self.compact, self.record,
                         self.zero, self.limit])("%04X" % index)

    def options(self):
        return (["--leading-zeros", self.zeros] if self.zeros else []) + (["--force"] if self.force else [])

    def zero(self, index):
        """A number that octal would read otherwise."""
        digits = "0" + "".join(dice.choice("01234567" if dice.random() < 0.9 else "0123456789") for _ in range(dice.randint(2, 4)))
        if int(digits) < 8:
            digits += "0"
        sign = dice.choice(["", "-"])
        self.add("[%s]" % index, ["DataType=0x0003", self.access(), "DefaultValue=" + sign + digits])
        if self.zeros is None or (self.zeros == "octal" and re.search("[89]", digits)):
            # of digits that all but the last are 0, and the last is 0 to 7, the number is the same in every base
            if not re.fullmatch("0*[0-7]", digits):
                self.refused = True
        elif not re.fullmatch("0*[0-7]", digits):
            self.expect("[%s]" % index, {"DefaultValue": sign + str(int(digits, 8 if self.zeros == "octal" else 10))})

    def limit(self, index):
        """A limit that is no number of its type."""
        limit = dice.choice(["256", "0x1FF", "-1", "1.5", "high"])
        self.add("[%s]" % index, ["DataType=0x0005", self.access(), "HighLimit=" + limit])
        if self.force:
            self.expect("[%s]" % index, {"HighLimit": None})
        else:
            self.refused = True

    def sync(self):
        word = dice.choice([0x40000080, 0x80])
        self.optional.append(0x1005)
        self.add("[1005]", ["DataType=0x0007", "AccessType=rw", "DefaultValue=0x%08X" % word])
        self.expect("[1005]", {"DefaultValue": "0x%08X" % (0x80 if self.force else word)})

    def mapping(self):
        """TPDO 5 with a mapping that is good, or at fault: by a length of 1 bit."""
        bits = dice.choice([1, 8])
        self.optional += [0x1804, 0x1A04]
        self.add("[1804]", ["ObjectType=9"])
        self.sub0("1804", 2)
        self.add("[1804sub1]", ["DataType=7", "AccessType=rw", "DefaultValue=0x80000000"])
        self.add("[1804sub2]", ["DataType=5", "AccessType=rw", "DefaultValue=255"])
        self.add("[1A04]", ["ObjectType=9"])
        self.add("[1A04sub0]", ["DataType=5", "AccessType=rw", "DefaultValue=1"])
        self.add("[1A04sub1]", ["DataType=7", "AccessType=rw", "DefaultValue=0x100100%02X" % bits])
        self.expect("[1A04sub0]", {"DefaultValue": "0" if self.force and bits == 1 else "1"})

    def pdos(self):
        """CompactPDO of some PDOs each way."""
        receive, transmit = dice.randint(0, 4), dice.randint(0, 4)
        # COB-ID and transmission type, and some of the others: from sub-index 1, or from sub-index 0 where that can be told
        subs = {1, 2} | set(dice.sample([3, 4, 5, 6], dice.randint(0, 4)))
        first = 0 if dice.random() < 0.5 and (6 in subs or (3 in subs and 4 not in subs)) else 1
        if first == 1 and 4 in subs:
            subs.add(5)
        bits = sum(1 << sub - first for sub in subs) + (1 if first == 0 else 0)
        self.info = ["[DeviceInfo]", "NrOfRXPDO=%d" % receive, "NrOfTXPDO=%d" % transmit,
                     "CompactPDO=" + dice.choice(["%d", "0x%02X"]) % bits]
        self.expect("[DeviceInfo]", {"CompactPDO": "0"})
        for first, count in ((0x1400, receive), (0x1800, transmit)):
            for index in range(first, first + count):
                for sub in range(1, 7):
                    given = sub in subs
                    self.expect("[%04Xsub%d]" % (index, sub), {"AccessType": "rw" if given else None})
                self.expect("[%04Xsub0]" % index, {"DefaultValue": str(max(subs))})
                self.expect("[%04Xsub0]" % (index + 0x200), {"DefaultValue": "0"})

    def add(self, head, lines, plain=None):
        lines = list(lines)
        dice.shuffle(lines)
        self.sections.append([head] + lines)
        if plain:
            self.plain.add(plain)

    def expect(self, key, value):
        self.values[key] = value

    def access(self):
        return "AccessType=" + dice.choice(["ro", "rw", "wo", "const", "RO"])

    def sub0(self, index, highest):
        lines = ["DefaultValue=%d" % highest]
        plain = "%s:00" % index
        if dice.random() < 0.7:
            lines.append("DataType=0x0005")
        else:
            plain = None
        if dice.random() < 0.7:
            lines.append("AccessType=ro")
        else:
            plain = None
        self.add("[%ssub0]" % index, lines, plain)

    def number(self, index, sub=None):
        code, width = dice.choice(list(SIGNED.items()) + list(UNSIGNED.items()))
        _, text = number(width, code in SIGNED)
        head = "[%s]" % index if sub is None else "[%ssub%X]" % (index, sub)
        blank = sub is not None and dice.random() < 0.2
        if blank:
            head = "[%sSub %X]" % (index, sub)
        self.add(head, ["DataType=0x%04X" % code, self.access(), "DefaultValue=" + text],
                 None if blank else "%s:%02X" % (index, sub or 0))

    def signed(self, index):
        code, width = dice.choice([item for item in SIGNED.items() if item[1] < 8])
        bits = dice.choice([b for b in (16, 32, 64) if b > 8 * width])
        value = -dice.randint(1, 1 << 8 * width - 1)
        lines = ["DataType=%d" % code, self.access(), "DefaultValue=0x%X" % (value % (1 << bits))]
        if dice.random() < 0.5:
            lines += ["LowLimit=0", "HighLimit=0x%X" % ((1 << 8 * width) - 1)]
        self.add("[%s]" % index, lines)
        self.expect("[%s]" % index, {"DefaultValue": "0x%0*X" % (2 * width, value % (1 << 8 * width)), "LowLimit": None})

    def real(self, index):
        wide = dice.random() < 0.5
        value = dice.choice([0.0, 1.0, -2.5, 12.5, dice.uniform(-1e6, 1e6), dice.uniform(-1, 1) * 10.0 ** dice.randint(-30, 30)])
        text = dice.choice([repr(value), "%.3f" % value, "%.6e" % value])
        if dice.random() < 0.05:
            text, self.refused = dice.choice(["12,5", "0x10", "1e999", "nan", "$NODEID"]), True
        lines = ["DataType=0x%04X" % (0x11 if wide else 0x08), self.access(), "DefaultValue=" + text]
        if dice.random() < 0.5:
            lines += ["LowLimit=0.0", "HighLimit=1.0e3"]
        self.add("[%s]" % index, lines)
        try:
            bits = struct.unpack("<Q" if wide else "<I", struct.pack("<d" if wide else "<f", float(text)))[0]
        except (OverflowError, ValueError):
            return
        self.expect("[%s]" % index, {"DefaultValue": "0x%0*X" % (16 if wide else 8, bits), "LowLimit": None, "HighLimit": None,
                                     "DataType": "0x001B" if wide else "0x0007",
                                     "OriginalDataType": "0x0011" if wide else "0x0008"})

    def text(self, index):
        text = "".join(dice.choice("abcXYZ019 _-") for _ in range(dice.randint(1, 12))).strip() or "a"
        if dice.random() < 0.05:
            text, self.refused = text + "é", True
        self.add("[%s]" % index, ["DataType=0xB", self.access(), "DefaultValue=" + text])
        self.expect("[%s]" % index, {"DataType": "0x000A", "DefaultValue": text.encode("utf-16-le").hex().upper()})

    def octets(self, index):
        pairs = ["%02X" % dice.randrange(256) for _ in range(dice.randint(2, 8))]
        self.add("[%s]" % index, ["DataType=10", self.access(), "DefaultValue=" + dice.choice([" ", "  "]).join(pairs)])
        self.expect("[%s]" % index, {"DefaultValue": "".join(pairs)})

    def time(self, index):
        code = dice.choice([0x0C, 0x0D])
        self.add("[%s]" % index, ["DataType=0x%X" % code, self.access(), "DefaultValue=0x%X" % dice.randrange(1 << 48)])
        self.expect("[%s]" % index, {"DataType": "0x0019", "OriginalDataType": "0x%04X" % code})

    def compact(self, index):
        highest = dice.choice([1, 2, 15, 16, 254, dice.randint(1, 254)])
        code, width = dice.choice(list(UNSIGNED.items()))
        _, text = number(width, False)
        lines = ["ParameterName=Many", "ObjectType=" + dice.choice(["8", "0x9"]), "DataType=0x%04X" % code, self.access(),
                 "DefaultValue=" + text, "CompactSubObj=" + dice.choice(["%d" % highest, "0x%X" % highest])]
        self.add("[%s]" % index, lines)
        names, values = {}, {}
        for sub in dice.sample(range(1, highest + 1), min(highest, 3)):
            names[sub] = "Name of %d" % sub
            values[sub] = number(width, False)[1]
        if dice.random() < 0.5:
            self.sections.append(["[%sName]" % index, "NrOfEntries=%d" % len(names)] + ["%d=%s" % item for item in names.items()])
        else:
            names = {}
        if dice.random() < 0.5:
            self.sections.append(["[%sValue]" % index, "NrOfEntries=%d" % len(values)] + ["%d=%s" % item for item in values.items()])
        else:
            values = {}
        for sub in range(1, highest + 1):
            self.expect("[%ssub%X]" % (index, sub), {"ParameterName": names.get(sub, "Many %d" % sub), "DefaultValue": text,
                                                     "ParameterValue": values.get(sub)})
        self.expect("[%ssub0]" % index, {"DataType": "0x0005", "AccessType": "ro", "DefaultValue": str(highest)})

    def record(self, index):
        highest = dice.randint(1, 4)
        self.add("[%s]" % index, ["ObjectType=9"])
        self.sub0(index, highest)
        for sub in range(1, highest + 1):
            self.number(index, sub)

    def text_of(self):
        end = dice.choice(["\n", "\r\n"])
        zeros = dice.random() < 0.4
        lists = []
        for name, indices in (("Mandatory", self.listed[:3]), ("Optional", self.optional), ("Manufacturer", self.listed[3:])):
            lines = ["[%sObjects]" % name, "SupportedObjects=%d" % len(indices)]
            for place, index in enumerate(indices, 1):
                lines.append("%s%d=0x%04X" % ("0" if zeros and place < 10 else "", place, index))
            lists.append(lines)
        lines = ["; made at random"]
        for section in ([self.info] if self.info else []) + lists + self.sections:
            lines += section + [""] * dice.randint(0, 2)
        mark = "\ufeff" if dice.random() < 0.2 else ""
        return mark + end.join(lines) + dice.choice(["", end])


def run(*words):
    done = subprocess.run([program, *words], capture_output=True, check=False)
    return done.returncode, done.stdout.decode("utf-8", "replace"), done.stderr.decode("utf-8", "replace")


def sections_of(text):
    found, current = {}, None
    for line in text.split("\n"):
        line = line.strip()
        if line.startswith("["):
            current = found.setdefault(line, {})
        elif "=" in line and current is not None and not line.startswith(";"):
            key, value = line.split("=", 1)
            current[key] = value
    return found


def shown(path):
    lines = run("show", path)[1].split("\n")
    return {line[:7]: line for line in lines if re.match(r"[0-9A-F]{4}:[0-9A-F]{2} ", line)}


def main():
    adapted = refused = stayed = 0
    with tempfile.TemporaryDirectory() as folder:
        source, target = os.path.join(folder, "a.eds"), os.path.join(folder, "b.eds")
        for turn in range(count):
            sheet = Sheet()
            text = sheet.text_of()
            with open(source, "w", encoding="utf-8", newline="") as file:
                file.write(text)
            status, out, err = run("adapt", source, *sheet.options())

            def fail(why):
                sys.exit(f"seed {seed}, sheet {turn}: {why}\n{text}\n--- status {status}\n{err}\n{out}")

            if sheet.refused:
                if status != 1 or out or not re.search(r": error\[\w+\]: ", err):
                    fail("it isn't refused for a fault")
                refused += 1
                continue
            if status != 0:
                fail("it is refused")
            with open(target, "w", encoding="utf-8", newline="") as file:
                file.write(out)
            if run("check", target, *(["--node", "5"] if sheet.force else []))[0] != 0:
                fail("what is adapted isn't accepted")
            before, after = shown(source), shown(target)
            for key in sheet.plain:
                if before.get(key) is None or before.get(key) != after.get(key):
                    fail(f"{key} was {before.get(key)!r} and is {after.get(key)!r}")
            if not err:
                stayed += 1
                continue
            found = sections_of(out)
            for head, keys in sheet.values.items():
                for key, value in keys.items():
                    if found.get(head, {}).get(key) != value:
                        fail(f"{key} of {head} is {found.get(head, {}).get(key)!r}, not {value!r}")
            adapted += 1
    print(f"adapt_random: {adapted} sheets adapted, {stayed} accepted as they were, {refused} refused for their faults")


main()
