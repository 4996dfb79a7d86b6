#!/usr/bin/env python3
"""explain_random.py [COUNT] [SEED] [PROGRAM]: random SDO transfers between two ends of its own, recorded and explained.

Each session has up to three nodes on up to two interfaces, whose transfers run side by side: expedited, segmented and in blocks, both
directions, sub-blocks of any size, segments that the receiver misses, aborts, requests without an answer, requests that are repeated,
transfers that are left, boot-ups. The ends are written from CiA 301, 7.2.4.3, apart from the program.

1. As it was, the lines of transfers that `explain` prints are exactly those that follow from what the ends did.
2. Cut at both ends, with frames lost or repeated: each `done` is of a transfer that was done, by its last frame, with its bytes. No two
   frames in a row of one channel are lost: of more than that nothing need show, as of a segment, its confirmation, and both again.
"""
import copy
import random
import re
import subprocess
import sys
import tempfile

COUNT = int(sys.argv[1]) if len(sys.argv) > 1 else 200
SEED = int(sys.argv[2]) if len(sys.argv) > 2 else random.randrange(10**6)
PROGRAM = sys.argv[3].split() if len(sys.argv) > 3 else ["bin/conode"]

CLIENT, SERVER = 0x600, 0x580

# the line of a transfer that ended
END = re.compile(r" *\d+\.\d{6}  (can\d  )?node \d+  SDO (download|upload) ")

# In a sub-block of more segments the request of another transfer (20h and more) looks like a segment.
DOWNLOAD_SIZES = [1, 2, 4, 21, 31]
UPLOAD_SIZES = [1, 4, 21, 42, 127]


def crc_of(data):
    crc = 0
    for byte in data:
        crc ^= byte << 8
        for _ in range(8):
            crc = (crc << 1 ^ 0x1021 if crc & 0x8000 else crc << 1) & 0xFFFF
    return crc


def keyed(command, key, last=b""):
    return bytes([command, key[0] & 255, key[0] >> 8, key[1]]) + last.ljust(4, b"\0")


def sized(size):
    return b"" if size is None else size.to_bytes(4, "little")


def parts(data, width=7):
    return [data[i:i + width] for i in range(0, len(data), width)] or [b""]


class Transfer:
    """The frames of one transfer, from both ends, and how it ends."""

    def __init__(self, random_, key):
        self.r, self.key = random_, key
        self.frames, self.taken, self.ending = [], 0, None
        self.within, self.due = set(), set()
        self.way = self.r.choice(["download", "upload"])
        self.protocol = self.r.choice(["expedited", "segmented", "block"])
        few = self.protocol == "expedited"
        length = self.r.randint(1, 4) if few else self.r.choice([0, 1, 6, 7, 8, 14, 30, 100, 400])
        self.data = bytes(self.r.randrange(256) for _ in range(length))
        self.size = self.r.choice([None, len(self.data), len(self.data)])
        if self.size is not None and self.r.random() < 0.05 and not few:
            self.size += 1
        self.crcs = (self.r.random() < 0.7, self.r.random() < 0.7)
        self.wrong_crc = self.r.random() < 0.05
        getattr(self, f"{self.way}_{self.protocol}")()
        self.stop_somewhere()

    def say(self, side, frame, taken=None):
        """A frame, and how many bytes the receiver has once it came."""
        self.taken = self.taken if taken is None else taken
        self.frames.append((side, frame, self.taken))

    def close(self):
        """All is confirmed."""
        both = self.protocol == "block" and all(self.crcs)
        if self.size is not None and self.protocol != "expedited" and self.size != len(self.data):
            self.ending = f"confirmed, but size {self.size:,} indicated, {len(self.data):,} came"
        elif both and self.wrong_crc:
            self.ending = f"confirmed, but CRC {self.sent_crc:04X}, computed {crc_of(self.data):04X}"
        else:
            self.ending = "done, CRC right" if both else "done"

    def expedited_bits(self):
        return 0x03 | (4 - len(self.data)) << 2

    def download_expedited(self):
        self.say(CLIENT, keyed(0x20 | self.expedited_bits(), self.key, self.data))
        self.say(SERVER, keyed(0x60, self.key), len(self.data))
        self.close()

    def upload_expedited(self):
        block = self.r.random() < 0.3
        self.say(CLIENT, keyed(0xA4, self.key, bytes([127, 21])) if block else keyed(0x40, self.key))
        self.say(SERVER, keyed(0x40 | self.expedited_bits(), self.key, self.data), len(self.data))
        self.close()

    def segments(self, sender, receiver, asks):
        """Segments, each confirmed after it, or asked for before it."""
        pieces, done = parts(self.data), 0
        for i, piece in enumerate(pieces):
            toggle, last = 0x10 * (i % 2), i == len(pieces) - 1
            frame = bytes([toggle | (7 - len(piece)) << 1 | last]) + piece.ljust(7, b"\0")
            done += len(piece)
            if asks:
                self.say(receiver, bytes([0x60 | toggle]) + bytes(7))
                self.say(sender, frame, done)
            else:
                self.say(sender, frame)
                self.say(receiver, bytes([0x20 | toggle]) + bytes(7), done)
        self.close()

    def download_segmented(self):
        self.say(CLIENT, keyed(0x20 | (self.size is not None), self.key, sized(self.size)))
        self.say(SERVER, keyed(0x60, self.key))
        self.segments(CLIENT, SERVER, False)

    def upload_segmented(self):
        block = self.r.random() < 0.3
        self.say(CLIENT, keyed(0xA0, self.key, bytes([127, 0])) if block else keyed(0x40, self.key))
        self.say(SERVER, keyed(0x40 | (self.size is not None), self.key, sized(self.size)))
        self.segments(SERVER, CLIENT, True)

    def blocks(self, sender, receiver, block_size, sizes):
        """Sub-blocks; the receiver misses a segment now and then, and takes none after it."""
        pieces, taken = parts(self.data), 0
        while taken < len(pieces):
            block = pieces[taken:taken + block_size]
            count = len(block) if self.r.random() < 0.7 else self.r.randint(0, len(block))
            self.due.add(len(self.frames) - 1)
            for i, piece in enumerate(block):
                last = taken + i == len(pieces) - 1
                if i < len(block) - 1:
                    self.within.add(len(self.frames))
                    self.due.add(len(self.frames))
                self.say(sender, bytes([i + 1 | 0x80 * last]) + piece.ljust(7, b"\0"))
            taken += count
            block_size = self.r.choice(sizes)
            has = self.taken if taken == len(pieces) else 7 * taken
            self.say(receiver, bytes([0xA2, count, block_size]) + bytes(5), has)
        unused = 7 - len(pieces[-1])
        self.sent_crc = (crc_of(self.data) + self.wrong_crc * 0x1357) & 0xFFFF
        self.say(sender, bytes([0xC1 | unused << 2]) + self.sent_crc.to_bytes(2, "little") + bytes(5), len(self.data))
        self.say(receiver, bytes([0xA1]) + bytes(7))
        self.close()

    def download_block(self):
        block_size = self.r.choice(DOWNLOAD_SIZES)
        self.say(CLIENT, keyed(0xC0 | 4 * self.crcs[0] | 2 * (self.size is not None), self.key, sized(self.size)))
        self.say(SERVER, keyed(0xA0 | 4 * self.crcs[1], self.key, bytes([block_size])))
        self.blocks(CLIENT, SERVER, block_size, DOWNLOAD_SIZES)

    def upload_block(self):
        block_size = self.r.choice(UPLOAD_SIZES)
        self.say(CLIENT, keyed(0xA0 | 4 * self.crcs[0], self.key, bytes([block_size, 0])))
        self.say(SERVER, keyed(0xC0 | 4 * self.crcs[1] | 2 * (self.size is not None), self.key, sized(self.size)))
        self.say(CLIENT, bytes([0xA3]) + bytes(7))
        self.blocks(SERVER, CLIENT, block_size, UPLOAD_SIZES)

    def next_end(self):
        """The end whose turn it is: the other one, but for a segment within a sub-block."""
        side = self.frames[-1][0]
        other = SERVER if side == CLIENT else CLIENT
        return side if len(self.frames) - 1 in self.within else other

    def is_due(self):
        """Whether the server of an upload has segments of a sub-block left to send."""
        return self.way == "upload" and len(self.frames) - 1 in self.due

    def request(self):
        """Its first frame alone, without an answer."""
        alone = copy.copy(self)
        alone.frames, alone.ending = self.frames[:1], None
        return alone

    def stop_somewhere(self):
        """Now and then an end aborts, or nothing more comes: what comes next ends it."""
        chance = self.r.random()
        if chance > 0.3:
            return
        kept = self.r.randint(1, len(self.frames) - 1)
        self.frames = self.frames[:kept]
        if chance < 0.2:
            side = self.r.choice([CLIENT, SERVER])
            code = self.r.choice([0x05040000, 0x06090032, 0x12345678])
            words = {0x05040000: " (the transfer timed out)", 0x06090032: " (the value is below the low limit)"}.get(code, "")
            self.frames.append((side, keyed(0x80, self.r.choice([self.key, (0, 0)]), code.to_bytes(4, "little")), self.frames[-1][2]))
            self.ending = f"aborted by the {'client' if side == CLIENT else 'server'} with {code:08X}{words}"
        else:
            self.ending = None


def counted(number, thing):
    return f"{number:,} {thing}{'' if number == 1 else 's'}"


def seconds(micros):
    return f"{micros // 1000000}.{micros // 1000 % 1000:03} s"


def line_of(interface, node, transfer, stamps, end, ending):
    front = f"{end // 1000000:>10}.{end % 1000000:06}  {interface}node {node}  "
    key = f"{transfer.key[0]:04X}:{transfer.key[1]:02X}"
    taken = transfer.frames[-1][2]
    return (f"{front}SDO {transfer.way} {key} {counted(taken, 'byte')} in {counted(len(transfer.frames), 'frame')}, "
            f"{seconds(end - stamps[0])}: {ending}")


def left_ending(before, stamps, transfer, now):
    """How a transfer ends where the client begins another one."""
    waited = seconds(now - stamps[-1])
    if is_lost(before):
        return None
    if [frame for _, frame, _ in before.frames] == [transfer.frames[0][1]]:
        return f"requested again after {waited}"
    if before.next_end() == CLIENT or before.is_due() and now - stamps[-1] < 50000:
        return "interrupted"
    return None if is_segment_after(before.frames, transfer.frames[0][1]) else f"no answer in {waited}"


def is_segment_after(frames, request):
    """Whether a request looks like the segment of a sub-block after a lone one without an answer (20h and 21h, 22h and 23h): nothing is
    said of that one's end, as docs/DECISIONS.md has it."""
    return len(frames) == 1 and frames[0][1][0] + 1 == request[0] % 128


def is_lost(transfer):
    """Whether it began with such a request, and had no answer: nothing is said of its end either."""
    return transfer.is_after and all(side == CLIENT for side, _, _ in transfer.frames)


def is_said(transfer):
    """An abort of the client is said of such a transfer only where it has its multiplexer."""
    return not is_lost(transfer) or transfer.frames[-1][1][1:4] == transfer.frames[0][1][1:4]


class Session:
    """Transfers of a few channels side by side, in one recording."""

    def __init__(self, random_):
        self.r = random_
        self.frames, self.wanted, self.done = [], [], {}
        interfaces = ["can0"] if self.r.random() < 0.5 else ["can0", "can1"]
        channels = {(self.r.choice(interfaces), self.r.randint(1, 127)): [] for _ in range(self.r.randint(1, 3))}
        for todo in channels.values():
            for i in range(self.r.randint(1, 6)):
                transfer = Transfer(self.r, (0x2000 + 16 * i + self.r.randrange(16), self.r.randrange(3)))
                if self.r.random() < 0.1:
                    todo.append(transfer.request())
                todo.append(transfer)
        self.run(channels)

    def run(self, channels):
        now = 1700000000 * 10**6 + self.r.randrange(10**6)
        at = {channel: [0, 0, [], None] for channel in channels}
        seen, several = None, False
        while channels:
            channel = self.r.choice(sorted(channels))
            interface, node = channel
            todo, place = channels[channel], at[channel]
            transfer = todo[place[0]]
            now += self.r.choice([200, 900, 2800, 1000000 if self.r.random() < 0.02 else 500])
            several = several or (seen is not None and seen != interface)
            seen = seen or interface
            shown = f"{interface}  " if several else ""
            if place[1] == 0 and place[3] and self.r.random() < 0.2:
                if not is_lost(place[3][0]):
                    self.wanted.append(line_of(shown, node, *place[3], now, "interrupted"))
                self.frames.append((channel, now, self.line(now, interface, 0x700 + node, b"\0")))
                place[3] = None
                continue
            if place[1] == 0:
                transfer.is_after = bool(place[3]) and is_segment_after(place[3][0].frames, transfer.frames[0][1])
            if place[1] == 0 and place[3]:
                ending = left_ending(*place[3], transfer, now)
                if ending:
                    self.wanted.append(line_of(shown, node, *place[3], now, ending))
                place[3] = None
            side, frame, _ = transfer.frames[place[1]]
            place[2] = place[2] if place[1] else []
            place[2].append(now)
            place[1] += 1
            self.frames.append((channel, now, self.line(now, interface, side + node, frame)))
            if place[1] == len(transfer.frames):
                if transfer.ending and is_said(transfer):
                    line = line_of(shown, node, transfer, place[2], now, transfer.ending)
                    self.wanted.append(line)
                    if transfer.ending.startswith("done"):
                        self.done[now, node] = line.split("  node ")[1].split(" in ")[0]
                place[3] = None if transfer.ending else (transfer, place[2])
                place[0], place[1] = place[0] + 1, 0
                if place[0] == len(todo):
                    del channels[channel]
        self.open = [(channel, place[3]) for channel, place in at.items() if place[3]]
        self.last, self.several = now, several

    @staticmethod
    def line(now, interface, identifier, data):
        return f"({now // 1000000}.{now % 1000000:06}) {interface} {identifier:03X}#{data.hex().upper()}"

    def unfinished(self):
        """The transfers that are open at the end, in the order in which their channels were heard first."""
        order = []
        for channel, _, _ in self.frames:
            if channel not in order:
                order.append(channel)
        lines = []
        for channel, (transfer, stamps) in sorted(self.open, key=lambda it: order.index(it[0])):
            if is_lost(transfer):
                continue
            shown = f"{channel[0]}  " if self.several or channel[0] != self.frames[0][0][0] else ""
            ending = f"unfinished where the recording ends, {seconds(self.last - stamps[-1])} after its last frame"
            lines.append(line_of(shown, channel[1], transfer, stamps, self.last, ending))
        return lines

    def disturbed(self):
        """Cut, with frames lost, never two in a row of a channel, and repeated."""
        kept = self.frames[self.r.choice([0, 0, self.r.randrange(len(self.frames))]):]
        kept = kept[:self.r.choice([len(kept), self.r.randint(1, len(kept))])]
        lost, out = set(), []
        rate = self.r.choice([0, 0.01, 0.1])
        for channel, _, line in kept:
            if channel not in lost and self.r.random() < rate:
                lost.add(channel)
                continue
            lost.discard(channel)
            out.append(line)
            if self.r.random() < rate:
                out.append(line)
        return out


def explained(lines):
    with tempfile.NamedTemporaryFile("w", suffix=".log") as log:
        log.write("\n".join(lines) + "\n")
        log.flush()
        ran = subprocess.run(PROGRAM + ["explain", "--stamps", "absolute", log.name], capture_output=True, text=True)
    if ran.returncode:
        sys.exit(f"status {ran.returncode}: {ran.stdout[-200:]}{ran.stderr[-200:]}")
    return [line for line in ran.stdout.splitlines() if END.match(line)]


def first_difference(wanted, got):
    for a, b in zip(wanted + [None] * len(got), got + [None] * len(wanted)):
        if a != b:
            return f"wanted {a}\ngot    {b}"
    return None


def main():
    checked = dones = 0
    for number in range(COUNT):
        session = Session(random.Random(SEED * 100000 + number))
        whole = [line for _, _, line in session.frames]
        difference = first_difference(session.wanted + session.unfinished(), explained(whole))
        if difference:
            sys.exit(f"seed {SEED}, session {number}:\n{difference}\n" + "\n".join(whole))
        for _ in range(4):
            lines = session.disturbed()
            for line in explained(lines) if lines else []:
                if not line.split(": ")[-1].startswith("done"):
                    continue
                dones += 1
                seconds_, micros = line.split()[0].split(".")
                node = int(line.split("node ")[1].split()[0])
                said = line.split("  node ")[1].split(" in ")[0]
                if session.done.get((int(seconds_) * 10**6 + int(micros), node)) != said:
                    sys.exit(f"seed {SEED}, session {number}: a false done: {line}\n" + "\n".join(lines))
        checked += 1
    print(f"seed {SEED}: {checked} sessions as the ends have them; {dones} times done in disturbed ones, none false")


if __name__ == "__main__":
    main()
