#!/usr/bin/env python3
"""compare_damage.py [COUNT [SEED [PROGRAM]]]: the sessions of examples/ with one frame of the device dropped, doubled, delayed or changed.

A session is recorded as it is: what `conode replay` says that the device sends is put into the trace after the input that it follows,
with 1.5 s of another node's frames before it. `conode compare` finds no difference in it. Then one frame of the device at a random place
is dropped; doubled, half a millisecond later; delayed, by 1 ms to 5 s; or changed: a bit of its identifier, a byte of its data, or the
number of these. `conode compare` has to find a difference at that line, or where a missing frame is noticed first; or the damage is of a
kind that can't be told (`untold` below, and "What damage shows" in docs/COMPARE.md). All other damage is printed, and the status is 1.
"""
import collections
import os
import random
import re
import subprocess
import sys
import tempfile

COUNT = int(sys.argv[1]) if len(sys.argv) > 1 else 400
SEED = int(sys.argv[2]) if len(sys.argv) > 2 else random.randrange(10**6)
PROGRAM = sys.argv[3].split() if len(sys.argv) > 3 else ["bin/conode"]

SESSIONS = [("io-module.eds", 8, "io-module-session.log"), ("temperature-sensor.eds", 5, "temperature-sensor-session.log")]
SESSIONS += [("temperature-sensor.dcf", 5, "start-up.log")]

Frame = collections.namedtuple("Frame", "micros id data own")


def parsed(text, own):
    """The frame of a line of `candump -L`."""
    at, identifier, data = re.match(r"\((\d+\.\d{6})\) \S+ ([0-9A-F]{3})#([0-9A-F]*)", text).groups()
    return Frame(int(at.replace(".", "")), int(identifier, 16), bytes.fromhex(data), own)


def line(frame):
    return f"({frame.micros // 10**6}.{frame.micros % 10**6:06d}) can0 {frame.id:03X}#{frame.data.hex().upper()}"


def recording(sheet, node, trace, folder):
    """The frames of a session, and before it 1.5 s of another node's."""
    inputs, lines = [], []
    with open(f"examples/{trace}", encoding="utf-8") as file:
        for text in file:
            if text[0] != "(":
                lines.append(text.rstrip("\n"))
                continue
            frame = parsed(text, False)
            # the clock of replay has milliseconds
            frame = frame._replace(micros=frame.micros // 1000 * 1000)
            if not inputs:
                inputs = [Frame(frame.micros - 1_500_000 + at * 100_000, 0x77F, b"\5", False) for at in range(15)]
                lines += map(line, inputs)
            inputs.append(frame)
            lines.append(line(frame))
    with open(f"{folder}/inputs.log", "w", encoding="utf-8") as file:
        file.write("\n".join(lines) + "\n")
    words = [*PROGRAM, "replay", f"examples/{sheet}", f"{folder}/inputs.log", "--node", str(node)]
    printed = subprocess.run(words, capture_output=True, text=True, check=True).stdout.splitlines()
    sent = [parsed(it, True) for it in printed if it[0] == "("]
    # the boot-up comes before the first input; an answer 0.3 ms after its request
    sent[0] = sent[0]._replace(micros=inputs[0].micros - 500)
    return sorted(inputs + [it._replace(micros=it.micros + 300) for it in sent], key=lambda it: it.micros)


def kind(frame, node):
    """What a frame of the device is."""
    for base, name in ((0x700, "error control"), (0x580, "SDO"), (0x080, "EMCY")):
        if frame.id == base + node:
            return name
    return "TPDO"


def damaged(it, frames):
    """What is done to which frame, the frame then, all frames then, and the number of its line."""
    frame = it.choice([frame for frame in frames if frame.own])
    others, how, what = [each for each in frames if each is not frame], it.choice(["dropped", "doubled", "delayed", "changed"]), ""
    if how == "dropped":
        return how, what, frame, None, others, None
    if how == "doubled":
        others, new = frames, frame._replace(micros=frame.micros + 500)
    elif how == "delayed":
        new = frame._replace(micros=frame.micros + int(10 ** it.uniform(3, 6.7)))
    else:
        new, what = changed(it, frame)
    then = sorted([*others, new], key=lambda each: each.micros)
    return how, what, frame, new, then, 1 + max(at for at, each in enumerate(then) if each is new)


def changed(it, frame):
    """A frame with one bit of its identifier, one byte of its data, or their number changed."""
    what = it.choice(["identifier", "byte", "byte", "byte", "length"])
    if what == "identifier":
        return frame._replace(id=frame.id ^ 1 << it.randrange(11)), what
    if what == "length":
        length = it.choice([n for n in range(9) if n != len(frame.data)])
        return frame._replace(data=(frame.data + bytes(8))[:length]), what
    at = it.randrange(len(frame.data))
    value = frame.data[at] ^ it.randrange(1, 256)
    return frame._replace(data=frame.data[:at] + bytes([value]) + frame.data[at + 1 :]), f"byte {at}"


def compared(sheet, node, frames, folder):
    """The exit status, and the lines and kinds of the differences."""
    file = f"{folder}/session.log"
    with open(file, "w", encoding="ascii") as recorded:
        recorded.write("\n".join(map(line, frames)) + "\n")
    words = [*PROGRAM, "compare", f"examples/{sheet}", file, "--node", str(node)]
    ran = subprocess.run(words, capture_output=True, text=True, check=False)
    found = re.findall(r"^\S*?:(\d+): (?!warning)([a-z-]+): ", ran.stdout, re.M)
    return ran.returncode, [(int(number), name) for number, name in found], ran.stdout + ran.stderr


def probe(frame, node):
    """The frame, made one that is none in every state."""
    if kind(frame, node) == "error control":
        return frame._replace(data=b"\1")
    if kind(frame, node) == "SDO":
        return frame._replace(data=b"\xE0" + frame.data[1:])
    return frame._replace(data=frame.data[:-1])


def judged(sheet, node, frames, folder):
    """The device's frames that are judged: at whose lines such a frame is found."""
    found = set()
    for at, frame in enumerate(frames):
        if frame.own:
            probed = frames[:at] + [probe(frame, node)] + frames[at + 1 :]
            if at + 1 in [number for number, _ in compared(sheet, node, probed, folder)[1]]:
                found.add(frame)
    return found


# 1017:00 of the sheets after a boot-up; of a configuration it isn't known until a transfer shows it
PERIODS = {"io-module.eds": 0, "temperature-sensor.eds": 1000, "temperature-sensor.dcf": None}


def beats(sheet, node, frames, frame):
    """Since when a heartbeat is awaited, with which period, where that is known; until when the one before a write may run; and the next
    frame of error control."""
    since, period, until, ended = None, PERIODS[sheet], 0, 0
    for each in frames[: frames.index(frame)]:
        shown = each.id == 0x580 + node and each.data[:4] == bytes.fromhex("4B171000")
        written = each.id == 0x600 + node and each.data[:4] == bytes.fromhex("2B171000")
        if each.id == 0x700 + node:
            # the first one after a write may be sent at a change of the state
            since, ended = each.micros, ended + 1
            if each.data == b"\0":
                period, until = PERIODS[sheet], 0
            elif ended > 1:
                until = 0
        elif shown or written:
            if written:
                until, ended = max(until, each.micros + (65535 if period is None else period) * 1010 + 20_000), 0
            since, period = each.micros, int.from_bytes(each.data[4:6], "little")
    later = [each for each in frames[frames.index(frame) + 1 :] if each.id == 0x700 + node]
    return since, period, until, later[0] if later else None


def untold_control(how, what, sheet, node, frames, frame, new):
    if what.startswith("byte"):
        return "a state that the device may be in" if new.data[0] in (0x00, 0x04, 0x05, 0x7F, 0x84, 0x85, 0xFF) else None
    if how == "doubled":
        return "a heartbeat comes twice"
    if what == "length":
        return None
    since, period, until, after = beats(sheet, node, frames, frame)
    # after a boot-up the time counts anew
    first = min([each for each in (after, new if how == "delayed" else None) if each], key=lambda each: each.micros, default=None)
    is_late = period and since and first and first.data != b"\0" and first.micros > max(since + period * 1010 + 10_000, until)
    return None if is_late else "no heartbeat is due, or the next one isn't late"


def untold_sdo(how, what, frames, frame, new):
    first = frame.data[0]
    starts = first >> 5 in (2, 3, 4) or first & 0xE3 in (0xA0, 0xC0, 0xC2)
    if how in ("dropped", "delayed") or what == "identifier":
        asked = max(each.micros for each in frames if not each.own and each.micros < frame.micros and each.id >> 7 == 12)
        later = [each.micros for each in frames if each.micros > frame.micros and each.id >> 7 == 12]
        if how == "delayed" and new.micros - asked > 1_000_000 and (not later or later[0] > new.micros):
            return None
        return "an answer is missing or late, and the client goes on, or the recording ends, within --answer"
    if how == "doubled":
        request = [each for each in frames if not each.own and each.micros < frame.micros and each.id >> 7 == 12][-1]
        whole = first & 0xE2 == 0x42 or (first >> 5 == 3 and request.data[0] & 2)
        return None if whole else "an abort, or a frame within a transfer, comes twice"
    if what == "byte 0":
        return "an abort, or another answer that a transfer has" if new.data[0] >> 5 in (2, 3, 4, 6) or not starts else None
    if what in ("byte 1", "byte 2", "byte 3"):
        index = int.from_bytes(new.data[1:3], "little")
        if index in (0x1010, 0x1011) or 0x1F00 <= index < 0x2000:
            return "an entry whose answers may take long, and may be of a request before the recording"
        return None if starts else "data of a segment, or bytes without a meaning"
    if what.startswith("byte"):
        return "a value, an abort code, or bytes without a meaning"
    return "an end of a block upload" if first >> 5 == 6 else None


def untold(how, what, sheet, node, frames, frame, new):
    """Of which kind the damage is, if it can't be told; else None."""
    which = kind(frame, node)
    before = [each.micros for each in frames if new and each is not frame and each.micros <= new.micros]
    if how == "delayed" and new.micros - max(before) > 1_000_000:
        return "nothing is recorded for longer than --answer before it"
    if which == "error control":
        return untold_control(how, what, sheet, node, frames, frame, new)
    if which == "SDO":
        return untold_sdo(how, what, frames, frame, new)
    if what == "length":
        return None
    if which == "EMCY" and what == "byte 2":
        return None if new.data[2] % 2 == 0 and (new.data[2] or new.data[1]) else "a code and a register that an error may have"
    return "what the application decides"


def outcome(how, what, found, at, reason):
    """Where the damage is found first, or why it can't be told; None: it should have been."""
    if found and found[0][0] == at:
        return "found at its line"
    if found and (how in ("dropped", "delayed") or what == "identifier" or {"heartbeat-state", "answer-state"} & {name for _, name in found}):
        return "found where it is noticed"
    if found and {"answer-size", "answer-crc", "heartbeat-late"} & {name for _, name in found}:
        return "found where the transfer ends, or by the value of 1017:00"
    return None if found else reason


def main():
    counts, kept = collections.Counter(), 0
    with tempfile.TemporaryDirectory() as folder:
        recordings = [(sheet, node, recording(sheet, node, trace, folder)) for sheet, node, trace in SESSIONS]
        for it in recordings:
            status, _, said = compared(*it, folder)
            if status:
                print(f"{it[0]}: a difference without damage\n{said}")
                return 1
        clear = [judged(*it, folder) for it in recordings]
        for number in range(COUNT):
            it = random.Random(SEED * 1_000_000 + number)
            place = it.randrange(len(recordings))
            sheet, node, frames = recordings[place]
            how, what, frame, new, then, at = damaged(it, frames)
            _, found, said = compared(sheet, node, then, folder)
            reason = untold(how, what, sheet, node, frames, frame, new) if frame in clear[place] else "nothing is judged there"
            result = outcome(how, what, found, at, reason)
            counts[kind(frame, node), how, result or "NOT FOUND, or elsewhere"] += 1
            if result is None:
                kept += 1
                print(f"{number}: {how} {what}: {line(frame)} -> {line(new) if new else ''}, line {at} of {sheet}\n{said}")
    for key, count in sorted(counts.items()):
        print(f"{count:6} {', '.join(key)}")
    told = sum(count for key, count in counts.items() if key[2].startswith("found"))
    print(f"{COUNT} of seed {SEED}: {told} found, {COUNT - told - kept} of a kind that can't be told, {kept} others")
    return kept > 0


if __name__ == "__main__":
    os.chdir(os.path.dirname(os.path.dirname(os.path.realpath(__file__))))
    sys.exit(main())
