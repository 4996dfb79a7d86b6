#!/usr/bin/env python3
"""compare_conformant.py [COUNT [SEED [PROGRAM]]] [--known [NAME]] [--mistakes] [--only RUN] [--keep FOLDER] [--each]: a device by CiA 301.

The device was written from CiA 301 alone (conformant_device), and is simulated on a bus with a master, an SDO client and other nodes. Where
CiA 301 leaves something open, the seed chooses: when a device follows a command, what a written heartbeat time does with the period that
runs, whether a heartbeat comes at once after a change of the state, what the error register of an EMCY that waited says, how an SDO server
answers, and so on. The sheet is that of the I/O module of examples/ with other defaults. The recording then gets faults of a recorder: it
begins in the middle, has bad lines, error frames, gaps, a lost or doubled segment, a clock that is set, a last line that is cut. `conode
compare` has to find no difference. Each one is printed with its run, which --only repeats, and the status is 1. At the end is in how many
runs each situation came.

Known exceptions of docs/COMPARE.md are avoided. With --known one of the table KNOWN may come in each run, or the one that is named, and it
is counted in how many runs a difference is found. With --mistakes the device makes one kind of mistake in each run, and that is counted by
kind; of two programs --each shows the runs that differ. --keep leaves sheets and recordings in a folder.
"""
import argparse
import collections
import os
import random
import re
import subprocess
import sys
import tempfile

from conformant_device.bus import SECOND, Bus, Process
from conformant_device.device import Device
from conformant_device.master import Master
from conformant_device.recorder import Recorder
from conformant_device.sheet import sheet_of

KNOWN = {
    "late stop": "it follows a Stop or Enter pre-operational later than the tolerance",
    "hidden stop": "it stops by itself, and follows a Start late before a heartbeat shows that",
    "old period": "the period of an unknown 1017:00 is ended after a write, or begun anew with a heartbeat at a change of the state",
    "late command": "it takes a Start late while it is operational, and begins its times anew",
    "hidden command": "the recording begins between a command and the frame that shows that it is followed",
    "restart unseen": "a frame right before the boot-up of a device that was switched off while 1017:00 is 0 or unknown",
    "boots twice": "it boots up twice within a second",
    "waiting register": "1015:00 is written with 0 while EMCYs wait that have the register of when they are sent",
    "short switch": "a frame right before its boot-up, off for less than a heartbeat period since it was stopped, or a reset meanwhile",
    "early SYNC": "it answers a SYNC that came before its boot-up frame",
    "cable": "its cable is pulled, and it comes back without a boot-up",
}
MISTAKES = """heartbeat-late heartbeat-state heartbeat-byte heartbeat-length command-ignored boot-missing boot-twice pdo-state pdo-length
pdo-inhibit pdo-sync pdo-late emcy-state emcy-register emcy-length emcy-inhibit answer-missing answer-slow answer-twice answer-key
answer-form answer-toggle answer-size answer-state abort-key value-const value-length access-read access-write access-limits""".split()


def simulated(seed, known, mistake):
    """A session: the sheet, the recording, the device, and what came."""
    it = random.Random(seed)
    text, node, bus = sheet_of(it, not mistake), it.randrange(1, 128), Bus(it)
    device = Device(bus, node, text, known, mistake)
    bus.nodes = [device, Master(bus, node, device, known)]
    for steps in (device.inputs(), device.misfortune()):
        Process(bus, steps)
    bus.run(it.choice([5, 15, 40] if not mistake else [15, 40]) * SECOND)
    device.end()
    return text, Recorder(bus, it, known).text(), device, bus.saw


def compared(program, sheet, log, node, folder, name):
    """The exit status, and the lines of the differences with their frames."""
    for end, content in (("eds", sheet), ("log", log)):
        with open(f"{folder}/{name}.{end}", "w", encoding="ascii") as file:
            file.write(content)
    words = [*program.split(), "compare", f"{folder}/{name}.eds", f"{folder}/{name}.log", "--node", str(node)]
    ran = subprocess.run(words, capture_output=True, text=True, check=False)
    found, lines = re.findall(r"^\S*?:(\d+): (?!warning)([a-z-]+): (.*)", ran.stdout, re.M), log.splitlines()
    status = 0 if "no frame of node" in ran.stderr else ran.returncode
    return status, [f"{number}: {kind}: {what}    {lines[int(number) - 1]}" for number, kind, what in found] or [ran.stderr.strip()]


def main():
    parser = argparse.ArgumentParser(description=__doc__, formatter_class=argparse.RawDescriptionHelpFormatter)
    parser.add_argument("count", nargs="?", type=int, default=400)
    parser.add_argument("seed", nargs="?", type=int, default=random.randrange(10**6))
    parser.add_argument("program", nargs="?", default="bin/conode")
    parser.add_argument("--known", nargs="?", const="", choices=["", *KNOWN], help="one of: " + ", ".join(KNOWN))
    parser.add_argument("--mistakes", action="store_true")
    parser.add_argument("--only", type=int)
    parser.add_argument("--keep")
    parser.add_argument("--each", action="store_true")
    words = parser.parse_args()
    sys.stdout.reconfigure(line_buffering=True)
    kinds = MISTAKES if words.mistakes else [words.known] if words.known else list(KNOWN) if words.known == "" else [None]
    saw, made, found = collections.Counter(), collections.Counter(), collections.Counter()
    with tempfile.TemporaryDirectory() as folder:
        for number in range(words.count) if words.only is None else [words.only]:
            kind = kinds[number % len(kinds)]
            sheet, log, device, came = simulated(words.seed * 1_000_000 + number, set() if words.mistakes else {kind}, kind)
            status, lines = compared(words.program, sheet, log, device.node, words.keep or folder, number if words.keep else "run")
            saw.update(what for what, times in came.items() if times)
            made[kind] += device.made > 0 or not words.mistakes
            found[kind] += status > 0 and (device.made > 0 or not words.mistakes)
            if words.each:
                print(f"run {number}: {kind or 'as prescribed'}, {device.made} mistakes: {lines[0] if status else 'no difference'}")
            elif status and not words.mistakes:
                named = f"run {number} of seed {words.seed}: status {status}{f' ({kind})' if kind else ''}"
                print("\n    ".join([named, *lines[:5], str(device.chosen)]))
    for what, times in sorted(saw.items()):
        print(f"{times:6} {what}")
    for kind in kinds if kinds != [None] else []:
        print(f"{found[kind]:6} of {made[kind]} with a difference: {kind}")
    print(f"{sum(made.values())} runs of seed {words.seed}, {sum(found.values())} with a difference")
    return sum(found.values()) > 0 and not words.mistakes


if __name__ == "__main__":
    os.chdir(os.path.dirname(os.path.dirname(os.path.realpath(__file__))))
    sys.exit(main())
