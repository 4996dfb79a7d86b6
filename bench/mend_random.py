#!/usr/bin/env python3
"""mend_random.py [COUNT] [SEED] [PROGRAM]: data sheets with random damage, by which `conode explain` names an entry.

The sheets are those of examples/ and examples/vendor/: their lists of mandatory objects are damaged, sections of 1000h, 1001h and 1018h are
taken out, or up to 29 lines are emptied or get another value. A sheet counts as read if the status is 0. Status 1 where one is refused that
has an object list; each is less than 1 MiB long.
"""
import collections
import glob
import os
import random
import re
import subprocess
import sys
import tempfile

ROOT = os.path.dirname(os.path.dirname(os.path.realpath(__file__)))
COUNT = int(sys.argv[1]) if len(sys.argv) > 1 else 1500
SEED = int(sys.argv[2]) if len(sys.argv) > 2 else random.randrange(10**6)
PROGRAM = sys.argv[3].split() if len(sys.argv) > 3 else [f"{ROOT}/bin/conode"]
IN_LISTS = [b"", b"1=0x1018", b"SupportedObjects=9", b"x", b"2=4096"]
VALUES = [b"", b"0", b"0x1018", b"x", b"5", b"rw"]


def damaged(lines, rand):
    """A sheet's lines with one kind of damage, and which kind it is."""
    kind = rand.choice(["lists", "sections", "lines"])
    if kind == "sections":
        return kind, [it for it in lines if not re.match(rb"\[(1000|1001|1018)", it) or rand.random() < 0.5]
    lines = list(lines)
    if kind == "lists":
        at = next(place for place, it in enumerate(lines) if b"MandatoryObjects" in it)
        for _ in range(rand.randrange(1, 4)):
            lines[min(at + rand.randrange(1, 5), len(lines) - 1)] = rand.choice(IN_LISTS)
        return kind, lines
    for _ in range(rand.randrange(1, 30)):
        place = rand.randrange(len(lines))
        name = lines[place].split(b"=")[0]
        lines[place] = b"" if rand.random() < 0.5 else name + b"=" + rand.choice(VALUES)
    return kind, lines


def main():
    sheets = []
    for path in sorted(glob.glob(f"{ROOT}/examples/*.eds") + glob.glob(f"{ROOT}/examples/vendor/*.eds")):
        with open(path, "rb") as file:
            sheets.append(file.read().split(b"\n"))
    rand, seen, refused = random.Random(SEED), collections.Counter(), 0
    with tempfile.TemporaryDirectory() as room:
        sheet = f"{room}/sheet.eds"
        for _ in range(COUNT):
            kind, lines = damaged(rand.choice(sheets), rand)
            with open(sheet, "wb") as file:
                file.write(b"\n".join(lines))
            words = [*PROGRAM, "explain", "-", "--log", "candump", "--sheet", f"5={sheet}"]
            run = subprocess.run(words, input=b"(1.000000) can0 605#4017100000000000\n", capture_output=True, check=False)
            how = "refused" if run.returncode else "mended" if b"what is at fault" in run.stderr else "read"
            if not any(re.match(rb"\[(Mandatory|Optional|Manufacturer)Objects\]", it, re.I) for it in lines):
                how = f"without a list {how}"
            seen[kind, how] += 1
            if how == "refused":
                refused += 1
                if refused <= 3:
                    print(f"refused, {kind}: {run.stdout.decode()}{run.stderr.decode()}{b'|'.join(lines)[:300]!r}")
    print(f"{COUNT} of seed {SEED}: " + ", ".join(f"{count} {kind} {how}" for (kind, how), count in sorted(seen.items())))
    return 1 if refused else 0


sys.exit(main())
