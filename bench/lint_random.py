#!/usr/bin/env python3
"""Lints random damaged sheets and holds what is found against `check`: an error exactly where `check` has a fault or a build fault,
and that fault is among them. Status 1 with the first sheets for which that isn't so, which are left in a folder.

    bench/lint_random.py PROGRAM [COUNT [SEED]]
"""
import collections
import concurrent.futures
import glob
import json
import os
import random
import re
import subprocess
import sys
import tempfile

ROOT = os.path.dirname(os.path.dirname(os.path.realpath(__file__)))
VALUES = (b"", b"0", b"1", b"2", b"9", b"255", b"0x1F", b"0x7FFFFFFF", b"0x80000185", b"0x601", b"017", b"-1", b"x", b"ro", b"wo",
          b"$NODEID+0x180", b"$NODEID+0xFFFFFFFF", b"0x10+$NODEID", b"0x20000008", b"0x60200010", b"0x1A00")
LINES = (b"", b"; a comment", b"[", b"]", b"=", b"[2000]", b"[1018sub1]", b"[1A00sub1]", b"DataType=5", b"AccessType=ro",
         b"ObjectType=9", b"PDOMapping=1", b"DefaultValue=8", b"ParameterValue=3", b"LowLimit=4", b"HighLimit=2",
         b"SupportedObjects=1", b"1=0x2000", b"NodeID=5", b"[DeviceComissioning]", b"CompactSubObj=2", b"x" * 600)


def changed(line, rand):
    """A line with another value, or with another byte somewhere."""
    name, equals, _ = line.partition(b"=")
    if equals and rand.random() < 0.7:
        return name + b"=" + rand.choice(VALUES)
    if not line:
        return rand.choice(LINES)
    at = rand.randrange(len(line))
    return line[:at] + bytes([rand.randrange(256)]) + line[at + 1:]


def damaged(text, rand):
    lines = re.split(rb"\r?\n", text)
    for _ in range(rand.choice((1, 1, 1, 2, 3, 5, 10, 30))):
        at = rand.randrange(len(lines))
        way = rand.randrange(6)
        if way == 0 and len(lines) > 1:
            del lines[at]
        elif way == 1:
            lines.insert(at, lines[rand.randrange(len(lines))])
        elif way == 2:
            lines.insert(at, rand.choice(LINES))
        elif way == 3:
            other = rand.randrange(len(lines))
            lines[at], lines[other] = lines[other], lines[at]
        else:
            lines[at] = changed(lines[at], rand)
    return b"\n".join(lines)


def run(*words):
    done = subprocess.run(words, stdout=subprocess.PIPE, stderr=subprocess.PIPE, check=False)
    return done.returncode, done.stdout.decode("latin-1")


def is_among(last, errors):
    """Whether the fault that is the last line of a check is among the errors that were found."""
    if any(it["name"] == "OtherFormat" for it in errors):
        return len(errors) == 1
    fault = re.fullmatch(r"fault \d+ (\w+) line (\d+)", last)
    if fault:
        return any(it["name"] == fault[1] and it["line"] == int(fault[2]) for it in errors)
    build = re.fullmatch(r"build fault \d+ (\w+)(?: (\w{4})(:\w\w)?)?", last)
    if not build:
        return False
    place = (build[2] or "") + ("" if build[1] == "BadMapping" else build[3] or "")
    return any(it["name"] == build[1] and it["meaning"].startswith(place) for it in errors)


def verdict(program, path, node):
    """None where the two agree, else what doesn't; and the name of the fault of the check."""
    words = ["--node", str(node)] if node else []
    checked, text = run(program, "check", path, *words)
    linted, found = run(program, "lint", "--format", "json", path, *words)
    errors = [it for it in json.loads(found)["files"][0]["findings"] if it["severity"] == "error"]
    last = text.splitlines()[-1]
    kind = re.sub(r"^(?:build )?fault \d+ (\w+).*|.*", r"\1", last)
    if checked != linted or (checked == 1) != bool(errors):
        return f"{path} {words}: check {checked} {last}, lint {linted} with {len(errors)} errors", kind
    if checked == 1 and not is_among(last, errors):
        return f"{path} {words}: {last} isn't among {[(it['line'], it['name'], it['meaning']) for it in errors]}", kind
    return None, kind


def main():
    program = sys.argv[1]
    count = int(sys.argv[2]) if len(sys.argv) > 2 else 10000
    rand = random.Random(int(sys.argv[3]) if len(sys.argv) > 3 else 1)
    bases = []
    for pattern in ("examples/*.eds", "examples/*.dcf", "examples/vendor/*.eds", "tests/files/*.eds"):
        for path in sorted(glob.glob(os.path.join(ROOT, pattern))):
            with open(path, "rb") as file:
                bases.append(file.read())
    folder = tempfile.mkdtemp()
    asked = []
    for number in range(count):
        path = os.path.join(folder, f"{number}.eds")
        with open(path, "wb") as file:
            file.write(damaged(rand.choice(bases), rand))
        asked.append((path, rand.choice((None, 1, 5, 127))))
    kinds = collections.Counter()
    wrong = []
    with concurrent.futures.ThreadPoolExecutor(2) as pool:
        for (path, _), (fault, kind) in zip(asked, pool.map(lambda it: verdict(program, *it), asked)):
            kinds[kind or "none"] += 1
            if fault:
                wrong.append(fault)
            else:
                os.remove(path)
    print(f"{count} sheets of {len(bases)}: {len(wrong)} wrong; the faults of check: "
          + ", ".join(f"{number} {kind}" for kind, number in kinds.most_common()))
    for fault in wrong[:10]:
        print(fault)
    if not wrong:
        os.rmdir(folder)
    sys.exit(1 if wrong else 0)


main()
