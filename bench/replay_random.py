#!/usr/bin/env python3
"""Compares `conode replay` with a model of a device in Python, on random data sheets and random traces.

    bench/replay_random.py [COUNT [SEED [PROGRAM]]]

makes COUNT devices (20,000), each with a trace of its own of 30 to 200 lines, and reads all entries back at the end of every second
one. The traces know the model's state, so that transfers complete, PDOs are valid and times end; some lines are mistakes. Where the
outputs or the statuses differ, the sheet and the shortest trace found that shows it are kept in a folder, and the status is 1.
PROGRAM is `conode`; the one that bin/conode runs is taken if none is given.

The model is in replay_model: device.py was written from CiA 301 and the choices in docs/DECISIONS.md alone, without the program's
sources; sheet.py and trace.py make the inputs."""
import os
import random
import re
import subprocess
import sys
import tempfile
from collections import Counter

from replay_model.device import replay
from replay_model.sheet import Sheet, chance
from replay_model.trace import Trace

ROOT = os.path.dirname(os.path.dirname(os.path.realpath(__file__)))


class Case:
    """A random device and a trace; `answer` is what the model prints, and its status."""

    def __init__(self, seed):
        rng = random.Random(seed)
        self.sheet = Sheet(rng)
        self.text = self.sheet.text()
        self.lines = ["!tick 1"]
        device = self.sheet.device()
        if isinstance(device, str):
            self.answer = replay(device, self.lines)
        else:
            trace = Trace(rng, self.sheet, device)
            self.answer = trace.make(rng.randint(30, 200), chance(rng, 0.5))
            self.lines = trace.lines

    def expected(self, lines):
        return replay(self.sheet.device(), lines)

    def words(self, sheet):
        node = [] if self.sheet.in_file else ["--node", str(self.sheet.node)]
        return ["replay", sheet, "-", *node, "--strings", str(self.sheet.strings), "--domains", str(self.sheet.domains),
                "--time", str(self.sheet.time)]


class Comparison:
    def __init__(self, program, folder):
        self.program, self.folder = program, folder
        self.sheet = os.path.join(folder, "sheet.eds")

    def answer(self, case, lines):
        text = "".join(line + "\n" for line in lines)
        run = subprocess.run([self.program, *case.words(self.sheet)], input=text.encode(), capture_output=True, check=False)
        return run.stdout.decode().split("\n")[:-1] + run.stderr.decode().split("\n")[:-1], run.returncode

    def differs(self, case, lines):
        return self.answer(case, lines) != case.expected(lines)

    def shortest(self, case):
        """The trace of a difference with as many lines taken out as leave one: in halves first, then one by one."""
        lines, size = list(case.lines), len(case.lines) // 2
        while size:
            start = 0
            while start < len(lines):
                rest = lines[:start] + lines[start + size:]
                if self.differs(case, rest):
                    lines = rest
                else:
                    start += size
            size //= 2
        return lines

    def compare(self, seed):
        """A case, and whether the program answers it as the model does."""
        case = Case(seed)
        with open(self.sheet, "w", encoding="utf-8", newline="") as file:
            file.write(case.text)
        return case, self.answer(case, case.lines) == case.answer

    def keep(self, case, seed):
        lines = self.shortest(case)
        folder = tempfile.mkdtemp(prefix=f"replay_random-{seed}-")
        texts = {"sheet.eds": case.text, "trace.log": "".join(line + "\n" for line in lines),
                 "by_model": "\n".join(case.expected(lines)[0]), "by_program": "\n".join(self.answer(case, lines)[0])}
        for name, text in texts.items():
            with open(os.path.join(folder, name), "w", encoding="utf-8", newline="") as file:
                file.write(text + ("" if text.endswith("\n") else "\n"))
        print(f"seed {seed}: differs, see {folder}; conode {' '.join(case.words('sheet.eds'))} < trace.log", flush=True)


def main():
    count = int(sys.argv[1]) if len(sys.argv) > 1 else 20000
    seed = int(sys.argv[2]) if len(sys.argv) > 2 else 1
    if len(sys.argv) > 3:
        program = sys.argv[3]
    else:
        conode = os.path.join(ROOT, "bin/conode")
        subprocess.run([conode, "--help"], stdout=subprocess.DEVNULL, check=True)
        program = subprocess.run([conode, "--which"], capture_output=True, check=True, text=True).stdout.split("\n")[0]
    seen, wrong = Counter(), 0
    with tempfile.TemporaryDirectory() as folder:
        comparison = Comparison(program, folder)
        for number in range(seed * 1_000_000, seed * 1_000_000 + count):
            case, right = comparison.compare(number)
            if not right:
                wrong += 1
                comparison.keep(case, number)
            tell(seen, case)
    print(f"{count} devices, {wrong} differ; " + ", ".join(f"{many} {what}" for what, many in sorted(seen.items())))
    return 1 if wrong else 0


def tell(seen, case):
    """Counts what a case shows: so many build faults, refused events and aborts of each kind, block downloads."""
    seen["lines"] += len(case.lines)
    for line in case.answer[0]:
        if re.fullmatch(r"build fault .*", line):
            seen[" ".join(line.split()[:4])] += 1
        elif line.startswith("; line"):
            seen["refused " + line.split()[-1]] += 1
        elif re.fullmatch(r".*#80......[0-9A-F]{4}0[0-9]0[568]", line):
            seen["aborted " + "".join(re.findall("..", line[-8:])[::-1])] += 1
        elif line.endswith("#A100000000000000"):
            seen["block downloads done"] += 1


if __name__ == "__main__":
    sys.exit(main())
