#!/usr/bin/env python3
"""Proves crates with the Rattle kit, as many side by side as processors and memory allow, and builds what is made of them, for
every x86-64 processor.

    build.py conode [-- WORD..]          the program, crates/conode/out/release/conode, which then runs on the words
    build.py conode --only COMMAND,.. [-- WORD..]
                                         the program with these commands alone, crates/conode/out/part/COMMAND-../conode, of the crates
                                         that they stand on: any other command ends with status 2 and says how to build it
    build.py bafokun                     the static library for C, crates/bafokun/out/release/libbafokun.a
    build.py bafokun --target TRIPLE     the same for another processor, crates/bafokun/out/TRIPLE/libbafokun.a

A crate is proved again where a file of its own or a library below it is newer. What is proved stays so when this is interrupted.
It says how long it will take, by the processor seconds that each crate took when it was last measured and by how fast this machine
is. It notes what each crate takes here in crates/conode/out/proving.txt; release/proving.txt is what was noted of each before.
"""

import fcntl
import os
import re
import shutil
import signal
import subprocess
import sys
import tempfile
import time

ROOT = os.path.dirname(os.path.dirname(os.path.realpath(__file__)))
MEASURED = f"{ROOT}/release/proving.txt"
MEASURED_HERE = f"{ROOT}/crates/conode/out/proving.txt"
# The oldest x86-64 processor: rt builds for a later one.
CPU = ["--cpu=x86-64"]
# The module of the program that a command is in, where it hasn't the command's name.
MODULES = {"loop": "loop_back"}
# The other processors that the library is built for, by the kit's name of the target.
TARGETS = ["aarch64-unknown-linux-gnu"]
# The speed of a machine on which the measured seconds hold.
SPEED = 18500
# Of a crate that wasn't measured: the seconds, those for each line of code, and the memory.
SECONDS, SECONDS_A_LINE, MEGABYTES = 10, 0.08, 1500
# How much faster a crate is proved by each further job.
GAIN = 0.26
# How many seconds of proving say as much of this machine's speed as its small loop does: few crates say little.
TRUSTED = 300


class Crate:
    """A line of crates.txt, and the processor that it is built for, where it isn't x86-64."""

    def __init__(self, name, words, uses):
        self.name, self.uses, self.target = name, uses, None
        self.folder = f"{ROOT}/crates/{name}"
        self.is_program = os.path.isfile(f"{self.folder}/src/main.rt")
        self.is_archive = "staticlib" in words
        self.deps, self.below = [], []
        self.seconds, self.megabytes, self.share = 0.0, MEGABYTES, 1.0

    def made(self):
        """The path of what is built of the crate."""
        if self.is_program:
            return f"{self.folder}/out/release/{self.name}"
        if self.is_archive:
            return f"{self.folder}/out/{self.target or 'release'}/lib{self.name}.a"
        return f"{self.folder}/out/rlib/{self.name}.rlib"

    def proved(self):
        """The folder of what was proved of an archive: it is the same for each processor, so that the next one takes it from there."""
        return f"{self.folder}/out/proved"

    def place(self):
        """The folder that the prover runs in."""
        return self.folder

    def sources(self):
        """The crate's files and folders."""
        for part in ("src", "specs", "proofs"):
            for at, _, names in os.walk(f"{self.folder}/{part}"):
                yield at
                yield from (f"{at}/{name}" for name in names)

    def kit(self):
        """The path of a note of the kit's version that it was built with."""
        return f"{self.folder}/out/kit"

    def note(self, kit):
        """Notes which version of the kit built it."""
        with open(self.kit(), "w", encoding="utf-8") as it:
            it.write(kit)

    def is_current(self, kit):
        """Whether it is built, neither a file of the crate nor a library below it is newer, and this version of the kit built it."""
        try:
            if os.path.exists(self.kit()) and open(self.kit(), encoding="utf-8").read() != kit:
                return False
            made = os.stat(self.made()).st_mtime_ns
            newest = max(os.stat(it).st_mtime_ns for it in [*self.sources(), *(it.made() for it in self.below)])
        except OSError:
            return False
        return newest <= made

    def words(self, kit, jobs):
        """The words of the kit's prover that prove and build it."""
        words = ["--crate-name", self.name, "src/main.rt" if self.is_program else "src/lib.rt"]
        for name in dict.fromkeys(["std", *self.uses]):
            if name not in [it.name for it in self.deps]:
                words += ["--extern", f"{name}={kit}/rlibs/{name}.rlib"]
        words += ["-L", f"dependency={kit}/rlibs"]
        for it in self.deps:
            words += ["--extern", f"{it.name}={it.made()}"]
        for it in self.below:
            words += ["-L", f"dependency={os.path.dirname(it.made())}"]
        words += ["--antt-project", f"{kit}/rattle/logic/antt-project.json", "--logic-built", f"{kit}/logic_built"]
        words += ["--links", f"{self.name}=", "--jobs", str(jobs)]
        if self.is_program or self.is_archive:
            words += ["--crate-type", "staticlib"] * self.is_archive
            words += ["--target", self.target] if self.target else CPU
            words += ["--incremental", self.proved()] * self.is_archive
            return [*words, "--toolchain", f"{kit}/toolchain", "--backend", "llvm", "-o", self.object()]
        return [*words, "--statements", "-o", self.made()]

    def object(self):
        return f"{self.made()}.o" if self.is_program else self.made()

    def finish(self, kit):
        """Links a program that is compiled."""
        if not self.is_program:
            return 0
        # a program that is half linked would be newer than all that it is made of
        new = f"{self.made()}.new"
        words = ["--target", "x86_64-unknown-linux-gnu", "--toolchain", f"{kit}/toolchain"]
        words += ["-o", new, self.object(), f"{kit}/c/libos_c.a", f"{kit}/c/liblibc_c.a"]
        status = subprocess.run([f"{kit}/bin/rattle-link", *words], stdin=subprocess.DEVNULL).returncode
        if status == 0:
            os.replace(new, self.made())
        return status


class Part(Crate):
    """The program with some of its commands: its code without the modules of the others, and the crates that this code names."""

    def __init__(self, whole, commands):
        super().__init__(whole.name, [], whole.uses)
        known = self.known(f"{whole.folder}/src")
        for it in commands:
            if it not in known:
                raise ValueError(f"there is no command {it}: they are {', '.join(known)}")
        self.src = f"{whole.folder}/src"
        self.folder = f"{whole.folder}/out/part/{'-'.join(sorted(commands))}"
        self.files = self.texts([MODULES.get(it, it) for it in commands], [MODULES.get(it, it) for it in known])
        code = "".join(self.files.values())
        self.uses = [it for it in whole.uses if re.search(rf"\b{it}::", code)]
        self.share = len(self.uses) / len(whole.uses)
        self.is_program, self.room = True, None

    @staticmethod
    def known(src):
        """The commands, in the order of `main`: those of the variants of `Task`."""
        with open(f"{src}/main.rt", encoding="utf-8") as it:
            arms = re.findall(r"^        Task::\w+\(words\) => (\w+)\(rt, words, out, err\),$", it.read(), re.M)
        names = {module: command for command, module in MODULES.items()}
        return [names.get(it, it) for it in arms]

    def texts(self, wanted, commands):
        """By name the files of its code."""
        texts = {}
        for name in os.listdir(self.src):
            with open(f"{self.src}/{name}", encoding="utf-8") as it:
                texts[name] = it.read()
        for it in commands:
            if it not in wanted:
                texts[f"{it}.rt"] = self.left_out(it, texts[f"{it}.rt"])
        # a module that no other one uses any more goes, and perhaps one that it uses
        while unused := [it for it in texts if it != "main.rt" and not any(f"crate::{it[:-3]}::" in text for text in texts.values())]:
            for it in unused:
                del texts[it]
                texts["main.rt"] = texts["main.rt"].replace(f"mod {it[:-3]};\n", "")
        return texts

    @staticmethod
    def left_out(module, text):
        """The module of a command that is left out: its calls say so."""
        command = {of: it for it, of in MODULES.items()}.get(module, module)
        said = f"conode: this program was built without `{command}`: bin/conode --build {command} builds it\\n"
        calls = re.findall(r"^(pub\(crate\) fn .*?) \{$.*?^\}$", text, re.M | re.S)
        named = [it for it in re.findall(r"conode_words::\{?([^;}]*)", text)[:1] for it in re.split(r",\s*", it)]
        uses = [f"use conode_words::{it};" for it in named if re.search(rf"\b{it}\b", "".join(calls))]
        uses += ["use std::io::Write;", "use std::process::ExitCode;"]
        body = f'    let _ = err.write_all(b"{said}");\n    ExitCode::from(2)\n'
        bodies = [f"/// A command that is left out.\n{it} {{\n{body}}}\n" for it in calls]
        return "\n".join([f"//! `{command}`, left out.\n", "\n".join(uses) + "\n", *bodies])

    def place(self):
        """A folder with its code, outside the repository: rt stops at code in it that belongs to no crate of crates.txt."""
        if not self.room:
            self.room = tempfile.TemporaryDirectory(prefix="conode-")
            os.mkdir(f"{self.room.name}/src")
            for name, text in self.files.items():
                with open(f"{self.room.name}/src/{name}", "w", encoding="utf-8") as it:
                    it.write(text)
        return self.room.name

    def sources(self):
        """The files of the program that it is made of."""
        return [f"{self.src}/{it}" for it in sorted(self.files) if "left out.\n" not in self.files[it]]

    def made(self):
        return f"{self.folder}/{self.name}"

    def kit(self):
        return f"{self.folder}/kit"

    def note(self, kit):
        """Notes the kit's version, and for `bin/conode` the files and folders that it is made of, from the root of the repository."""
        super().note(kit)
        own = [os.path.relpath(it, ROOT) for it in self.sources()]
        below = [f"crates/{it.name}/{part}" for it in self.below for part in ("src", "specs", "proofs")]
        with open(f"{self.folder}/made-of", "w", encoding="utf-8") as it:
            it.writelines(f"{path}\n" for path in ["crates.txt", *own, *(path for path in below if os.path.isdir(f"{ROOT}/{path}"))])
        self.room.cleanup()


def read_crates(wanted, target, commands=()):
    """The crates of the repository that one stands on and then itself, lowest first; that one for a target, or with some commands."""
    crates, found = {}, []
    with open(f"{ROOT}/crates.txt", encoding="utf-8") as lines:
        for line in lines:
            head, colon, uses = line.partition("#")[0].partition(":")
            if colon:
                name, *words = head.split() or [""]
                crates[name] = Crate(name, words, uses.split())

    def visit(crate):
        if crate in found:
            return
        crate.deps = [crates[it] for it in crate.uses if it in crates]
        for it in crate.deps:
            visit(it)
        for it in crate.deps:
            crate.below += [one for one in [*it.below, it] if one not in crate.below]
        found.append(crate)

    if wanted not in crates:
        raise ValueError(f"there is no crate {wanted}")
    if commands:
        if not crates[wanted].is_program:
            raise ValueError(f"{wanted} is no program, and has no commands")
        crates[wanted] = Part(crates[wanted], commands)
    crates[wanted].target = target
    if target and not crates[wanted].is_archive:
        raise ValueError(f"{wanted} is no static library, and is built for x86-64 alone")
    visit(crates[wanted])
    return found


class Speed:
    """How many turns of a small loop this machine makes in a second of a processor: the most that were seen so far, as a processor that
    shares its core with others, or a machine that has just been started, is slower for a while."""

    def __init__(self):
        self.turns = 0.0
        self.look(20)

    def look(self, tries):
        for _ in range(tries):
            begun, count = time.process_time(), 0
            while time.process_time() - begun < 0.05:
                sum(it & 7 for it in range(1000))
                count += 1
            self.turns = max(self.turns, count / (time.process_time() - begun))

    def rate(self):
        """How many seconds one at SPEED is here."""
        return SPEED / self.turns


def read_measured(file):
    """What a file says of crates: by name the processor seconds at SPEED, and the megabytes."""
    try:
        with open(file, encoding="utf-8") as lines:
            rows = [line.split() for line in lines]
    except OSError:
        return {}
    try:
        return {name: (float(seconds), int(megabytes)) for name, seconds, megabytes in rows}
    except ValueError:
        say(f"{file} isn't read: a line of it isn't a name and two numbers")
        return {}


def foresee(crates, rate):
    """Gives each crate the seconds that it should take on this machine, where one at SPEED is so many, and the memory; that rate."""
    said = {**read_measured(MEASURED), **read_measured(MEASURED_HERE)}
    for it in crates:
        lines = sum(open(path, "rb").read().count(b"\n") for path in it.sources() if path.endswith(".rt"))
        seconds, it.megabytes = said.get(it.name, (SECONDS + SECONDS_A_LINE * lines, MEGABYTES))
        it.seconds = seconds * rate * it.share
    return rate


def write_measured(took, rate):
    """Notes what crates took here, by name their seconds and megabytes, in seconds at SPEED."""
    said = read_measured(MEASURED_HERE)
    said.update((name, (seconds / rate, round(megabytes))) for name, (seconds, megabytes) in took.items())
    os.makedirs(os.path.dirname(MEASURED_HERE), exist_ok=True)
    with open(f"{MEASURED_HERE}.new", "w", encoding="utf-8") as new:
        new.writelines(f"{name} {seconds:.0f} {held}\n" for name, (seconds, held) in sorted(said.items()))
    os.replace(f"{MEASURED_HERE}.new", MEASURED_HERE)


def processors():
    """How many processors there are to use, also under the quota of a container."""
    found = len(os.sched_getaffinity(0))
    try:
        with open("/sys/fs/cgroup/cpu.max", encoding="utf-8") as it:
            quota, period = it.read().split()
        found = min(found, max(1, int(quota) // int(period))) if quota != "max" else found
    except (OSError, ValueError):
        pass
    return found


def free_megabytes():
    with open("/proc/meminfo", encoding="utf-8") as it:
        return int(re.search(r"MemAvailable:\s+(\d+)", it.read())[1]) // 1024


class Schedule:
    """Which crate is begun next, and with how many jobs: the one with the longest chain of work above it first."""

    def __init__(self, left):
        self.left = {it.name: it for it in left}
        self.above = {}
        for it in reversed(left):
            chains = [self.above[up.name] for up in left if it in up.deps]
            self.above[it.name] = it.seconds + max(chains, default=0.0)

    def next(self, running, idle, memory):
        """A crate and its jobs, or None: running are the names of those at work, idle the processors, memory the free MB."""
        waiting = {*self.left, *running}
        ready = [it for it in self.left.values() if not any(below.name in waiting for below in it.below)]
        ready.sort(key=lambda it: -self.above[it.name])
        longest = max((self.above.get(name, 0.0) for name in running), default=0.0)
        for at, it in enumerate(ready):
            if idle > 0 and (it.megabytes <= memory or not running):
                del self.left[it.name]
                # a further job is worth less than the first of another crate, which may be ready soon: only the longest chain gets it
                spare = idle - (len(ready) - at - 1) if self.above[it.name] >= longest else 1
                room = int((memory / it.megabytes - 1) / 0.6) + 1
                return it, max(1, min(4, spare, room))
        return None


def estimate(left, running, cores):
    """The seconds until all are done: running are pairs of the seconds left and a crate."""
    schedule, now = Schedule(left), 0.0
    at_work = [(seconds, crate, jobs) for seconds, crate, jobs in running]
    memory = free_megabytes() * 0.85
    while True:
        while True:
            names = [it.name for _, it, _ in at_work]
            room = memory - sum(it.megabytes for _, it, _ in at_work)
            found = schedule.next(names, cores - sum(jobs for _, _, jobs in at_work), room)
            if not found:
                break
            crate, jobs = found
            at_work.append((now + crate.seconds / (1 + GAIN * (jobs - 1)), crate, jobs))
        if not at_work:
            return now
        ended = min(at_work, key=lambda it: it[0])
        at_work.remove(ended)
        now = max(now, ended[0])


class Run:
    """A crate at work. It holds the lock of its folder, so that the next build waits for it where this one was killed."""

    def __init__(self, crate, jobs, kit, room, held):
        self.crate, self.jobs, self.begun = crate, jobs, time.monotonic()
        self.log = open(f"{room}/{crate.name}", "w+", errors="replace", encoding="utf-8")
        os.makedirs(os.path.dirname(crate.made()), exist_ok=True)
        if not crate.is_program and not crate.is_archive:
            # what rt keeps beside a library says of it that it is rt's own
            shutil.rmtree(crate.made(), ignore_errors=True)
            if os.path.exists(f"{os.path.dirname(crate.made())}/stamp"):
                os.remove(f"{os.path.dirname(crate.made())}/stamp")
        if crate.is_archive and not crate.target:
            shutil.rmtree(crate.proved(), ignore_errors=True)
        how = {"cwd": crate.place(), "stdin": subprocess.DEVNULL, "stdout": self.log, "stderr": subprocess.STDOUT}
        # the prover keeps the memory that it has freed: a few percent less processor time, a tenth more memory
        how["env"] = {"MIMALLOC_PURGE_DELAY": "-1", **os.environ}
        words = [f"{kit}/bin/rattle", "build", *crate.words(kit, jobs)]
        self.process = subprocess.Popen(words, start_new_session=True, pass_fds=[held], **how)
        self.status = None

    def seconds_left(self):
        whole = self.crate.seconds / (1 + GAIN * (self.jobs - 1))
        return max(whole - (time.monotonic() - self.begun), 0.1 * whole)

    def has_ended(self):
        pid, status, usage = os.wait4(self.process.pid, os.WNOHANG)
        if not pid:
            return False
        self.status = os.waitstatus_to_exitcode(status)
        self.process.returncode = self.status
        self.used = usage.ru_utime + usage.ru_stime
        self.megabytes = usage.ru_maxrss / 1024
        return True

    def stop(self):
        if self.status is None:
            try:
                os.killpg(self.process.pid, signal.SIGKILL)
            except ProcessLookupError:
                pass


def say(text):
    print(f"conode: {text}", file=sys.stderr, flush=True)


def minutes(seconds):
    if seconds < 90:
        return f"{max(1, round(seconds))} s"
    return f"{round(seconds / 60)} min"


def build(crates, kit, version, held):
    """Proves and builds those that are not current, with this version of the kit; whether all could be."""
    left = [it for it in crates if not it.is_current(version)]
    stale = {it.name for it in left}
    left = [it for it in crates if it.name in stale or any(below.name in stale for below in it.below)]
    if not left:
        return True
    speed = Speed()
    foreseen_by = foresee(crates, speed.rate())
    cores, count, ended, running, took = processors(), len(left), 0, [], {}
    say(
        f"proving {count} of {len(crates)} crates, about {minutes(estimate(left, [], cores))} on {cores} processors;"
        " Ctrl-C stops it, and the next start goes on from there"
    )
    schedule, used, measured, looked = Schedule(left), 0.0, 0.0, time.monotonic()
    with tempfile.TemporaryDirectory(prefix="conode-") as room:
        try:
            while ended < count:
                memory = free_megabytes() * 0.85
                idle = cores - sum(it.jobs for it in running)
                found = schedule.next([it.crate.name for it in running], idle, memory)
                if found:
                    running.append(Run(*found, kit, room, held[found[0].folder]))
                    continue
                done = [it for it in running if it.has_ended()]
                for it in done:
                    running.remove(it)
                    if it.status or it.crate.finish(kit):
                        it.log.seek(0)
                        sys.stderr.write(it.log.read())
                        say(f"{it.crate.name} is not proved and built")
                        return False
                    it.crate.note(version)
                    ended += 1
                    used, measured = used + it.used, measured + it.crate.seconds / foreseen_by
                    speed.look(1)
                    if not it.crate.target and it.crate.share == 1.0:
                        # (another processor's archive takes what was proved for x86-64)
                        took[it.crate.name] = it.used, it.megabytes
                        write_measured(took, speed.rate())
                    # what has ended says how fast this machine really is, the more the longer it took
                    slower = (used + TRUSTED) / (measured * foreseen_by + TRUSTED)
                    at_work = [(it.seconds_left(), it.crate, it.jobs) for it in running]
                    rest = slower * estimate([*schedule.left.values()], at_work, cores)
                    after = f"; about {minutes(rest)} left" if ended < count else ""
                    say(f"{ended} of {count}: {it.crate.name}, {minutes(time.monotonic() - it.begun)}{after}")
                if time.monotonic() - looked > 5:
                    # a machine that was slow at the start makes the first estimate too long: it is mended as soon as that shows
                    speed.look(1)
                    looked = time.monotonic()
                    if speed.rate() < 0.85 * foreseen_by:
                        foreseen_by = foresee(crates, speed.rate())
                        at_work = [(it.seconds_left(), it.crate, it.jobs) for it in running]
                        rest = estimate([*schedule.left.values()], at_work, cores)
                        say(f"this machine is faster than it was at the start; about {minutes(rest)} left")
                if not done:
                    time.sleep(0.2)
        finally:
            for it in running:
                it.stop()
    return True


def lock(crates):
    """Keeps other builds, and rt, out of these crates' folders until this process and its provers end; by folder what holds it."""
    held = {}
    for folder in sorted(it.folder for it in crates):
        it = os.open(folder, os.O_RDONLY)
        try:
            fcntl.flock(it, fcntl.LOCK_EX | fcntl.LOCK_NB)
        except BlockingIOError:
            say(f"waiting until another build in {folder} has ended")
            fcntl.flock(it, fcntl.LOCK_EX)
        except OSError:
            pass
        held[folder] = it
    return held


def run(wanted, target, commands, rest):
    rt = shutil.which("rt")
    if not rt:
        say("the Rattle kit's command rt is not on the PATH")
        return 1
    page, version = (subprocess.run([rt, it], stdout=subprocess.PIPE, check=True, text=True).stdout.strip() for it in ("doc", "version"))
    crates = read_crates(wanted, target, commands)
    os.makedirs(crates[-1].folder, exist_ok=True)
    for number in (signal.SIGTERM, signal.SIGHUP):
        signal.signal(number, lambda number, _: sys.exit(128 + number))
    held = lock(crates)
    is_built = build(crates, os.path.dirname(page), version, held)
    for it in held.values():
        os.close(it)
    if not is_built:
        return 1
    if rest[:1] == ["--"]:
        os.execv(crates[-1].made(), [crates[-1].made(), *rest[1:]])
    return 0


def main(words):
    target = None
    if words[1:2] == ["--target"] and words[2:3] and words[2] in TARGETS:
        target = words[2]
        del words[1:3]
    commands = []
    if words[1:2] == ["--only"] and words[2:3]:
        commands = sorted({*words[2].split(",")})
        del words[1:3]
    if not words or words[0].startswith("-") or words[1:2] not in ([], ["--"]):
        print(f"usage: build.py CRATE [--target {'|'.join(TARGETS)}] [--only COMMAND,..] [-- WORD..]", file=sys.stderr)
        return 2
    try:
        return run(words[0], target, commands, words[1:])
    except KeyboardInterrupt:
        return 130
    except OSError as error:
        say(f"{error.filename}: {error.strerror}" if error.filename else error)
    except subprocess.CalledProcessError as error:
        say(error)
    except (KeyError, ValueError) as error:
        say(error if commands else f"crates.txt: {error}")
    return 1


if __name__ == "__main__":
    sys.exit(main(sys.argv[1:]))
