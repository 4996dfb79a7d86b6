#!/usr/bin/env python3
"""load_random.py [COUNT [SEED [PROGRAM]]]: the bits of random frames by `conode stats` and by `canbusload` of can-utils.

Classical frames with identifiers of 11 and of 29 bits and 0 to 8 bytes, many of them with long runs of equal bits. `canbusload -e` has to
count exactly the bits that `stats` counts, and `canbusload` without -e exactly its worst case. It reads the frames where it would read
a bus: a library in C stands for the calls by which it does. Remote frames are left out: canbusload counts the data that they ask for
as data that they have. The status is 1 if a number differs.
"""
import json
import os
import random
import re
import struct
import subprocess
import sys
import tempfile

COUNT = int(sys.argv[1]) if len(sys.argv) > 1 else 10000
SEED = int(sys.argv[2]) if len(sys.argv) > 2 else random.randrange(10**6)
PROGRAM = sys.argv[3].split() if len(sys.argv) > 3 else ["bin/conode"]

# pselect says that a frame is there until the file ends, and then waits for the signal by which canbusload prints each second
CALLS = r"""
#define _GNU_SOURCE
#include <dlfcn.h>
#include <linux/can.h>
#include <signal.h>
#include <stdio.h>
#include <stdlib.h>
#include <string.h>
#include <sys/select.h>
#include <sys/socket.h>
static FILE *frames;
int socket(int family, int type, int protocol) { frames = fopen(getenv("FRAMES"), "rb"); return frames ? 100 : -1; }
int bind(int bus, const struct sockaddr *address, socklen_t length) { return 0; }
int ioctl(int bus, unsigned long request, ...) { return 0; }
int pselect(int count, fd_set *reads, fd_set *writes, fd_set *others, const struct timespec *time, const sigset_t *mask) {
    int byte = fgetc(frames);
    if (byte == EOF) {
        int (*wait)(int, fd_set *, fd_set *, fd_set *, const struct timespec *, const sigset_t *) = dlsym(RTLD_NEXT, "pselect");
        return wait(0, NULL, NULL, NULL, NULL, mask);
    }
    ungetc(byte, frames);
    FD_ZERO(reads);
    FD_SET(100, reads);
    return 1;
}
ssize_t read(int bus, void *into, size_t size) {
    return fread(into, sizeof(struct can_frame), 1, frames) == 1 ? (ssize_t)sizeof(struct can_frame) : -1;
}
"""


def frame():
    data = bytes(random.choice([0x00, 0xFF, 0x0F, 0xF0, random.getrandbits(8)]) for _ in range(random.randrange(9)))
    if random.random() < 0.5:
        return random.choice([0, 0x7FF, random.getrandbits(11)]), "%03X", 0, data
    return random.choice([0, 0x1FFFFFFF, 0x1FFC0000, random.getrandbits(29)]), "%08X", 0x80000000, data


def counted(folder, *options):
    """the frames and bits that canbusload prints first"""
    environment = dict(os.environ, LD_PRELOAD=folder + "/calls.so", FRAMES=folder + "/frames")
    run = subprocess.Popen(["canbusload", *options, "can0@500000"], stdout=subprocess.PIPE, env=environment, text=True)
    for line in run.stdout:
        found = re.match(r" *can0@500000 +([1-9]\d*) +(\d+) ", line)
        if found:
            run.kill()
            run.wait()
            return int(found[1]), int(found[2])
    sys.exit("canbusload printed no figures")


random.seed(SEED)
all_frames = [frame() for _ in range(COUNT)]
with tempfile.TemporaryDirectory() as folder:
    with open(folder + "/calls.c", "w", encoding="ascii") as file:
        file.write(CALLS)
    subprocess.run(["cc", "-O1", "-shared", "-fPIC", "-o", folder + "/calls.so", folder + "/calls.c", "-ldl"], check=True)
    with open(folder + "/frames", "wb") as file:
        for identifier, _, flag, data in all_frames:
            file.write(struct.pack("<IB3x8s", identifier | flag, len(data), data))
    with open(folder + "/log", "w", encoding="ascii") as file:
        for identifier, form, _, data in all_frames:
            file.write(f"(1.000000) can0 {form % identifier}#{data.hex().upper()}\n")
    page = subprocess.run([*PROGRAM, "stats", folder + "/log", "--format", "json"], capture_output=True, check=True, text=True)
    bus = json.loads(page.stdout)["buses"][0]
    ours = (bus["frames"], bus["bits"]), (bus["frames"], bus["worstCaseBits"])
    theirs = counted(folder, "-e"), counted(folder)

print(f"seed {SEED}: {COUNT} frames; bits by stats {ours[0][1]}, by canbusload -e {theirs[0][1]}; "
      f"worst case {ours[1][1]}, by canbusload {theirs[1][1]}")
sys.exit(0 if ours == theirs else 1)
