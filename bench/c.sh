#!/bin/sh
# Gives a device a million frames and a million ticks through the calls of bafokun.h, and the same by Node::step in Rattle:
# an SDO upload of 1000h, and a SYNC where no TPDO waits for it. In turn, the best of 60 runs of each, in nanoseconds for one
# input; status 1 where a call from C takes more than 1.1 times as long, a tick more than 1.2 times. Before it, the memory that a
# device holds, and the most that its build held, of three sheets; and an entry read and written by its key and by its number.
set -eu
# shellcheck source=bench/device.sh
. "$(dirname "$(readlink -f "$0")")/device.sh"

"$root/bin/libbafokun" "$folder"
cat > "$folder/million.c" << 'END'
#define _POSIX_C_SOURCE 199309L
#include <bafokun.h>
#include <stdio.h>
#include <string.h>
#include <time.h>

static bafokun_node node = BAFOKUN_EMPTY;
static bafokun_frame frames[BAFOKUN_MOST_FRAMES];
static char text[65536];

static double now(void)
{
    struct timespec at;
    clock_gettime(CLOCK_MONOTONIC, &at);
    return at.tv_sec * 1e9 + at.tv_nsec;
}

int main(void)
{
    static const bafokun_config config = { 16, 889, 65535 };
    static const bafokun_frame upload = { 0x605, 8, { 0x40, 0x00, 0x10, 0x00, 0, 0, 0, 0 } }, sync = { 0x80, 0, { 0 } };
    bafokun_fault fault;
    uint8_t bytes[2];
    size_t number, length;
    double begin;
    long i;
    if (!bafokun_build(&node, text, fread(text, 1, sizeof text, stdin), 5, &config, &fault)) return 1;
    begin = now();
    for (i = 0; i < 1000000; i++) if (bafokun_take(&node, &upload, frames, BAFOKUN_MOST_FRAMES) != 1) return 1;
    printf("upload %.1f\n", (now() - begin) / 1e6);
    begin = now();
    for (i = 0; i < 1000000; i++) if (bafokun_take(&node, &sync, frames, BAFOKUN_MOST_FRAMES) != 0) return 1;
    printf("sync %.1f\n", (now() - begin) / 1e6);
    begin = now();
    for (i = 0; i < 1000000; i++) if (bafokun_tick(&node, frames, BAFOKUN_MOST_FRAMES) != 0) return 1;
    printf("tick %.1f\n", (now() - begin) / 1e6);
    if (!bafokun_find(&node, 0x2003, 0, &number)) return 1;
    begin = now();
    for (i = 0; i < 1000000; i++) if (!bafokun_value(&node, 0x2003, 0, bytes, 2, &length)) return 1;
    printf("value %.1f\n", (now() - begin) / 1e6);
    begin = now();
    for (i = 0; i < 1000000; i++) if (!bafokun_value_at(&node, number, bytes, 2, &length)) return 1;
    printf("value_at %.1f\n", (now() - begin) / 1e6);
    begin = now();
    for (i = 0; i < 1000000; i++) if (bafokun_write(&node, 0x2003, 0, bytes, 2, frames, BAFOKUN_MOST_FRAMES) != 0) return 1;
    printf("write %.1f\n", (now() - begin) / 1e6);
    begin = now();
    for (i = 0; i < 1000000; i++) if (bafokun_write_at(&node, number, bytes, 2, frames, BAFOKUN_MOST_FRAMES) != 0) return 1;
    printf("write_at %.1f\n", (now() - begin) / 1e6);
    bafokun_free(&node);
    return 0;
}
END
${CC:-cc} -std=c99 -O2 -Wall -Wextra -pedantic -I "$folder" -o "$folder/in_c" "$folder/million.c" "$folder/libbafokun.a"

cat > "$folder/memory.c" << 'END'
#include <bafokun.h>
#include <malloc.h>
#include <stdio.h>

void *__real_malloc(size_t size);
void *__real_realloc(void *block, size_t size);
void __real_free(void *block);
void *__wrap_malloc(size_t size);
void *__wrap_realloc(void *block, size_t size);
void __wrap_free(void *block);

static size_t held, most, calls;

static void *count(void *block)
{
    if (block) held += malloc_usable_size(block), calls++;
    if (held > most) most = held;
    return block;
}

void *__wrap_malloc(size_t size) { return count(__real_malloc(size)); }

void *__wrap_realloc(void *block, size_t size)
{
    size_t had = block ? malloc_usable_size(block) : 0;
    void *moved = __real_realloc(block, size);
    if (moved) held -= had;
    return count(moved);
}

void __wrap_free(void *block)
{
    if (block) held -= malloc_usable_size(block);
    __real_free(block);
}

int main(void)
{
    static char text[1048577];
    static const bafokun_config config = { 16, 889, 1000 };
    bafokun_node node = BAFOKUN_EMPTY;
    bafokun_fault fault;
    size_t length = fread(text, 1, sizeof text, stdin), of_device;
    held = most = calls = 0;
    if (!bafokun_build(&node, text, length, 5, &config, &fault)) return 1;
    of_device = held;
    bafokun_free(&node);
    printf("%zu bytes, %zu at most in the build, %zu allocations; %zu left after it was given back\n", of_device, most, calls, held);
    return held != 0;
}
END
${CC:-cc} -std=c99 -O2 -Wall -Wextra -I "$folder" -Wl,--wrap=malloc,--wrap=realloc,--wrap=free -o "$folder/memory" \
    "$folder/memory.c" "$folder/libbafokun.a"
"$root/bench/greatest_device.sh" > "$folder/greatest.eds"
for sheet in "$root/examples/device/sensor.eds" "$root/examples/io-module.eds" "$folder/greatest.eds"; do
    printf '%s: ' "$(basename "$sheet" .eds)"
    "$folder/memory" < "$sheet"
done

new_crate million co_node 'co_node co_dict_build co_sheet co_frame anyhow'
add_device million
add_repeat million
cat > "$folder/crates/million/src/main.rt" << 'END'
//! A million inputs of each kind to the device of a data sheet.
#![tactic(auto)]

mod device;
mod repeat;

use anyhow::{Context, Result};
use co_frame::{Frame, Outbox};
use co_node::Node;
use device::built;
use repeat::{repeat_frame, repeat_tick};
use std::io;
use std::time::Instant;

const COUNT: u32 = 1_000_000;

// prints the nanoseconds that one of so many took, since then
fn print_time(rt: &HostRuntime, name: &str, begin: &Instant) -> Result<()> {
    // tenths of a nanosecond
    let each = begin.elapsed(rt)?.as_nanos() / u128::from(COUNT / 10);
    println!(rt; "{name} {}.{}", each / 10, each % 10)?;
    Ok(())
}

fn measure(rt: &HostRuntime, name: &str, node: &mut Node, frame: &Frame, sent: &mut Outbox) -> Result<()> {
    let begin = Instant::now(rt)?;
    repeat_frame(node, frame, COUNT, sent);
    print_time(rt, name, &begin)
}

fn run(rt: &HostRuntime) -> Result<()> {
    let text = io::read_to_string(rt.alloc(), rt.stdin())?;
    let mut node = built(rt.alloc(), text.as_str(), 65535)?;
    let mut sent = Outbox::new();
    let upload = Frame::new(0x605, &[0x40, 0x00, 0x10, 0x00, 0, 0, 0, 0]).ok().context("no frame")?;
    let sync = Frame::new(0x80, &[]).ok().context("no frame")?;
    measure(rt, "upload", &mut node, &upload, &mut sent)?;
    measure(rt, "sync", &mut node, &sync, &mut sent)?;
    let begin = Instant::now(rt)?;
    repeat_tick(&mut node, COUNT, &mut sent);
    print_time(rt, "tick", &begin)
}

fn main(rt: HostRuntime) -> Result<()> {
    run(&rt)
}
END
build_crate million "$root/bench/pdo-device.eds"

for _ in $(seq 60); do
    for name in "$folder/in_c" "$program"; do "$name" < "$root/bench/pdo-device.eds" >> "$name.all"; done
done
for name in "$folder/in_c" "$program"; do smallest < "$name.all" | sort > "$name.best"; done
awk '{ time[$1] = $2 }
     END { for (name in time) if (name "_at" in time)
               printf "%-7s %6.1f ns by its key, %6.1f ns by its number\n", name, time[name], time[name "_at"] }' "$folder/in_c.best" | sort
join "$folder/in_c.best" "$program.best" |
    awk '{ ratio = $2 / $3; if (ratio > ($1 == "tick" ? 1.2 : 1.1)) bad = 1
           printf "%-7s %6.1f ns from C, %6.1f ns in Rattle: %.2f\n", $1, $2, $3, ratio }
         END { exit bad }'
