#!/bin/sh
# Nanoseconds that the data of a PDO of eight entries of one byte take by its compiled mapping, read and written, beside a copy
# of eight bytes at eight places written by hand in Rust, in the same run; and those of a tick at which no TPDO is due, by
# TPDO, on a device with 4 TPDOs and on one with 512. Status 1 where the data take more than 4 times the copy, a TPDO
# more than 8 ns, or one of 512 more than 1.1 times one of 4 (aim: not more).
set -eu
# shellcheck source=bench/crate.sh
. "$(dirname "$(readlink -f "$0")")/crate.sh"
runs=${1:-40}

# A data sheet with so many TPDOs, sent by an event timer, and an RPDO. The RPDO and the first TPDO have eight bytes.
make_sheet() {
    awk -v tpdos="$1" '
        function entry(name, type, access, value) { printf "[%s]\nDataType=%d\nAccessType=%s\nDefaultValue=%s\nPDOMapping=1\n", name, type, access, value }
        function object(number) {
            name = sprintf("%X", number)
            list = list (++count) "=0x" name "\n"
            printf "[%s]\nObjectType=9\n", name
            return name
        }
        function variable(name, type, access, value) {
            list = list (++count) "=0x" name "\n"
            entry(name, type, access, value)
        }
        function mapping(number, entries) {
            name = object(number)
            entry(name "sub0", 5, "rw", entries)
            for (i = 1; i <= entries; i++) entry(name "sub" i, 7, "rw", sprintf("0x2000%02X08", i))
        }
        BEGIN {
            variable("1000", 7, "ro", 0)
            variable("1001", 5, "ro", 0)
            name = object(4120); entry(name "sub0", 5, "ro", 1); entry(name "sub1", 7, "ro", 0)
            name = object(8192); entry(name "sub0", 5, "ro", 8)
            for (i = 1; i <= 8; i++) entry(name "sub" i, 5, "rw", 16 * i + i)
            name = object(5120); entry(name "sub0", 5, "ro", 2); entry(name "sub1", 7, "rw", "0x400"); entry(name "sub2", 5, "rw", 255)
            mapping(5632, 8)
            for (k = 0; k < tpdos; k++) {
                name = object(6144 + k); entry(name "sub0", 5, "ro", 5); entry(name "sub1", 7, "rw", sprintf("0x%X", 385 + k))
                entry(name "sub2", 5, "rw", 255); entry(name "sub3", 6, "rw", 0); entry(name "sub5", 6, "rw", 65535)
                mapping(6656 + k, k ? 1 : 8)
            }
            printf "[MandatoryObjects]\nSupportedObjects=%d\n%s", count, list
        }'
}

# runs of the program on both sheets and of the one in Rust, in turn; of each number that they print the smallest, as
# `name number` on a line
best() {
    for _ in $(seq "$runs"); do
        "$program" 4 < "$folder/4.eds"
        "$program" 512 < "$folder/512.eds"
        "$folder/in_rust"
    done | smallest
}

new_crate pdo_time 'co_pdo_compiled co_dict_image' \
    'co_sheet co_dict co_dict_build co_dict_image co_pdo co_pdo_compiled anyhow'
cat > "$folder/in_rust.rs" << 'END'
//! Copies of eight bytes from and to eight places of a list.
use std::hint::black_box;
use std::time::Instant;

const FRAMES: u32 = 2_000_000;

#[inline(never)]
fn read(values: &[u8], places: &[usize; 8]) -> [u8; 8] {
    let mut bytes = [0; 8];
    for (byte, place) in bytes.iter_mut().zip(places) {
        *byte = values[*place];
    }
    bytes
}

#[inline(never)]
fn write(values: &mut [u8], places: &[usize; 8], bytes: &[u8; 8]) {
    for (byte, place) in bytes.iter().zip(places) {
        values[*place] = *byte;
    }
}

fn main() {
    let places = black_box([3, 4, 5, 6, 7, 8, 9, 10]);
    let mut values = black_box(vec![0u8; 16]);
    let begin = Instant::now();
    for _ in 0..FRAMES {
        black_box(read(black_box(&values), &places));
    }
    println!("copy_image {:.3}", begin.elapsed().as_nanos() as f64 / f64::from(FRAMES));
    let begin = Instant::now();
    for frame in 0..FRAMES {
        write(black_box(&mut values), &places, black_box(&u64::from(frame).to_le_bytes()));
    }
    println!("copy_apply {:.3}", begin.elapsed().as_nanos() as f64 / f64::from(FRAMES));
}
END
rustc -O --edition 2024 -o "$folder/in_rust" "$folder/in_rust.rs"
mkdir -p "$folder/crates/pdo_time/proofs/take_all"
cat > "$folder/crates/pdo_time/proofs/take_all/Invariants.antt" << 'END'
use Rattle.std.proofs.Common.{◌≡◌}
use Rattle.pdo_time.proofs.take_all.Given as goal

abbrev pub invariant-loop-frame : goal.invariant-loop-frame
invariant-loop-frame g l = g.S.ObjectStore.description l.store ≡ g.S.ObjectStore.description l.fn.store
END
cat > "$folder/crates/pdo_time/src/main.rt" << 'END'
//! Builds the dictionary of the data sheet on standard input, which has as many TPDOs as the argument says, and prints how
//! many nanoseconds a frame of eight entries took, and a tick for one TPDO.
#![tactic(auto)]

ghost use Rattle.std.specs.Prelude.{◌≡◌};
ghost use Rattle.co_pdo_compiled.specs.CompiledMappings.{HasParts};

use anyhow::{Context, Result, bail};
use co_dict::ObjectStore;
use co_dict_build::Limits;
use co_dict_image::ImageStore;
use co_pdo::{Due, PdoNumber, Schedule, Side};
use co_pdo_compiled::{Compiled, apply_at, image_at};
use co_sheet::read;
use std::env::args;
use std::io;
use std::time::Instant;

const FRAMES: u32 = 500_000;
const TICKS: u32 = 50_000;

const LIMITS: Limits<'static> = Limits {
    strings: 0,
    domains: 0,
    own: &[],
};

// the sum of so many images of eight bytes, each taken at once, as the copy by hand is
fn images<S: ObjectStore>(store: &S, compiled: &Compiled) -> u64
    requires { HasParts (S.description store.now) compiled.now }
{
    let mut sum: u64 = 0;
    for _ in 0..FRAMES {
        sum = sum.wrapping_add(u64::from_le_bytes(image_at(store, compiled).padded()));
    }
    sum
}

// hands over so many frames
fn take_all<S: ObjectStore>(store: &mut S, compiled: &Compiled)
    requires { HasParts (S.description store.old) compiled.now }
    ensures { S.description store.new ≡ S.description store.old }
{
    for frame in 0..FRAMES {
        let _ = apply_at(store, compiled, &u64::from(frame).to_le_bytes());
    }
}

// how many TPDOs were due at so many ticks
fn ticks<S: ObjectStore>(store: &S, schedule: &mut Schedule, sent: &mut Due) -> u64 {
    let mut due: u64 = 0;
    for _ in 0..TICKS {
        schedule.on_tick(store, sent);
        due = due.wrapping_add(sent.len() as u64);
    }
    due
}

// prints the nanoseconds since then by call
fn print(rt: &HostRuntime, name: &str, begin: &Instant, calls: u64) -> Result<()> {
    let spent = begin.elapsed(rt)?.as_nanos().wrapping_mul(1000) / u128::from(calls.max(1));
    println!(rt; "{name} {}.{:03}", spent / 1000, spent % 1000)?;
    Ok(())
}

fn time<S: ObjectStore>(rt: &HostRuntime, store: &mut S, tpdos: &str) -> Result<()> {
    let mut schedule = Schedule::new(rt.alloc(), store)?;
    schedule.start_all(store);
    let mut sent = Due::new();
    let calls = u64::from(TICKS).wrapping_mul(schedule.tpdo_count() as u64);
    let begin = Instant::now(rt)?;
    let due = ticks(store, &mut schedule, &mut sent);
    print(rt, &format!(in rt.alloc(); "tick_{tpdos}")?, &begin, calls)?;
    if due != 0 {
        bail!("{due} TPDOs were due");
    }
    let compiled = Compiled::of(store, Side::Tpdo, PdoNumber::of(0));
    let begin = Instant::now(rt)?;
    let sum = images(store, &compiled);
    print(rt, "image_at", &begin, u64::from(FRAMES))?;
    println!(rt; "sum {sum}")?;
    let compiled = Compiled::of(store, Side::Rpdo, PdoNumber::of(0));
    let begin = Instant::now(rt)?;
    take_all(store, &compiled);
    print(rt, "apply_at", &begin, u64::from(FRAMES))?;
    Ok(())
}

fn main(rt: HostRuntime) -> Result<()> {
    let alloc = rt.alloc();
    let tpdos = args(&rt)?.nth(1).context("how many TPDOs?")?;
    let text = io::read_to_string(alloc, rt.stdin())?;
    let sheet = read(alloc, text.as_bytes()).ok().context("no sheet")?;
    let mut store = ImageStore::build(alloc, &sheet, 1, &LIMITS).ok().context("no dictionary")?;
    time(&rt, &mut store, tpdos.as_str())
}
END
make_sheet 4 > "$folder/4.eds"
make_sheet 512 > "$folder/512.eds"
build_crate pdo_time "$folder/4.eds" 4

best > "$folder/best"
awk '
    { best[$1] = $2 }
    function compare(name, other) {
        printf "%s: %6.1f ns a frame, %.2f times a copy by hand, %.1f ns (aim: at most 4)\n", name, best[name], best[name] / best[other], best[other]
    }
    END {
        compare("image_at", "copy_image")
        compare("apply_at", "copy_apply")
        printf "on_tick:  %6.2f ns a TPDO of 4, %.2f ns of 512\n", best["tick_4"], best["tick_512"]
        exit (best["image_at"] > 4 * best["copy_image"] || best["apply_at"] > 4 * best["copy_apply"] \
            || best["tick_4"] > 8 || best["tick_512"] > 8 || best["tick_512"] > 1.1 * best["tick_4"])
    }' "$folder/best"
