#!/bin/sh
# Builds the dictionary of a data sheet with 16,384 entries and of one with half as many, as a list and as an image, and times
# reading and setting a number by its key and by its place, permitting it, and a reset of all entries; beside the same in
# Rust's BTreeMap<Key, Vec<u8>> and in an indexed Vec<Vec<u8>>, in turn. Each store is built in a process of its own, so that
# none is made of the memory that another gave back. Status 1 where an image of 16,384 entries takes more than 2.5 times as long to
# build as one of half as many (aim 2.2), and where the two stores give different bytes.
set -eu
# shellcheck source=bench/crate.sh
. "$(dirname "$(readlink -f "$0")")/crate.sh"
runs=${1:-30}

# A data sheet of so many entries: the four of the mandatory objects, and ARRAYs of at most 256 entries.
make_sheet() {
    awk -v entries="$1" '
        function entry(name, type, access) { printf "[%s]\nDataType=%d\nAccessType=%s\n", name, type, access }
        BEGIN {
            print "[MandatoryObjects]\nSupportedObjects=3\n1=0x1000\n2=0x1001\n3=0x1018"
            entry("1000", 7, "ro")
            entry("1001", 5, "ro")
            print "[1018]\nObjectType=9"
            entry("1018sub0", 5, "ro")
            entry("1018sub1", 7, "ro")
            for (made = 4; made < entries; arrays++) {
                object = sprintf("%X", 8192 + arrays)
                list = list (arrays + 1) "=0x" object "\n"
                print "[" object "]\nObjectType=8"
                for (sub_index = 0; sub_index < 256 && made < entries; sub_index++) {
                    entry(object "sub" sprintf("%X", sub_index), sub_index ? 7 : 5, sub_index ? "rw" : "ro")
                    made++
                }
            }
            printf "[ManufacturerObjects]\nSupportedObjects=%d\n%s", arrays, list
        }'
}

# Runs of the program on both sheets, for each store, and of the one in Rust on as many entries, in turn; of each number that they
# print the smallest, as `name number` on a line.
best_in_turn() {
    rm -f "$folder/half.runs" "$folder/whole.runs"
    for _ in $(seq "$runs"); do
        for size in half whole; do
            for store in list image; do "$program" $store < "$folder/$size.eds"; done >> "$folder/$size.runs"
        done
        "$folder/in_rust" 8192 >> "$folder/half.runs"
        "$folder/in_rust" 16384 >> "$folder/whole.runs"
    done
    for size in half whole; do smallest < "$folder/$size.runs" > "$folder/$size"; done
}

new_crate dict_time 'co_dict_image co_dict_list' 'co_value co_sheet co_dict co_dict_list co_dict_image anyhow'
cat > "$folder/in_rust.rs" << 'END'
//! The same calls on Rust's ordered map, and on a plain vector, of numbers of four bytes with the keys of the sheet.
use std::collections::BTreeMap;
use std::hint::black_box;
use std::time::Instant;

#[derive(Clone, Copy, PartialEq, Eq, PartialOrd, Ord)]
struct Key {
    index: u16,
    sub: u8,
}

const ROUNDS: u32 = 64;

fn time<T>(name: &str, calls: usize, work: impl FnOnce() -> T) -> T {
    let begin = Instant::now();
    let result = black_box(work());
    println!("{name} {:.3}", begin.elapsed().as_nanos() as f64 / calls as f64);
    result
}

fn main() {
    let entries: usize = std::env::args().nth(1).unwrap().parse().unwrap();
    let mut sorted = Vec::new();
    let mut made = 4;
    for array in 0.. {
        for sub in 0..=255 {
            if made < entries {
                made += 1;
                if sub > 0 {
                    sorted.push(Key { index: 0x2000 + array, sub });
                }
            }
        }
        if made == entries {
            break;
        }
    }
    let count = sorted.len();
    let places: Vec<usize> = (0..count).map(|i| i * 7919 % count).collect();
    let keys: Vec<Key> = places.iter().map(|place| sorted[*place]).collect();
    let calls = count * ROUNDS as usize;
    let mut map = time("map_build", 1, || sorted.iter().map(|key| (*key, vec![0u8; 4])).collect::<BTreeMap<Key, Vec<u8>>>());
    let mut values = time("plain_build", 1, || sorted.iter().map(|_| vec![0u8; 4]).collect::<Vec<Vec<u8>>>());
    let initial = values.clone();
    time("map_bytes", calls, || {
        let mut sum = 0usize;
        for _ in 0..ROUNDS {
            for key in &keys {
                if let Some(bytes) = map.get(key) {
                    sum = sum.wrapping_add(bytes.len()).wrapping_add(usize::from(bytes[0]));
                }
            }
        }
        sum
    });
    time("plain_bytes_at", calls, || {
        let mut sum = 0usize;
        for _ in 0..ROUNDS {
            for place in &places {
                let bytes = &values[*place];
                sum = sum.wrapping_add(bytes.len()).wrapping_add(usize::from(bytes[0]));
            }
        }
        sum
    });
    time("map_set", calls, || {
        for round in 0..ROUNDS {
            for key in &keys {
                if let Some(bytes) = map.get_mut(key) {
                    bytes.copy_from_slice(&round.to_le_bytes());
                }
            }
        }
    });
    time("plain_set_at", calls, || {
        for round in 0..ROUNDS {
            for place in &places {
                values[*place].copy_from_slice(&round.to_le_bytes());
            }
        }
    });
    time("plain_reset", 1, || {
        for (value, first) in values.iter_mut().zip(&initial) {
            value.copy_from_slice(first);
        }
    });
    black_box((map, values));
}
END
rustc -O --edition 2024 -o "$folder/in_rust" "$folder/in_rust.rs"
mkdir -p "$folder/crates/dict_time/proofs/places_of"
cat > "$folder/crates/dict_time/proofs/places_of/Invariants.antt" << 'END'
use Rattle.std.proofs.Common.{◌≡◌, true, All}
use Rattle.co_dict.specs.Places.{takes_at}
use Rattle.dict_time.proofs.places_of.Given as goal

abbrev pub invariant-loop-key : goal.invariant-loop-key
invariant-loop-key g l = All (λ place. takes_at (g.S.ObjectStore.description l.store) place 4 ≡ true) l.places.items
END
cat > "$folder/crates/dict_time/src/main.rt" << 'END'
//! Builds the dictionary of the data sheet on standard input in both stores, calls it for each of its numbers that may be
//! written, many times in a mixed order, and prints how many nanoseconds a call took.
#![tactic(auto)]

ghost use Rattle.std.specs.Prelude.{◌≡◌, true, All, IfSome, IfOk};
ghost use Rattle.co_dict.specs.Rows.{takes};
ghost use Rattle.co_dict.specs.Places.{takes_at};

use anyhow::{Context, Result, bail};
use co_dict::{Area, ObjectStore, may_store, place_laws};
use co_dict_image::ImageStore;
use co_dict_list::{Limits, ListStore};
use co_sheet::{Access, EntryRow, Sheet, read};
use co_value::{DataType, Key};
use std::alloc::{AllocError, Global};
use std::env::args;
use std::io;
use std::time::Instant;

const ROUNDS: u32 = 64;

const LIMITS: Limits<'static> = Limits {
    strings: 0,
    domains: 0,
    own: &[],
};

/// A dictionary with keys and places of numbers of four bytes, each of which may be written.
#[derive(Drop)]
struct Numbers<S: ObjectStore> {
    store: S,
    keys: Vec<Key>,
    places: Vec<u32>,
    ghost writable: { All (λ key. takes (S.description store).rows key 4 ≡ true) keys.items },
    ghost placed: { All (λ place. takes_at (S.description store) place 4 ≡ true) places.items },
}

fn are_writable<S: ObjectStore>(store: &S, keys: &[Key]) -> bool
    ensures { result ≡ true → All (λ key. takes (S.description store.now).rows key 4 ≡ true) keys.now }
{
    keys.iter().all(|key| may_store(store, *key, &[0; 4]).is_ok())
}

// the place of a number that may be written
fn writable_place<S: ObjectStore>(store: &S, key: Key) -> Option<u32>
    ensures { IfSome result (λ place. takes_at (S.description store.now) place 4 ≡ true) }
{
    place_laws(store);
    match may_store(store, key, &[0; 4]) {
        Ok(()) => store.place(key),
        Err(_) => None,
    }
}

fn places_of<S: ObjectStore>(alloc: Global, store: &S, keys: &[Key]) -> Result<Vec<u32>>
    ensures { IfOk result (λ places. All (λ place. takes_at (S.description store.now) place 4 ≡ true) places.items) }
{
    let mut places = Vec::new(alloc);
    for key in keys {
        places.push(writable_place(store, *key).context("no place")?)?;
    }
    Ok(places)
}

impl<S: ObjectStore> Numbers<S> {
    fn set(&mut self, at: usize, bytes: [u8; 4]) {
        if at < self.keys.len() {
            let key = self.keys[at];
            self.store.set(key, &bytes);
        }
    }

    fn set_at(&mut self, at: usize, bytes: [u8; 4]) {
        if at < self.places.len() {
            let place = self.places[at];
            self.store.set_at(place, &bytes);
        }
    }
}

fn set_all<S: ObjectStore>(numbers: &mut Numbers<S>) {
    for round in 0..ROUNDS {
        for at in 0..numbers.keys.len() {
            numbers.set(at, round.to_le_bytes());
        }
    }
}

fn set_all_at<S: ObjectStore>(numbers: &mut Numbers<S>) {
    for round in 0..ROUNDS {
        for at in 0..numbers.places.len() {
            numbers.set_at(at, round.to_le_bytes());
        }
    }
}

fn look_up<S: ObjectStore>(store: &S, keys: &[Key]) -> usize {
    let mut sum: usize = 0;
    for _ in 0..ROUNDS {
        for key in keys {
            if let Some(bytes) = store.bytes(*key) {
                let first = bytes.first().copied().unwrap_or(0);
                sum = sum.wrapping_add(bytes.len()).wrapping_add(usize::from(first));
            }
        }
    }
    sum
}

fn look_up_at<S: ObjectStore>(store: &S, places: &[u32]) -> usize {
    let mut sum: usize = 0;
    for _ in 0..ROUNDS {
        for place in places {
            if let Some(bytes) = store.bytes_at(*place) {
                let first = bytes.first().copied().unwrap_or(0);
                sum = sum.wrapping_add(bytes.len()).wrapping_add(usize::from(first));
            }
        }
    }
    sum
}

fn ask<S: ObjectStore>(store: &S, keys: &[Key]) -> usize {
    let mut sum: usize = 0;
    for round in 0..ROUNDS {
        for key in keys {
            if may_store(store, *key, &round.to_le_bytes()).is_ok() {
                sum = sum.wrapping_add(1);
            }
        }
    }
    sum
}

// the places of so many numbers in a mixed order: 7919 is a prime that divides none of the counts measured
fn mixed(alloc: Global, count: usize) -> Result<Vec<usize>, AllocError> {
    let mut places = Vec::new(alloc);
    for i in 0..count {
        places.push(i.wrapping_mul(7919) % count)?;
    }
    Ok(places)
}

fn sorted_keys(alloc: Global, rows: &[EntryRow<'_>]) -> Result<Vec<Key>, AllocError> {
    let mut keys = Vec::new(alloc);
    for row in rows {
        if row.data_type == DataType::Unsigned32 && row.access == Access::Rw {
            keys.push(row.key)?;
        }
    }
    Ok(keys)
}

fn mixed_keys(alloc: Global, sheet: &Sheet<'_>) -> Result<Vec<Key>, AllocError> {
    let sorted = sorted_keys(alloc, sheet.entries())?;
    let places = mixed(alloc, sorted.len())?;
    let mut keys = Vec::new(alloc);
    for place in &places {
        if let Some(key) = sorted.get(*place) {
            keys.push(*key)?;
        }
    }
    Ok(keys)
}

// prints the nanoseconds since then by call
fn print(rt: &HostRuntime, store: &str, name: &str, begin: &Instant, calls: u128) -> Result<()> {
    let spent = begin.elapsed(rt)?.as_nanos().wrapping_mul(1000) / calls.max(1);
    println!(rt; "{store}_{name} {}.{:03}", spent / 1000, spent % 1000)?;
    Ok(())
}

// times all calls of a store, and gives a sum of what was read
fn time<S: ObjectStore + Drop>(rt: &HostRuntime, name: &str, store: S, keys: Vec<Key>) -> Result<usize> {
    let alloc = rt.alloc();
    let calls = u128::from(ROUNDS).wrapping_mul(keys.len() as u128);
    if !are_writable(&store, &keys) {
        bail!("not all can be written");
    }
    let places = places_of(alloc, &store, &keys)?;
    let begin = Instant::now(rt)?;
    let mut sum = look_up(&store, &keys);
    print(rt, name, "bytes", &begin, calls)?;
    let begin = Instant::now(rt)?;
    sum = sum.wrapping_add(look_up_at(&store, &places));
    print(rt, name, "bytes_at", &begin, calls)?;
    let begin = Instant::now(rt)?;
    sum = sum.wrapping_add(ask(&store, &keys));
    print(rt, name, "may_store", &begin, calls)?;
    let mut numbers = Numbers { store, keys, places };
    let begin = Instant::now(rt)?;
    set_all(&mut numbers);
    print(rt, name, "set", &begin, calls)?;
    let begin = Instant::now(rt)?;
    set_all_at(&mut numbers);
    print(rt, name, "set_at", &begin, calls)?;
    let begin = Instant::now(rt)?;
    numbers.store.reset(Area::All);
    print(rt, name, "reset", &begin, 1)?;
    Ok(sum.wrapping_add(look_up(&numbers.store, &numbers.keys)))
}

// builds a store of the entries of a sheet, and times it
fn run(rt: &HostRuntime, sheet: &Sheet<'_>, store: &str) -> Result<usize> {
    let alloc = rt.alloc();
    let keys = mixed_keys(alloc, sheet)?;
    let begin = Instant::now(rt)?;
    if store == "list" {
        let built = ListStore::build(alloc, sheet, 1, &LIMITS);
        print(rt, store, "build", &begin, 1)?;
        return time(rt, store, built.ok().context("no list")?, keys);
    }
    let built = ImageStore::build(alloc, sheet, 1, &LIMITS);
    print(rt, store, "build", &begin, 1)?;
    time(rt, store, built.ok().context("no image")?, keys)
}

fn main(rt: HostRuntime) -> Result<()> {
    let store = args(&rt)?.nth(1).context("which store?")?;
    let text = io::read_to_string(rt.alloc(), rt.stdin())?;
    let sheet = read(rt.alloc(), text.as_bytes()).ok().context("no sheet")?;
    let sum = run(&rt, &sheet, store.as_str())?;
    println!(rt; "{store}_sum {sum}")?;
    Ok(())
}
END
make_sheet 8192 > "$folder/half.eds"
make_sheet 16384 > "$folder/whole.eds"
build_crate dict_time "$folder/half.eds" image

best_in_turn
awk '
    NR == FNR { half[$1] = $2; next }
    { whole[$1] = $2 }
    function build(name) {
        printf "%-16s %8.2f ms for 8,192 entries, %.2f ms for 16,384: %.2f times\n", name "_build:", half[name "_build"] / 1e6,
            whole[name "_build"] / 1e6, whole[name "_build"] / half[name "_build"]
    }
    function compare(name, other) {
        printf "%-16s %8.1f ns, %5.2f times %s, %.1f ns\n", name ":", whole[name], whole[name] / whole[other], other, whole[other]
    }
    END {
        build("list"); build("image"); build("map")
        split("list image", stores, " ")
        for (i = 1; i <= 2; i++) {
            compare(stores[i] "_bytes", "map_bytes")
            compare(stores[i] "_set", "map_set")
            compare(stores[i] "_bytes_at", "plain_bytes_at")
            compare(stores[i] "_set_at", "plain_set_at")
            compare(stores[i] "_may_store", stores[i] "_bytes")
            printf "%-16s %8.1f us for 16,384 entries, %5.2f times plain_reset, %.1f us\n", stores[i] "_reset:",
                whole[stores[i] "_reset"] / 1e3, whole[stores[i] "_reset"] / whole["plain_reset"], whole["plain_reset"] / 1e3
        }
        exit (whole["image_build"] > 2.5 * half["image_build"] || whole["list_sum"] != whole["image_sum"])
    }' "$folder/half" "$folder/whole"
