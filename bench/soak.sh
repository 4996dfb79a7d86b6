#!/bin/sh
# Gives two devices random inputs, by a generator with a seed: the one of pdo-device.eds, and the greatest one. Prints each one's
# state at the end, how many frames it sent with a sum of all their bytes, and the memory at its peak, after a hundredth of the
# inputs and after all of them. Status 1 where a run halts, an input gives more frames than it may, a channel holds more than it
# may, or the memory grows.
#     soak.sh [INPUTS [SEED]]      100,000,000 inputs if not given, which takes minutes
set -eu
inputs=${1:-100000000}
seed=${2:-1}
# shellcheck source=bench/device.sh
. "$(dirname "$(readlink -f "$0")")/device.sh"

new_crate soak co_node 'co_node co_dict_build co_sheet co_frame co_value arrayvec anyhow'
add_device soak
cat > "$folder/crates/soak/src/main.rt" << 'END'
//! Gives the device of the data sheet on standard input random inputs. The sheet's last line, a comment, is
//! `;!soak INPUTS SEED`.
#![tactic(auto)]

mod device;
mod random;

use anyhow::{Context, Result, bail};
use co_frame::{Frame, Outbox};
use co_node::Node;
use co_node::AppEvent;
use co_value::Key;
use device::{built, step};
use random::Random;
use std::io;

// what was sent: how many frames, a sum of their identifiers and bytes, and the most frames of one input
#[derive(Clone, Copy)]
struct Totals {
    frames: u64,
    sum: u64,
    most: usize,
}

// a frame with this identifier and as many of these bytes
fn give(node: &mut Node, id: u16, bytes: &[u8; 8], length: usize, sent: &mut Outbox) {
    let data = bytes.get(..length).unwrap_or(bytes.as_slice());
    if let Ok(frame) = Frame::new(id, data) {
        step(node, Some(frame), None, sent);
    }
}

// a request with a command specifier, a key and data that are mostly good
fn request(node: &mut Node, random: &mut Random, sent: &mut Outbox) {
    let [_, _, _, _, fourth, fifth, sixth, seventh] = random.bytes();
    let key = random.key();
    let [low, high] = key.index.to_le_bytes();
    let small = random.below(2) == 0;
    let data = if small { [fourth, 0, 0, 0] } else { [fourth, fifth, sixth, seventh] };
    let [a, b, c, d] = data;
    let bytes = [random.command(), low, high, key.sub, a, b, c, d];
    let id = random.request_id();
    give(node, id, &bytes, 8, sent);
}

// a segment of an open transfer
fn segment(node: &mut Node, random: &mut Random, sent: &mut Outbox) {
    let [_, a, b, c, d, e, f, g] = random.bytes();
    let first = random.segment();
    let id = random.request_id();
    give(node, id, &[first, a, b, c, d, e, f, g], 8, sent);
}

// an event of the application
fn apply(node: &mut Node, random: &mut Random, sent: &mut Outbox) {
    let bytes = random.bytes();
    let key = random.key();
    let [low, high, bits, a, b, c, d, e] = bytes;
    let number = u16::from_le_bytes([low, high]);
    let length = random.below(9);
    let event = match random.below(5) {
        0 => AppEvent::Write(key, bytes.get(..length).unwrap_or(bytes.as_slice())),
        1 => AppEvent::Event(number % 520),
        2 => AppEvent::Changed(key),
        3 => AppEvent::Raise(number, bits, [a, b, c, d, e]),
        _ => AppEvent::Clear(bits),
    };
    step(node, None, Some(event), sent);
}

// an NMT command: rarely a reset, mostly a start
fn command(node: &mut Node, random: &mut Random, sent: &mut Outbox) {
    let kinds = [1u8, 1, 1, 1, 1, 1, 2, 128, 129, 130];
    let kind = kinds.get(random.below(10)).copied().unwrap_or(1);
    let target = if random.below(2) == 0 { 5 } else { 0 };
    give(node, 0, &[kind, target, 0, 0, 0, 0, 0, 0], 2, sent);
}

// a heartbeat of another node
fn heartbeat(node: &mut Node, random: &mut Random, sent: &mut Outbox) {
    let states = [4u8, 5, 127, 0];
    let state = states.get(random.below(4)).copied().unwrap_or(0);
    let id = random.id(0x701, 127);
    give(node, id, &[state, 0, 0, 0, 0, 0, 0, 0], 1, sent);
}

// one random input
fn advance(node: &mut Node, random: &mut Random, sent: &mut Outbox) {
    let bytes = random.bytes();
    let length = random.below(9);
    match random.below(64) {
        0 => command(node, random, sent),
        1..=20 => step(node, None, None, sent),
        21..=32 => request(node, random, sent),
        33..=44 => segment(node, random, sent),
        45..=48 => apply(node, random, sent),
        49..=52 => give(node, 0x80, &bytes, random.below(2), sent),
        53..=57 => give(node, random.rpdo_id(), &bytes, length, sent),
        58..=60 => heartbeat(node, random, sent),
        _ => give(node, random.id(0, 0x800), &bytes, length, sent),
    }
}

fn add(totals: &mut Totals, sent: &Outbox) {
    totals.frames = totals.frames.wrapping_add(sent.len() as u64);
    totals.most = totals.most.max(sent.len());
    for frame in sent.iter() {
        totals.sum = totals.sum.rotate_left(1).wrapping_add(u64::from(frame.id()));
        for byte in frame.bytes() {
            totals.sum = totals.sum.rotate_left(5).wrapping_add(u64::from(*byte));
        }
    }
}

// how many bytes all channels hold
fn held(node: &Node) -> usize {
    let mut sum: usize = 0;
    for channel in 0..128u8 {
        sum = sum.wrapping_add(node.held(channel));
    }
    sum
}

fn soak(rt: &HostRuntime, node: &mut Node, inputs: u64, seed: u64) -> Result<()> {
    let mut sent = Outbox::new();
    let mut random = Random::new(seed);
    let mut totals = Totals { frames: 0, sum: 0, most: 0 };
    for _ in 0..inputs {
        sent.clear();
        advance(node, &mut random, &mut sent);
        add(&mut totals, &sent);
    }
    let Totals { frames, sum, most } = totals;
    let state = node.state();
    let bytes = held(node);
    println!(rt; "{inputs} inputs: {state:?}, {bytes} bytes held, {frames} frames, at most {most} by an input, sum {sum:016x}")?;
    if most > 514 || bytes > 128 * (889 + 889) {
        bail!("too much");
    }
    Ok(())
}

fn run(rt: &HostRuntime) -> Result<()> {
    let text = io::read_to_string(rt.alloc(), rt.stdin())?;
    let line = text.lines().last().context("no line")?;
    let words = line.strip_prefix(";!soak ").context("no words")?;
    let (inputs, seed) = words.split_once(' ').context("no seed")?;
    let inputs: u64 = inputs.parse().ok().context("no number")?;
    let seed: u64 = seed.parse().ok().context("no number")?;
    let mut node = built(rt.alloc(), text.as_str(), 100)?;
    soak(rt, &mut node, inputs, seed)
}

fn main(rt: HostRuntime) -> Result<()> {
    run(&rt)
}
END
cat > "$folder/crates/soak/src/random.rt" << 'END'
//! Random numbers (splitmix64), and what they choose.

ghost use Rattle.std.specs.Prelude.{◌<◌};

use co_value::Key;

/// A generator with its state.
#[derive(Drop)]
pub(crate) struct Random(u64);

const COMMANDS: [u8; 20] = [
    0x20, 0x21, 0x22, 0x23, 0x27, 0x2B, 0x2F, 0x40, 0x40, 0x60, 0x70, 0x80, 0xA0, 0xA0, 0xA1, 0xA2, 0xA3, 0xC0, 0xC1, 0xC2,
];

const SEGMENTS: [u8; 20] = [
    0x00, 0x10, 0x01, 0x11, 0x05, 0x1D, 0x60, 0x70, 0x60, 0x70, 0x81, 0x82, 0x01, 0x02, 0x03, 0x7F, 0xFF, 0xA1, 0xA2, 0xC1,
];

const INDICES: [u16; 24] = [
    0x1000, 0x1001, 0x1003, 0x1005, 0x1014, 0x1015, 0x1016, 0x1017, 0x1018, 0x1029, 0x1201, 0x1400, 0x1600, 0x1800, 0x1801,
    0x1802, 0x19FF, 0x1A00, 0x1A01, 0x2001, 0x2002, 0x2003, 0x2100, 0x3000,
];

const REQUESTS: [u16; 6] = [0x605, 0x605, 0x605, 0x680, 0x201, 0x27F];

const RPDOS: [u16; 4] = [0x205, 0x205, 0x305, 0x400];

impl Random {
    pub(crate) fn new(seed: u64) -> Random {
        Random(seed)
    }

    /// Eight bytes.
    pub(crate) fn bytes(&mut self) -> [u8; 8] {
        self.0 = self.0.wrapping_add(0x9E37_79B9_7F4A_7C15);
        let mut mixed = self.0;
        mixed = (mixed ^ (mixed >> 30)).wrapping_mul(0xBF58_476D_1CE4_E5B9);
        mixed = (mixed ^ (mixed >> 27)).wrapping_mul(0x94D0_49BB_1331_11EB);
        (mixed ^ (mixed >> 31)).to_le_bytes()
    }

    /// A number below a bound.
    pub(crate) fn below(&mut self, bound: u16) -> usize {
        let [low, high, ..] = self.bytes();
        usize::from(u16::from_le_bytes([low, high]) % bound.max(1))
    }

    /// An identifier from this one on, of so many.
    pub(crate) fn id(&mut self, first: u16, count: u16) -> u16 {
        let [low, high, ..] = self.bytes();
        first.wrapping_add(u16::from_le_bytes([low, high]) % count.max(1))
    }

    /// A key, mostly of an entry.
    pub(crate) fn key(&mut self) -> Key {
        let index = INDICES.get(self.below(24)).copied().unwrap_or(0x1000);
        let [sub, ..] = self.bytes();
        Key { index, sub: if sub < 128 { 0 } else { sub % 8 } }
    }

    /// The first byte of a request that begins a transfer, mostly.
    pub(crate) fn command(&mut self) -> u8 {
        let [any, ..] = self.bytes();
        COMMANDS.get(self.below(24)).copied().unwrap_or(any)
    }

    /// The first byte of a request that goes on with one, mostly.
    pub(crate) fn segment(&mut self) -> u8 {
        let [any, ..] = self.bytes();
        SEGMENTS.get(self.below(24)).copied().unwrap_or(any)
    }

    /// The identifier of a channel's requests.
    pub(crate) fn request_id(&mut self) -> u16 {
        REQUESTS.get(self.below(6)).copied().unwrap_or(0x605)
    }

    /// The identifier of an RPDO.
    pub(crate) fn rpdo_id(&mut self) -> u16 {
        RPDOS.get(self.below(4)).copied().unwrap_or(0x205)
    }
}
END

# so many inputs on a device; the peak of memory in kB goes into a file
run() {
    { cat "$1"; echo ";!soak $2 $seed"; } > "$folder/sheet"
    /usr/bin/time -f '%M' -o "$folder/memory" "$program" < "$folder/sheet"
}

cp "$root/bench/pdo-device.eds" "$folder/large.eds"
"$root/bench/greatest_device.sh" > "$folder/greatest.eds"
{ cat "$folder/large.eds"; echo ";!soak 1000 $seed"; } > "$folder/sheet"
build_crate soak "$folder/sheet"

status=0
for sheet in large greatest; do
    run "$folder/$sheet.eds" $((inputs / 100 + 1))
    few=$(cat "$folder/memory")
    begin=$(date +%s)
    run "$folder/$sheet.eds" "$inputs"
    end=$(date +%s)
    many=$(cat "$folder/memory")
    echo "$sheet: $((end - begin)) s, $few kB of memory after a hundredth of them, $many kB at the end"
    [ "$many" -le $((few + 512)) ] || { echo "the memory of $sheet grows" >&2; status=1; }
done
exit $status
