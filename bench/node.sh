#!/bin/sh
# Nanoseconds that a device takes for an SDO upload, an RPDO of eight bytes, a SYNC with four TPDOs, a frame of another node
# and a tick, on the sheet of the I/O module and on one with 128 SDO channels, 512 TPDOs and 127 monitored nodes; beside the
# device in node_by_hand, in safe Rust. Status 1 where the two send different frames, where an upload, an RPDO, a SYNC or a tick
# takes more than 1.5 times as long as by hand, or a tick of the I/O module more than 30 ns.
#     node.sh [RUNS]        of each program on each sheet, 40 if not given
set -eu
runs=${1:-40}
# shellcheck source=bench/device.sh
. "$(dirname "$(readlink -f "$0")")/device.sh"

# A run of a program on a sheet: its numbers are added to those of its other runs, the frames that it sent are left in a file.
one_run() {
    "$1" < "$2" > "$folder/printed"
    sed '/^;/d' "$folder/printed" >> "$folder/$3.runs"
    sed -n '/^;/p' "$folder/printed" > "$folder/$3.frames"
}

# Runs of both programs on a sheet, in turn, since the machine may be faster at one time than at another; of each number that a
# program prints the smallest, as `name number` on a line.
best_in_turn() {
    rm -f "$folder/ours.runs" "$folder/theirs.runs"
    for _ in $(seq "$runs"); do
        one_run "$program" "$1" ours
        one_run "$folder/by_hand" "$1" theirs
    done
    for name in ours theirs; do smallest < "$folder/$name.runs" > "$folder/$name"; done
}

# the I/O module with two more TPDOs: each TPDO is sent at each SYNC, RPDO 2 has eight bytes, and another node is monitored
module_sheet() {
    tr -d "\r" < "$root/examples/io-module.eds" | sed -e "/^.MandatoryObjects/,/^$/ s/^SupportedObjects=3$/SupportedObjects=7\n4=0x1802\n5=0x1803\n6=0x1A02\n7=0x1A03/"
    awk '
        function entry(name, type, access, value) { printf "[%s]\nDataType=%d\nAccessType=%s\nDefaultValue=%s\n", name, type, access, value }
        BEGIN {
            for (i = 2; i < 4; i++) {
                name = sprintf("180%d", i)
                printf "[%s]\nObjectType=9\n", name
                entry(name "sub0", 5, "ro", 2)
                entry(name "sub1", 7, "rw", "$NODEID+0x" (i + 1) "80")
                entry(name "sub2", 5, "rw", 1)
                name = sprintf("1A0%d", i)
                printf "[%s]\nObjectType=9\n", name
                entry(name "sub0", 5, "rw", 2)
                entry(name "sub1", 7, "rw", "0x60000108")
                entry(name "sub2", 7, "rw", "0x64010" (i - 1) "10")
            }
        }'
    for frame in 605#2F00180201000000 605#2F01180201000000 605#2301140105030080 605#2F01160000000000 605#2301160310011164 \
        605#2301160410021164 605#2F01160004000000 605#2301140105030000 605#23161001FFFF0700; do
        echo ";!- 1 $frame"
    done
    echo ";!- 1 000#0105"
    echo ";!- 1 707#05"
    echo ";!upload 20000 605#4000100000000000"
    echo ";!rpdo 20000 305#0102030405060708"
    echo ";!sync 20000 080#"
    echo ";!other 20000 186#00"
    echo ";!- 1 605#2102200003000000"
    echo ";!tick 20000 tick"
}

# the greatest device, with an open transfer on each SDO channel
greatest_sheet() {
    "$root/bench/greatest_device.sh"
    echo ";!- 1 000#0105"
    for node in $(seq 1 127); do printf ';!- 1 %03X#05\n' $((1792 + node)); done
    echo ";!upload 2000 605#4000100000000000"
    echo ";!rpdo 2000 400#0102030405060708"
    echo ";!sync 2000 080#"
    echo ";!other 2000 186#00"
    echo ";!- 1 605#2002200000000000"
    for channel in $(seq 1 127); do printf ';!- 1 %03X#2002200000000000\n' $((512 + channel)); done
    echo ";!tick 2000 tick"
}

new_crate node_time 'co_node conode_trace' \
    'co_node co_dict_build co_sheet conode_trace co_frame co_text arrayvec anyhow'
add_device node_time
add_repeat node_time
cat > "$folder/crates/node_time/src/main.rt" << 'END'
//! Runs a device on the data sheet on standard input. A line `;!NAME COUNT FRAME` of the sheet, which is a comment to its
//! reader, hands that frame so often to the device, or `tick` so many ticks, and prints the nanoseconds that one took, unless
//! the name is `-`, and the frames that the last one gave.
#![tactic(auto)]

mod device;
mod repeat;

use anyhow::{Context, Result};
use co_frame::{Frame, Outbox};
use co_node::Node;
use co_text::HexPairs;
use conode_trace::push_frame;
use device::built;
use repeat::{repeat_frame, repeat_tick};
use std::io;
use std::time::Instant;

fn frame_of(text: &str) -> Option<Frame> {
    let (id, digits) = text.split_once('#')?;
    let id = u16::from_str_radix(id, 16).ok()?;
    let mut bytes = [0; 8];
    let mut length: usize = 0;
    if let Some(mut pairs) = HexPairs::read(digits.as_bytes()) {
        length = pairs.len();
        for place in bytes.iter_mut() {
            *place = pairs.next().unwrap_or(0);
        }
    }
    Frame::new(id, bytes.get(..length)?).ok()
}

// the tenths of a nanosecond that one takes of so many frames or ticks
fn measure(rt: &HostRuntime, node: &mut Node, input: &str, count: u32, sent: &mut Outbox) -> Result<u128> {
    let begin = Instant::now(rt)?;
    if input == "tick" {
        repeat_tick(node, count, sent);
    } else {
        let frame = frame_of(input).context("no frame")?;
        repeat_frame(node, &frame, count, sent);
    }
    Ok(begin.elapsed(rt)?.as_nanos().wrapping_mul(10) / u128::from(count.max(1)))
}

fn print_time(rt: &HostRuntime, name: &str, spent: u128) -> Result<()> {
    println!(rt; "{name} {}.{}", spent / 10, spent % 10)?;
    Ok(())
}

fn print_frames(rt: &HostRuntime, sent: &Outbox) -> Result<()> {
    let mut text = String::new(rt.alloc());
    for frame in sent.iter() {
        text.clear();
        push_frame(&mut text, frame)?;
        println!(rt; "; {text}")?;
    }
    Ok(())
}

fn run_line(rt: &HostRuntime, node: &mut Node, line: &str, sent: &mut Outbox) -> Result<()> {
    let mut words = line.split_whitespace();
    let name = words.next().context("no name")?;
    let count: u32 = words.next().context("no count")?.parse().ok().context("no count")?;
    let input = words.next().context("no input")?;
    let spent = measure(rt, node, input, count, sent)?;
    if name != "-" {
        print_time(rt, name, spent)?;
    }
    print_frames(rt, sent)
}

fn run(rt: &HostRuntime) -> Result<()> {
    let text = io::read_to_string(rt.alloc(), rt.stdin())?;
    let mut node = built(rt.alloc(), text.as_str(), 65535)?;
    let mut sent = Outbox::new();
    for line in text.lines() {
        if let Some(words) = line.strip_prefix(";!") {
            run_line(rt, &mut node, words, &mut sent)?;
        }
    }
    Ok(())
}

fn main(rt: HostRuntime) -> Result<()> {
    run(&rt)
}
END
module_sheet > "$folder/module.eds"
greatest_sheet > "$folder/greatest.eds"
rustc -O --edition 2024 -o "$folder/by_hand" "$root/bench/node_by_hand/main.rs"
build_crate node_time "$folder/module.eds"

broken=0
for sheet in module greatest; do
    best_in_turn "$folder/$sheet.eds"
    cmp "$folder/ours.frames" "$folder/theirs.frames" || exit 1
    awk -v sheet="$sheet" '
        NR == FNR { by_hand[$1] = $2; next }
        {
            times = $2 / (by_hand[$1] ? by_hand[$1] : 1)
            printf "%-8s %-7s %9.1f ns, by hand %7.1f ns: %.2f times\n", sheet, $1 ":", $2, by_hand[$1], times
            if ($1 != "other" && times > 1.5 || sheet == "module" && $1 == "tick" && $2 > 30) broken = 1
        }
        END { exit broken }
    ' "$folder/theirs" "$folder/ours" || broken=1
done
exit $broken
