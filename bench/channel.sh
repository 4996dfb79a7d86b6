#!/bin/sh
# Downloads 65,535 bytes through an SDO channel, segmented and by blocks, and copies the same frames into a list. Prints
# nanoseconds a segment. Status 1 where a transfer fails.
set -eu
# shellcheck source=bench/crate.sh
. "$(dirname "$(readlink -f "$0")")/crate.sh"

new_crate channel_time 'co_sdo co_dict_list' 'co_value co_frame co_sheet co_dict co_dict_list co_sdo arrayvec anyhow'
cat > "$folder/crates/channel_time/src/main.rt" << 'END'
//! Downloads 65,535 bytes into the domain 2000h of the data sheet on standard input, segmented and by blocks, and copies
//! the same frames into a list. Prints how many nanoseconds each took, and how many segments that were.
#![tactic(auto)]

ghost use Rattle.std.specs.Prelude.{◌≡◌, ◌≤◌};
ghost use Rattle.co_value.specs.declared.key.Key.{Key};
ghost use Rattle.co_sdo.specs.Refused.{capacity_at};

use anyhow::{Context, Result, bail};
use arrayvec::ArrayVec;
use co_dict_list::{Limits, ListStore};
use co_dict::{ObjectStore, capacity_law};
use co_frame::{BlockSegment, Frame, Outbox, SdoRequest};
use co_sdo::{Channel, Ids};
use co_sheet::read;
use co_value::Key;
use std::alloc::{AllocError, Global};
use std::io;
use std::time::Instant;

const SIZE: u16 = 65535;
const SEGMENTS: u16 = 9363;
const TRANSFERS: u8 = 50;
const REQUEST: u16 = 0x601;
const ANSWER: u16 = 0x581;

const DATA: Key = Key {
    index: 0x2000,
    sub: 0,
};

/// A channel of an SDO server over a dictionary.
#[derive(Drop)]
struct Server<S: ObjectStore> {
    store: S,
    channel: Channel,
    ghost greatest: { (key : Key) → capacity_at (S.description store).rows key ≤ channel.greatest },
}

impl<S: ObjectStore + Drop> Server<S> {
    fn new(alloc: Global, store: S) -> Result<Server<S>, AllocError> {
        capacity_law(&store);
        let ids = Ids {
            request: REQUEST,
            answer: ANSWER,
        };
        let channel = Channel::new(alloc, ids, 65535, 0)?;
        Ok(Server { store, channel })
    }

    fn take(&mut self, frame: &Frame, outbox: &mut Outbox) -> Option<Key> {
        outbox.clear();
        self.channel.take(&mut self.store, frame, outbox)
    }

    // whether the last of these frames alone sets the entry
    fn take_all(&mut self, frames: &[Frame]) -> bool {
        let mut outbox = Outbox::new();
        let mut set = None;
        for frame in frames {
            set = self.take(frame, &mut outbox);
        }
        set == Some(DATA)
    }

    // the number of transfers that set the entry
    fn repeat(&mut self, frames: &[Frame]) -> u8 {
        let mut done: u8 = 0;
        for _ in 0..TRANSFERS {
            if self.take_all(frames) {
                done = done.wrapping_add(1);
            }
        }
        done
    }
}

// the data of a segment; the last has one byte
fn segment_bytes(at: u16) -> [u8; 7] {
    let low = (at % 256) as u8;
    [low, low ^ 1, low ^ 2, low ^ 3, low ^ 4, low ^ 5, low ^ 6]
}

fn plain(alloc: Global) -> Result<Vec<Frame>, AllocError> {
    let mut frames = Vec::new(alloc);
    let size = Some(u32::from(SIZE));
    frames.push(SdoRequest::DownloadInitiate { key: DATA, size }.write(REQUEST))?;
    for at in 0..SEGMENTS {
        let last = at == SEGMENTS - 1;
        let mut data = ArrayVec::from(segment_bytes(at));
        if last {
            data.truncate(1);
        }
        let toggle = at % 2 == 1;
        frames.push(SdoRequest::DownloadSegment { toggle, data, last }.write(REQUEST))?;
    }
    Ok(frames)
}

fn block(alloc: Global) -> Result<Vec<Frame>, AllocError> {
    let mut frames = Vec::new(alloc);
    let size = Some(u32::from(SIZE));
    frames.push(SdoRequest::BlockDownloadInitiate { key: DATA, size }.write(REQUEST))?;
    for at in 0..SEGMENTS {
        let last = at == SEGMENTS - 1;
        let sequence = (at % 127) as u8 + 1;
        let bytes = segment_bytes(at);
        frames.push(BlockSegment { last, sequence, bytes }.write(REQUEST))?;
    }
    frames.push(SdoRequest::BlockDownloadEnd { unused: 6 }.write(REQUEST))?;
    Ok(frames)
}

fn copy(list: &mut Vec<u8>, frames: &[Frame]) -> Result<(), AllocError> {
    for frame in frames {
        if let Some(data) = frame.bytes().get(1..) {
            list.extend_from_slice(data)?;
        }
    }
    Ok(())
}

fn copy_repeated(list: &mut Vec<u8>, frames: &[Frame]) -> Result<usize, AllocError> {
    let mut copied: usize = 0;
    for _ in 0..TRANSFERS {
        list.clear();
        copy(list, frames)?;
        copied = copied.wrapping_add(list.len());
    }
    Ok(copied)
}

fn run(rt: &HostRuntime) -> Result<()> {
    let alloc = rt.alloc();
    let text = io::read_to_string(alloc, rt.stdin())?;
    let sheet = read(alloc, text.as_bytes()).ok().context("no sheet")?;
    let limits = Limits {
        strings: 0,
        domains: SIZE,
        own: &[],
    };
    let store = ListStore::build(alloc, &sheet, 1, &limits).ok().context("no dictionary")?;
    let mut server = Server::new(alloc, store)?;
    let plain = plain(alloc)?;
    let block = block(alloc)?;
    let mut list = Vec::with_capacity(alloc, 65536 + 16)?;
    let segments = u32::from(TRANSFERS).wrapping_mul(u32::from(SEGMENTS));

    let begin = Instant::now(rt)?;
    let copied = copy_repeated(&mut list, &plain)?;
    let of_copy = begin.elapsed(rt)?.as_nanos();

    let begin = Instant::now(rt)?;
    let by_segments = server.repeat(&plain);
    let of_plain = begin.elapsed(rt)?.as_nanos();

    let begin = Instant::now(rt)?;
    let by_blocks = server.repeat(&block);
    let of_block = begin.elapsed(rt)?.as_nanos();

    if by_segments != TRANSFERS || by_blocks != TRANSFERS {
        bail!("{by_segments} segmented and {by_blocks} block downloads were done");
    }
    println!(rt; "segments {segments} copy {of_copy} plain {of_plain} block {of_block} copied {copied}")?;
    Ok(())
}

fn main(rt: HostRuntime) -> Result<()> {
    run(&rt)
}
END
cat > "$folder/domain.eds" << 'END'
[MandatoryObjects]
SupportedObjects=3
1=0x1000
2=0x1001
3=0x1018
[1000]
DataType=7
AccessType=ro
[1001]
DataType=5
AccessType=ro
[1018]
ObjectType=9
[1018sub0]
DataType=5
AccessType=ro
[1018sub1]
DataType=7
AccessType=ro
[ManufacturerObjects]
SupportedObjects=1
1=0x2000
[2000]
ObjectType=2
DataType=15
AccessType=rw
END
build_crate channel_time "$folder/domain.eds"

for _ in 1 2 3 4 5; do "$program" < "$folder/domain.eds"; done | xargs -n 2 | smallest > "$folder/best"
awk '
    { best[$1] = $2 }
    function per_segment(name) { return best[name] / best["segments"] }
    END {
        printf "copy:      %8.1f ns a segment\n", per_segment("copy")
        printf "segmented: %8.1f ns a segment, %.2f times the copy (aim: at most 2)\n", per_segment("plain"), best["plain"] / best["copy"]
        printf "block:     %8.1f ns a segment, %.2f times the copy (aim: at most 2)\n", per_segment("block"), best["block"] / best["copy"]
    }' "$folder/best"
