#!/bin/sh
# To be sourced, by `. "$(dirname "$(readlink -f "$0")")/device.sh"`: what crate.sh has, and modules of programs over co_node.
# shellcheck source=bench/crate.sh
. "$(dirname -- "$(readlink -f -- "$0")")/crate.sh"

# Writes src/device.rt of a program in $folder: a device of a data sheet, and one input to it.
add_device() {
    cat > "$folder/crates/$1/src/device.rt" << 'END'
//! A device of a data sheet, and one input to it.

use anyhow::{Context, Result};
use co_dict_build::Limits;
use co_frame::{Frame, Outbox};
use co_node::{Config, Node};
use co_node::{AppEvent, Input};
use co_sheet::read;
use std::alloc::Global;

/// The device of a sheet at node-ID 5, with so many ms for an SDO transfer.
pub(crate) fn built(alloc: Global, text: &str, time: u16) -> Result<Node> {
    let sheet = read(alloc, text.as_bytes()).ok().context("no sheet")?;
    let config = Config {
        limits: Limits {
            strings: 16,
            domains: 889,
            own: &[],
        },
        time,
    };
    Node::build(alloc, &sheet, 5, &config).ok().context("no device")
}

/// Takes a frame, else an event of the application, else a tick. It is compiled into its callers, so that what is timed is the
/// device's own step.
#[inline(always)]
pub(crate) fn step(node: &mut Node, frame: Option<Frame>, event: Option<AppEvent<&[u8]>>, sent: &mut Outbox) {
    match (frame, event) {
        (Some(frame), _) => node.step(Input::Frame(frame), sent),
        (None, Some(event)) => node.step(Input::App(event), sent),
        (None, None) => node.step(Input::Tick, sent),
    }
}
END
}

# Writes src/repeat.rt, over src/device.rt: one input many times.
add_repeat() {
    cat > "$folder/crates/$1/src/repeat.rt" << 'END'
//! One input to a device many times.

use crate::device::step;
use co_frame::{Frame, Outbox};
use co_node::Node;

/// Takes a frame so many times.
pub(crate) fn repeat_frame(node: &mut Node, frame: &Frame, count: u32, sent: &mut Outbox) {
    for _ in 0..count {
        step(node, Some(*frame), None, sent);
    }
}

/// Takes so many ticks.
pub(crate) fn repeat_tick(node: &mut Node, count: u32, sent: &mut Outbox) {
    for _ in 0..count {
        step(node, None, None, sent);
    }
}
END
}
