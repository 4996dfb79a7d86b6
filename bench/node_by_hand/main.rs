//! Runs the device on the data sheet on standard input, by its lines `;!NAME COUNT FRAME`, as the program in node.sh does.
#![forbid(unsafe_code)]

mod device;
mod sdo;
mod sheet;

use device::{Frame, Node, frame};
use std::hint::black_box;
use std::io::Read;
use std::time::Instant;

fn frame_of(text: &str) -> Frame {
    let (id, digits) = text.split_once('#').expect("a frame");
    let data: Vec<u8> = digits
        .as_bytes()
        .chunks(2)
        .map(|pair| u8::from_str_radix(std::str::from_utf8(pair).expect("text"), 16).expect("a byte"))
        .collect();
    frame(u16::from_str_radix(id, 16).expect("an identifier"), &data)
}

fn repeat(node: &mut Node, input: Option<&Frame>, count: u32) -> u64 {
    let begin = Instant::now();
    for _ in 0..count {
        match black_box(input) {
            Some(frame) => node.take(frame),
            None => node.tick(),
        }
    }
    begin.elapsed().as_nanos() as u64
}

fn main() {
    let mut text = String::new();
    std::io::stdin().read_to_string(&mut text).expect("a sheet");
    let mut node = Node::new(sheet::entries(&text, 5), 5, 65535);
    for line in text.lines().filter_map(|line| line.strip_prefix(";!")) {
        let words: Vec<&str> = line.split_whitespace().collect();
        let (name, count, input) = (words[0], words[1].parse().expect("a count"), words[2]);
        let frame = (input != "tick").then(|| frame_of(input));
        let spent = repeat(&mut node, frame.as_ref(), count);
        if name != "-" {
            println!("{name} {:.1}", spent as f64 / f64::from(count));
        }
        for (id, bytes, length) in &node.outbox {
            let digits: String = bytes[..*length]
                .iter()
                .map(|byte| format!("{byte:02X}"))
                .collect();
            println!("; {id:03X}#{digits}");
        }
    }
}
