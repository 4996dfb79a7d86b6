//! Plays a trace to the device, as `conode replay SHEET TRACE --node 5` does: frame lines and `!tick N` alone.
#![forbid(unsafe_code)]

mod device;
mod sdo;
mod sheet;

use device::{Frame, Node, frame};
use std::fs::File;
use std::io::{BufRead, BufReader, BufWriter, Result, Write};

const DIGITS: &[u8; 16] = b"0123456789ABCDEF";

fn digit(byte: u8) -> u8 {
    match byte {
        b'0'..=b'9' => byte - b'0',
        b'A'..=b'F' => byte - b'A' + 10,
        b'a'..=b'f' => byte - b'a' + 10,
        _ => panic!("no digit"),
    }
}

fn number(text: &[u8]) -> u64 {
    text.iter().fold(0, |number, byte| number * 10 + u64::from(byte - b'0'))
}

// The ms of a stamp, and the frame; the interface is passed over.
fn frame_line(line: &[u8]) -> (u64, Frame) {
    let close = line.iter().position(|byte| *byte == b')').expect("a stamp");
    let ms = number(&line[1..close - 7]) * 1000 + number(&line[close - 6..close - 3]);
    let hash = line.iter().rposition(|byte| *byte == b'#').expect("a frame");
    let id = line[hash - 3..hash]
        .iter()
        .fold(0, |id, byte| id << 4 | u16::from(digit(*byte)));
    let mut data = [0; 8];
    let mut length = 0;
    for pair in line[hash + 1..].chunks_exact(2) {
        data[length] = digit(pair[0]) << 4 | digit(pair[1]);
        length += 1;
    }
    (ms, frame(id, &data[..length]))
}

struct Player<W: Write> {
    node: Node,
    out: W,
    clock: u64,
    is_set: bool,
    handed: u64,
    printed: u64,
    ticks: u64,
}

impl<W: Write> Player<W> {
    fn print(&mut self, frame: &Frame) -> Result<()> {
        let mut line = *b"(0000000000.000000) can0 000#0000000000000000\n";
        let mut seconds = self.clock / 1000;
        for place in (1..11).rev() {
            line[place] += (seconds % 10) as u8;
            seconds /= 10;
        }
        let ms = self.clock % 1000;
        line[12] += (ms / 100) as u8;
        line[13] += (ms / 10 % 10) as u8;
        line[14] += (ms % 10) as u8;
        for (place, shift) in [(25, 8), (26, 4), (27, 0)] {
            line[place] = DIGITS[usize::from(frame.0 >> shift & 15)];
        }
        let mut end = 29;
        for byte in &frame.1[..frame.2] {
            line[end] = DIGITS[usize::from(byte >> 4)];
            line[end + 1] = DIGITS[usize::from(byte & 15)];
            end += 2;
        }
        line[end] = b'\n';
        self.printed += 1;
        self.out.write_all(&line[..=end])
    }

    fn print_sent(&mut self) -> Result<()> {
        for place in 0..self.node.outbox.len() {
            let frame = self.node.outbox[place];
            self.print(&frame)?;
        }
        Ok(())
    }

    fn tick(&mut self, count: u64) -> Result<()> {
        for _ in 0..count {
            self.clock += 1;
            self.ticks += 1;
            self.node.tick();
            self.print_sent()?;
        }
        Ok(())
    }

    fn play(&mut self, line: &[u8]) -> Result<()> {
        if let Some(count) = line.strip_prefix(b"!tick ") {
            return self.tick(number(count));
        }
        if line.first() != Some(&b'(') {
            return Ok(());
        }
        let (ms, frame) = frame_line(line);
        if !self.is_set {
            self.is_set = true;
            self.clock = ms;
        }
        self.tick(ms.saturating_sub(self.clock))?;
        self.handed += 1;
        self.node.take(&frame);
        self.print_sent()
    }
}

fn main() -> Result<()> {
    let words: Vec<String> = std::env::args().collect();
    let text = std::fs::read_to_string(&words[1])?;
    let mut player = Player {
        node: Node::new(sheet::entries(&text, 5), 5, 1000),
        out: BufWriter::new(std::io::stdout()),
        clock: 0,
        is_set: false,
        handed: 0,
        printed: 0,
        ticks: 0,
    };
    player.print(&frame(0x705, &[0]))?;
    let mut trace = BufReader::new(File::open(&words[2])?);
    let mut line = Vec::new();
    while trace.read_until(b'\n', &mut line)? > 0 {
        player.play(line.trim_ascii_end())?;
        line.clear();
    }
    let (handed, printed, ticks) = (player.handed, player.printed, player.ticks);
    writeln!(player.out, "; in {handed}, out {printed}, ticks {ticks}")
}
