//! Starts a command and feeds it a line at a time through a pipe: the time from a line to its answer. The first words are
//! the number of rounds, the line, and how many lines come at the start; the others are the command.
use std::io::{BufRead, BufReader, Write};
use std::process::{Command, Stdio};
use std::time::Instant;

fn main() -> std::io::Result<()> {
    let words: Vec<String> = std::env::args().collect();
    let rounds: usize = words[1].parse().expect("a number of rounds");
    let first: usize = words[3].parse().expect("a number of lines");
    let mut child = Command::new(&words[4])
        .args(&words[5..])
        .stdin(Stdio::piped())
        .stdout(Stdio::piped())
        .spawn()?;
    let mut input = child.stdin.take().expect("its input");
    let mut output = BufReader::new(child.stdout.take().expect("its output"));
    let mut answer = String::new();
    for _ in 0..first {
        output.read_line(&mut answer)?;
    }
    let line = format!("{}\n", words[2]);
    let mut spent = Vec::new();
    for _ in 0..rounds {
        answer.clear();
        let begin = Instant::now();
        input.write_all(line.as_bytes())?;
        output.read_line(&mut answer)?;
        spent.push(begin.elapsed().as_micros());
        assert!(answer.ends_with('\n'), "no answer");
    }
    drop(input);
    child.wait()?;
    spent.sort();
    println!("{} {}", spent[rounds / 2], spent[rounds - 1]);
    Ok(())
}
