//! Runs a command several times on what is on standard input, and prints the milliseconds of the quickest run, from its
//! start to its end. What the command prints is dropped.
//! usage: least RUNS COMMAND WORDS... < DOCUMENT
use std::io::{self, Read, Write};
use std::process::{Command, Stdio};
use std::time::Instant;
use std::{env, time};

fn run(command: &[String], document: &[u8]) -> io::Result<time::Duration> {
    let start = Instant::now();
    let mut child = Command::new(&command[0])
        .args(&command[1..])
        .stdin(Stdio::piped())
        .stdout(Stdio::null())
        .stderr(Stdio::null())
        .spawn()?;
    // It may end before it has read all.
    let _ = child.stdin.take().map(|mut input| input.write_all(document));
    child.wait()?;
    Ok(start.elapsed())
}

fn main() -> io::Result<()> {
    let words: Vec<String> = env::args().skip(1).collect();
    let runs = words[0].parse().expect("usage: least RUNS COMMAND WORDS...");
    let mut document = Vec::new();
    io::stdin().read_to_end(&mut document)?;
    let mut least = time::Duration::MAX;
    for _ in 0..runs {
        least = least.min(run(&words[1..], &document)?);
    }
    println!("{:.2}", least.as_secs_f64() * 1000.0);
    Ok(())
}
