//! Hands each input to the port by itself, and compares what it prints and how it ends.

use crate::inputs::{input, STYLES};
use crate::print::expected;
use std::collections::BTreeMap;
use std::fs::File;
use std::process::{Command, Output, Stdio};

const KEPT: &str = "target/oracle/input";

/// Whether the port prints on every input what the Rust does, and ends well.
pub fn run(seed: u64, count: u64, command: &str, words: &[String]) -> Result<bool, String> {
    let (mut styles, mut lines, mut size) = (vec![0; STYLES.len()], BTreeMap::new(), 0);
    for number in 0..count {
        if number % 1000 == 0 {
            eprintln!("{number} of {count} inputs, {size} bytes");
        }
        let (style, bytes) = input(seed, number);
        let text = expected(&bytes);
        let output = played(&bytes, command, words)?;
        if !output.status.success() || output.stdout != text.as_bytes() {
            println!("seed {seed}, input {number} ({}), kept as {KEPT}: the port ended with {}", STYLES[style], output.status);
            differs(&text, &String::from_utf8_lossy(&output.stdout));
            return Ok(false);
        }
        styles[style] += 1;
        size += bytes.len();
        text.lines().for_each(|line| *lines.entry(sort(line)).or_insert(0) += 1);
    }
    println!("seed {seed}: {count} inputs of {size} bytes, all printed alike and ended well");
    STYLES.iter().zip(styles).for_each(|(name, n)| println!("  {n:8} inputs: {name}"));
    lines.iter().for_each(|(name, n)| println!("  {n:8} lines: {name}"));
    Ok(true)
}

fn played(bytes: &[u8], command: &str, words: &[String]) -> Result<Output, String> {
    std::fs::write(KEPT, bytes).map_err(|e| format!("{KEPT}: {e}"))?;
    let file = File::open(KEPT).map_err(|e| format!("{KEPT}: {e}"))?;
    let output = Command::new(command).args(words).stdin(file).stderr(Stdio::inherit()).output();
    output.map_err(|e| format!("{command}: {e}"))
}

/// An answer with its kind and number; a frame with a NaN or without.
fn sort(line: &str) -> String {
    match &line[..1] {
        "E" => line.into(),
        "F" if line.contains("NAN") => "F, NAN among the outputs".into(),
        other => other.into(),
    }
}

fn differs(rust: &str, port: &str) {
    let place = rust.lines().zip(port.lines()).take_while(|(a, b)| a == b).count();
    let line = |text: &str| text.lines().nth(place).unwrap_or("(no line)").to_string();
    println!("line {}: expected {}, printed {}", place + 1, line(rust), line(port));
}
