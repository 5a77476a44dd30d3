//! A fixed sample of the Rust's answers, for a run of the port with no Rust at hand.

use crate::part::Line;
use crate::random::Random;
use crate::record::{Record, SIZE};
use crate::PARTS;

/// Of each part, about 100 edges and 50 random inputs of each kind; last a record that names no part, after which nothing is answered.
pub fn write(dir: &str) -> Result<(), String> {
    let (mut asked, mut answers, mut line) = (Vec::new(), Vec::new(), Line::default());
    for (number, part) in PARTS.iter().enumerate() {
        for record in records(number) {
            line.clear();
            (part.answer)(&record, &mut line);
            asked.extend(record.0);
            answers.extend(&line.text);
            answers.push(b'\n');
        }
    }
    asked.extend([0xff; SIZE]);
    asked.extend([0; SIZE]);
    answers.extend(b"X\n");
    put(dir, "stdin", &asked)?;
    put(dir, "stdout", &answers)
}

fn records(number: usize) -> Vec<Record> {
    let part = &PARTS[number];
    let edges = (part.edges)();
    let mut records: Vec<Record> = edges.iter().step_by(edges.len() / 100 + 1).copied().collect();
    records.extend(part.random(Random::new(number as u64), 50));
    records
}

fn put(dir: &str, name: &str, bytes: &[u8]) -> Result<(), String> {
    let path = format!("{dir}/{name}");
    std::fs::write(&path, bytes).map_err(|e| format!("{path}: {e}"))
}
