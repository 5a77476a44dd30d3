//! Runs the port on records, and compares its lines with the Rust's answers.

use crate::clips;
use crate::part::{Function, Line, Part};
use crate::random::Random;
use crate::record::{Record, SIZE};
use crate::PARTS;
use std::io::{BufRead, BufReader, BufWriter, Write};
use std::process::{Command, Stdio};

/// How often a function's answers were equal, how many of those are refusals, and where they differ.
#[derive(Default)]
struct Tally {
    equal: u64,
    refused: u64,
    differ: u64,
    smallest: Option<Difference>,
}

/// A part's tallies, one for each function, and how many inputs of each kind it met.
struct Counts {
    tallies: Vec<Tally>,
    met: Vec<u64>,
}

impl Counts {
    fn of(part: &Part) -> Self {
        Counts { tallies: part.functions.iter().map(|_| Tally::default()).collect(), met: vec![0; part.met.len()] }
    }
}

struct Difference {
    record: Record,
    rust: String,
    port: String,
}

/// A run's records, each with the index of its part: the edges of each part, then `count` random inputs of each kind.
fn records(seed: u64, count: usize) -> impl Iterator<Item = (usize, Record)> {
    PARTS.iter().enumerate().flat_map(move |(number, part)| {
        let r = Random::new(seed.wrapping_mul(0x1_0000).wrapping_add(number as u64));
        (part.edges)().into_iter().chain(part.random(r, count)).map(move |record| (number, record))
    })
}

fn size_of(part: &Part, count: usize) -> usize {
    (part.edges)().len() + part.random.len() * count
}

/// Whether all answers are equal.
pub fn run(seed: u64, count: usize, command: &str, words: &[&str]) -> Result<bool, String> {
    let mut port = Command::new(command)
        .args(words)
        .stdin(Stdio::piped())
        .stdout(Stdio::piped())
        .spawn()
        .map_err(|e| format!("{command}: {e}"))?;
    let input = port.stdin.take().unwrap();
    let writer = std::thread::spawn(move || ask(seed, count, input));
    let counts = compare(seed, count, BufReader::with_capacity(1 << 16, port.stdout.take().unwrap()));
    // A port that ended early breaks the pipe, and `compare` says so.
    let _ = writer.join();
    port.wait().map_err(|e| format!("{command}: {e}"))?;
    let (counts, patterns) = counts?;
    Ok(report(count, &counts, &patterns))
}

/// Hands the port a run's records, and last one that is cut short.
fn ask(seed: u64, count: usize, input: impl Write) -> std::io::Result<()> {
    let mut input = BufWriter::with_capacity(1 << 16, input);
    for (_, record) in records(seed, count) {
        input.write_all(&record.0)?;
    }
    input.write_all(&[0; SIZE - 1])
}

/// What each part was asked and met, and how often each pattern of skipped parts was met by an update of a clip by all four values.
fn compare(seed: u64, count: usize, mut output: impl BufRead) -> Result<(Vec<Counts>, [u64; 16]), String> {
    let mut patterns = [0; 16];
    let mut counts: Vec<Counts> = PARTS.iter().map(Counts::of).collect();
    let (mut rust, mut port) = (Line::default(), Vec::new());
    let total: usize = PARTS.iter().map(|p| size_of(p, count)).sum();
    for (done, (number, record)) in records(seed, count).enumerate() {
        if done % 500_000 == 0 {
            eprintln!("{done} of {total} records");
        }
        let part = &PARTS[number];
        rust.clear();
        (part.answer)(&record, &mut rust);
        port.clear();
        output.read_until(b'\n', &mut port).map_err(|e| e.to_string())?;
        if port.pop() != Some(b'\n') {
            return Err(format!("the port ended after {done} records"));
        }
        if part.name == clips::PART.name {
            clips::skipped(&record).into_iter().for_each(|pattern| patterns[pattern] += 1);
        }
        count_words(&mut counts[number].tallies, part.functions, &record, &rust, &port);
        for (met, (_, is)) in counts[number].met.iter_mut().zip(part.met) {
            *met += is(&record) as u64;
        }
    }
    port.clear();
    output.read_to_end(&mut port).map_err(|e| e.to_string())?;
    if port != b"X\n" {
        return Err("the port did not answer a record that is cut short by X".into());
    }
    Ok((counts, patterns))
}

fn count_words(tallies: &mut [Tally], functions: &[Function], record: &Record, rust: &Line, port: &[u8]) {
    if rust.text == port {
        for (k, tally) in tallies.iter_mut().enumerate() {
            tally.equal += 1;
            tally.refused += rust.refused >> k & 1;
        }
        return;
    }
    // What a line has beyond its functions' answers belongs to the last.
    let mut rusts = rust.text.splitn(functions.len(), |b| *b == b' ');
    let mut ports = port.splitn(functions.len(), |b| *b == b' ');
    for (tally, function) in tallies.iter_mut().zip(functions) {
        let (r, p) = (text(rusts.next()), text(ports.next()));
        if r == p {
            tally.equal += 1;
            continue;
        }
        tally.differ += 1;
        if tally.smallest.as_ref().map_or(true, |d| size(function, record) < size(function, &d.record)) {
            tally.smallest = Some(Difference { record: *record, rust: r, port: p });
        }
    }
}

fn text(word: Option<&[u8]>) -> String {
    word.map_or("nothing".into(), |w| String::from_utf8_lossy(w).into())
}

/// The order of inputs: the fewer ones in a function's arguments the smaller, and among as many, the lower.
fn size(function: &Function, record: &Record) -> (u32, Vec<u8>) {
    let bytes: Vec<u8> = function.args.iter().flat_map(|a| record.0[a.1..a.1 + a.2].to_vec()).collect();
    (bytes.iter().map(|b| b.count_ones()).sum(), bytes)
}

fn report(count: usize, counts: &[Counts], patterns: &[u64; 16]) -> bool {
    let (mut records, mut equal, mut differ) = (0, 0, 0);
    for (part, counts) in PARTS.iter().zip(counts) {
        records += size_of(part, count);
        let random: String = part.random.iter().map(|kind| format!(", {count} {}", kind.0)).collect();
        println!("{}: {} edges{random}", part.name, (part.edges)().len());
        for (function, tally) in part.functions.iter().zip(&counts.tallies) {
            equal += tally.equal;
            differ += tally.differ;
            print_tally(function, tally);
        }
        for ((name, _), met) in part.met.iter().zip(&counts.met) {
            println!("  {name:<40} {met}");
        }
    }
    let each: String = patterns.iter().map(|n| format!(" {n}")).collect();
    println!("updates of a clip by all four values, by which are equal (1 length, 2 speed, 4 data length, 8 mode), from none to all:{each}");
    println!("{records} records, {equal} answers equal, {differ} differ");
    differ == 0
}

fn print_tally(function: &Function, tally: &Tally) {
    let refused = if tally.refused > 0 { format!(", {} of them refusals", tally.refused) } else { String::new() };
    println!("  {:<40} {} equal{refused}", function.name, tally.equal);
    if let Some(d) = &tally.smallest {
        println!("  {:<40} {} DIFFER, the smallest at{}: Rust {}, port {}", function.name, tally.differ, args(function, &d.record), d.rust, d.port);
    }
}

fn args(function: &Function, record: &Record) -> String {
    let hex = |at: usize, width: usize| record.0[at..at + width].iter().map(|b| format!("{b:02X}")).collect::<String>();
    function.args.iter().map(|a| format!(" {}={}", a.0, hex(a.1, a.2))).collect()
}
