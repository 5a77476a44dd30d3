//! Plays listings on both sides, and compares what they write.

use crate::engine::{play, Calls};
use crate::listing::bytes;
use crate::port::Port;
use crate::report::{disagreement, edges};
use crate::songs::{listing, STYLES};
use crate::tally::Tally;
use crate::text::Text;
use crate::vectors;
use std::io::{BufReader, BufWriter, Read, Write};

/// Whether all is equal.
pub fn run(seed: u64, count: u64, port: &Port) -> Result<bool, String> {
    vectors::held()?;
    let mut child = port.start()?;
    let input = child.stdin.take().unwrap();
    let writer = std::thread::spawn(move || ask(seed, count, input));
    let output = BufReader::with_capacity(1 << 16, child.stdout.take().unwrap());
    let (tally, differs) = compare(seed, count, port.calls, output)?;
    if let Some(number) = differs {
        child.kill().map_err(|e| e.to_string())?;
        child.wait().map_err(|e| e.to_string())?;
        return disagreement(seed, number, port).map(|()| false);
    }
    writer.join().unwrap().map_err(|e| e.to_string())?;
    child.wait().map_err(|e| e.to_string())?;
    let calls = if port.calls == Calls::Lent { " on a lent record" } else { "" };
    println!("seed {seed}{calls}: {} listings, {} calls, {} fields equal, none differs", tally.listings, tally.calls, tally.fields);
    tally.print();
    edges(port)
}

/// Hands the port a run's listings.
fn ask(seed: u64, count: u64, input: impl Write) -> std::io::Result<()> {
    let mut input = BufWriter::with_capacity(1 << 16, input);
    for number in 0..count {
        input.write_all(&bytes(&listing(seed, number).1))?;
    }
    input.flush()
}

/// What the run has met, and the number of the first listing that is answered otherwise.
fn compare(seed: u64, count: u64, calls: Calls, mut output: impl Read) -> Result<(Tally, Option<u64>), String> {
    let (mut tally, mut rust, mut port) = (Tally::default(), Text::default(), Vec::new());
    let mut styles = vec![0; STYLES.len()];
    for number in 0..count {
        if number % 1000 == 0 {
            eprintln!("{number} of {count} listings, {} calls, {} fields", tally.calls, tally.fields);
        }
        let (style, records) = listing(seed, number);
        rust.clear();
        play(calls, &records, &mut rust, &mut tally);
        port.resize(rust.bytes.len(), 0);
        // A port that has written less has written something else.
        if output.read_exact(&mut port).is_err() || port != rust.bytes {
            return Ok((tally, Some(number)));
        }
        styles[style] += 1;
        tally.listings += 1;
        tally.fields += rust.fields;
    }
    let mut rest = String::new();
    output.read_to_string(&mut rest).map_err(|e| e.to_string())?;
    let made = if calls == Calls::Lent { tally.made() } else { String::new() };
    let told = tally.ways(&rest);
    if told != made {
        return Err(format!("after the last listing the port writes '{told}', not '{made}'"));
    }
    if let Some(way) = tally.seldom().filter(|_| calls == Calls::Lent) {
        tally.print();
        return Err(format!("too few on a lent record go this way: {way}"));
    }
    if let Some(met) = tally.rare() {
        tally.print();
        return Err(format!("too few listings meet this: {met}"));
    }
    tally.styles(STYLES.iter().map(|s| s.name).zip(styles));
    Ok((tally, None))
}
