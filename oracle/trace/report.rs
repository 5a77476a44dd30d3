//! A disagreement: the listing, cut down to what it takes, and where the two sides differ.

use crate::engine::{play, Calls};
use crate::listing::{bytes, describe};
use crate::port::Port;
use crate::record::Record;
use crate::songs::{listing, STYLES};
use crate::table;
use crate::tally::Tally;
use crate::text::{Text, CHANNEL, PHRASE, VOICE};

/// The first line at which the two sides differ: its number, and both.
struct Difference {
    line: usize,
    rust: String,
    port: String,
}

pub fn disagreement(seed: u64, number: u64, port: &Port) -> Result<(), String> {
    let (style, records) = listing(seed, number);
    println!("listing {number} of seed {seed} ({}, {} records) is answered otherwise", STYLES[style].name, records.len());
    if difference(&records, port)?.is_none() {
        return Err("played by itself it is answered alike: the port keeps something from the listings before it".into());
    }
    let small = cut(records, port)?;
    let path = format!("target/oracle/{seed}-{number}.listing");
    std::fs::write(&path, bytes(&small)).map_err(|e| format!("{path}: {e}"))?;
    println!("cut down to {} records, kept as {path}:", small.len());
    show(&small, port)
}

/// Whether the listing of the edges is answered alike. Where it isn't, the line is shown.
pub fn edges(port: &Port) -> Result<bool, String> {
    let records = table::listing();
    let Some(d) = difference(&records, port)? else {
        println!("the listing of the edges: {} records, none differs", records.len());
        return Ok(true);
    };
    println!("listing of the edges ({} records) is answered otherwise", records.len());
    print(&d);
    Ok(false)
}

/// Prints a listing, and where the two sides differ on it. Whether they are equal.
pub fn replayed(path: &str, port: &Port) -> Result<bool, String> {
    let input = std::fs::read(path).map_err(|e| format!("{path}: {e}"))?;
    let records: Vec<Record> = input.chunks_exact(64).map(|c| Record(c.try_into().unwrap())).collect();
    show(&records, port)?;
    Ok(difference(&records, port)?.is_none())
}

fn show(records: &[Record], port: &Port) -> Result<(), String> {
    for r in records {
        println!("  {}", describe(r));
    }
    let Some(d) = difference(records, port)? else {
        println!("both sides answer alike");
        return Ok(());
    };
    print(&d);
    Ok(())
}

fn print(d: &Difference) {
    println!("line {} differs{}", d.line + 1, names(d));
    println!("  rust {}\n  port {}", d.rust, d.port);
}

/// Drops records, many at once and then fewer, while the two sides still differ.
fn cut(mut records: Vec<Record>, port: &Port) -> Result<Vec<Record>, String> {
    let mut size = records.len() / 2;
    while size > 0 {
        let (mut at, before) = (0, records.len());
        while at < records.len() {
            let mut fewer = records.clone();
            fewer.drain(at..(at + size).min(records.len()));
            if difference(&fewer, port)?.is_some() {
                records = fewer;
            } else {
                at += size;
            }
        }
        if size > 1 || records.len() == before {
            size /= 2;
        }
    }
    Ok(records)
}

fn difference(records: &[Record], port: &Port) -> Result<Option<Difference>, String> {
    let mut text = Text::default();
    let mut tally = Tally::default();
    play(port.calls, records, &mut text, &mut tally);
    if port.calls == Calls::Lent {
        text.bytes.extend(tally.made().bytes());
    }
    let words = |bytes: Vec<u8>| String::from_utf8_lossy(&bytes).into_owned();
    let (rust, port) = (words(text.bytes), tally.ways(&words(port.answer(bytes(records))?)));
    if rust == port {
        return Ok(None);
    }
    let (mut rusts, mut ports) = (rust.lines(), port.lines());
    let mut line = 0;
    loop {
        let (r, p) = (rusts.next(), ports.next());
        if r != p || r.is_none() {
            let or_none = |x: Option<&str>| x.unwrap_or("nothing").into();
            return Ok(Some(Difference { line, rust: or_none(r), port: or_none(p) }));
        }
        line += 1;
    }
}

/// The names of the fields that differ, where both lines are of a channel, of a phrase or of a voice.
fn names(d: &Difference) -> String {
    let words = |line: &str| line.split([' ', ':']).map(String::from).collect::<Vec<_>>();
    let (rust, port) = (words(&d.rust), words(&d.port));
    let names: &[&str] = match rust[0].as_str() {
        "C" => &CHANNEL,
        "P" => &PHRASE,
        "V" => &VOICE,
        _ => return String::new(),
    };
    if rust[0] != port[0] {
        return String::new();
    }
    let differ: Vec<&str> = names.iter().enumerate().filter(|(k, _)| rust.get(k + 1) != port.get(k + 1)).map(|(_, n)| *n).collect();
    format!(", at {}", differ.join(", "))
}
