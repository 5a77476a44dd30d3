//! A fixed list of the Rust's answers, for a run of the port with no Rust at hand.

use crate::engine::{play, Calls};
use crate::listing::bytes;
use crate::record::{Record, SIZE};
use crate::songs::{listing, STYLES};
use crate::table;
use crate::tally::Tally;
use crate::text::Text;

/// The table's edges and refusals; then of each style two listings of seed 0, neither trivial nor long: those with the shortest answers from
/// 6,000 bytes on, if these are below 64 KB; last a record of no kind, after which nothing is answered.
pub fn write(dir: &str) -> Result<(), String> {
    let mut asked = bytes(&table::listing());
    let mut answered = answers(&table::listing());
    for style in 0..STYLES.len() {
        for (text, records) in shortest(style).into_iter().filter(|l| l.0.len() < 1 << 16).take(2) {
            asked.extend(bytes(&records));
            answered.extend(text);
        }
    }
    asked.extend([0xff; SIZE]);
    asked.extend([0; SIZE]);
    answered.extend(b"X\n");
    put(dir, "stdin", &asked)?;
    put(dir, "stdout", &answered)
}

fn shortest(style: usize) -> Vec<(Vec<u8>, Vec<Record>)> {
    let listings = (0..5000).map(|number| listing(0, number)).filter(|l| l.0 == style);
    let mut answered: Vec<_> = listings.map(|(_, records)| (answers(&records), records)).filter(|l| l.0.len() >= 6000).collect();
    answered.sort_by_key(|l| l.0.len());
    answered
}

fn answers(records: &[Record]) -> Vec<u8> {
    let mut text = Text::default();
    play(Calls::ByValue, records, &mut text, &mut Tally::default());
    text.bytes
}

fn put(dir: &str, name: &str, bytes: &[u8]) -> Result<(), String> {
    let path = format!("{dir}/{name}");
    std::fs::write(&path, bytes).map_err(|e| format!("{path}: {e}"))
}
