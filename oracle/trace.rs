//! Compares the whole engine of the port with the Rust, through the program `trace` of this repository (README.md beside this file).
//!
//!     trace compare SEED COUNT COMMAND [WORD..]    COMMAND with its words runs the port
//!     trace replay FILE COMMAND [WORD..]           plays one listing on both sides, and shows where they differ
//!     trace sample DIR                             writes DIR/stdin and DIR/stdout
//!
//! Where the first word is `lent`, the port is the program over the calls on a lent record.

use audio_sampler_lib::inside;

#[path = "trace/compare.rs"]
mod compare;
#[path = "trace/engine.rs"]
mod engine;
#[path = "trace/listing.rs"]
mod listing;
#[path = "shared/params.rs"]
mod params;
#[path = "trace/phrases.rs"]
mod phrases;
#[path = "trace/port.rs"]
mod port;
#[path = "trace/puts.rs"]
mod puts;
#[path = "shared/random.rs"]
mod random;
#[path = "shared/record.rs"]
mod record;
#[path = "trace/report.rs"]
mod report;
#[path = "trace/sample.rs"]
mod sample;
#[path = "trace/songs.rs"]
mod songs;
#[path = "trace/table.rs"]
mod table;
#[path = "trace/tally.rs"]
mod tally;
#[path = "trace/text.rs"]
mod text;
#[allow(dead_code)]
#[path = "shared/values.rs"]
mod values;
#[path = "trace/vectors.rs"]
mod vectors;
#[path = "shared/wave.rs"]
mod wave;

use engine::Calls;
use port::Port;
use std::process::ExitCode;

fn main() -> ExitCode {
    // What the Rust says as it panics is no part of the comparison.
    std::panic::set_hook(Box::new(|_| ()));
    let words: Vec<String> = std::env::args().skip(1).collect();
    let words: Vec<&str> = words.iter().map(String::as_str).collect();
    let (calls, words) = match words[..] {
        ["lent", ref words @ ..] => (Calls::Lent, words),
        ref words => (Calls::ByValue, words),
    };
    let ended = match *words {
        ["compare", seed, count, command, ref words @ ..] => match (seed.parse(), count.parse()) {
            (Ok(seed), Ok(count)) => compare::run(seed, count, &Port { calls, command, words }),
            _ => Err("SEED and COUNT are numbers".into()),
        },
        ["replay", path, command, ref words @ ..] => report::replayed(path, &Port { calls, command, words }),
        ["sample", dir] => sample::write(dir).map(|()| true),
        _ => Err("usage: trace [lent] compare SEED COUNT COMMAND [WORD..] | trace [lent] replay FILE COMMAND [WORD..] | trace sample DIR".into()),
    };
    match ended {
        Ok(true) => ExitCode::SUCCESS,
        Ok(false) => ExitCode::FAILURE,
        Err(words) => {
            eprintln!("trace: {words}");
            ExitCode::FAILURE
        }
    }
}
