//! Plays event listings, good, damaged and random, on the port's program `events` and on the Rust, and compares all that they print
//! (README.md beside this file).
//!
//!     events SEED COUNT COMMAND [WORD..]    COMMAND with its words runs the port, anew for each input

use audio_sampler_lib::inside;

#[path = "events/compare.rs"]
mod compare;
#[path = "events/decode.rs"]
mod decode;
#[allow(dead_code)]
#[path = "trace/engine.rs"]
mod engine;
#[path = "events/inputs.rs"]
mod inputs;
#[allow(dead_code)]
#[path = "trace/listing.rs"]
mod listing;
#[path = "shared/params.rs"]
mod params;
#[allow(dead_code)]
#[path = "trace/phrases.rs"]
mod phrases;
#[path = "events/print.rs"]
mod print;
#[allow(dead_code)]
#[path = "trace/puts.rs"]
mod puts;
#[path = "shared/random.rs"]
mod random;
#[path = "shared/record.rs"]
mod record;
#[allow(dead_code)]
#[path = "trace/tally.rs"]
mod tally;
#[allow(dead_code)]
#[path = "trace/text.rs"]
mod text;
#[allow(dead_code)]
#[path = "shared/values.rs"]
mod values;
#[allow(dead_code)]
#[path = "shared/wave.rs"]
mod wave;

use std::process::ExitCode;

fn main() -> ExitCode {
    // What the Rust says as it panics is no part of the comparison.
    std::panic::set_hook(Box::new(|_| ()));
    let words: Vec<String> = std::env::args().skip(1).collect();
    let ended = match &words[..] {
        [seed, count, command, words @ ..] => match (seed.parse(), count.parse()) {
            (Ok(seed), Ok(count)) => compare::run(seed, count, command, words),
            _ => Err("SEED and COUNT are numbers".into()),
        },
        _ => Err("usage: events SEED COUNT COMMAND [WORD..]".into()),
    };
    match ended {
        Ok(true) => ExitCode::SUCCESS,
        Ok(false) => ExitCode::FAILURE,
        Err(words) => {
            eprintln!("events: {words}");
            ExitCode::FAILURE
        }
    }
}
