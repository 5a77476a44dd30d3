//! Compares the port's small parts with the Rust, through the program `parts` of this repository (README.md beside this file).
//!
//!     parts compare SEED COUNT COMMAND [WORD..]    COMMAND with its words runs the port
//!     parts sample DIR                             writes DIR/stdin and DIR/stdout

#[path = "parts/clips.rs"]
mod clips;
#[path = "parts/compare.rs"]
mod compare;
#[path = "parts/defaults.rs"]
mod defaults;
#[path = "parts/leaves.rs"]
mod leaves;
#[path = "parts/levels.rs"]
mod levels;
#[path = "shared/params.rs"]
mod params;
#[path = "parts/part.rs"]
mod part;
#[path = "shared/random.rs"]
mod random;
#[path = "shared/record.rs"]
mod record;
#[path = "parts/sample.rs"]
mod sample;
#[path = "parts/settings.rs"]
mod settings;
#[path = "shared/values.rs"]
mod values;

use part::Part;
use std::process::ExitCode;

/// The parts by their numbers.
pub const PARTS: &[Part] = &[leaves::PART, settings::PART, levels::PART, defaults::PART, clips::PART];

fn main() -> ExitCode {
    let words: Vec<String> = std::env::args().skip(1).collect();
    let words: Vec<&str> = words.iter().map(String::as_str).collect();
    let ended = match words[..] {
        ["compare", seed, count, command, ref rest @ ..] => match (seed.parse(), count.parse()) {
            (Ok(seed), Ok(count)) => compare::run(seed, count, command, rest),
            _ => Err("SEED and COUNT are numbers".into()),
        },
        ["sample", dir] => sample::write(dir).map(|()| true),
        _ => Err("usage: parts compare SEED COUNT COMMAND [WORD..] | parts sample DIR".into()),
    };
    match ended {
        Ok(true) => ExitCode::SUCCESS,
        Ok(false) => ExitCode::FAILURE,
        Err(words) => {
            eprintln!("parts: {words}");
            ExitCode::FAILURE
        }
    }
}
