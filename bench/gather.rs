//! Times gathers over the port's calls, of two channels of 2^22 samples with eight phrases each, all of which move, and holds the memory that they leave to one
//! that is moved here (docs/BENCHMARKS.md).
//!
//!     gather [ROUNDS]    each call is timed ROUNDS times (9 unless given)

mod clock;
mod port;

use std::process::ExitCode;

extern "C" {
    fn gather_main() -> i32;
}

/// How many calls a round has, and how many samples a channel and a phrase.
const CALLS: u32 = 4;
const SAMPLES: usize = 1 << 22;
const LENGTH: usize = SAMPLES / 8 - 1;

/// As the port numbers them.
const NAMES: [&str; 2] = ["gather, lent", "gather, by value"];

fn word_at(i: u32) -> u32 {
    1056964608 + i % 65536 * 37 % 4096
}

/// What so many gathers leave.
fn wanted() -> u64 {
    let mut memory: Vec<u32> = (0..2 * SAMPLES as u32).map(word_at).collect();
    for round in 0..CALLS {
        memory[1] = word_at(round);
        for part in memory.chunks_mut(SAMPLES) {
            for k in 0..8 {
                let start = k * (LENGTH + 1) + 1;
                part.copy_within(start..start + LENGTH, k * LENGTH);
            }
        }
    }
    memory.into_iter().fold(0u32, |x, word| x.wrapping_mul(1664525).wrapping_add(word)).into()
}

/// Nanoseconds a word of a call: a run without it is taken away.
fn timed(call: u32, wanted: u64) -> Result<f64, String> {
    let plan = |calls: u32| [call, calls].map(u32::to_be_bytes).concat();
    let (left, all) = port::played(&plan(CALLS), gather_main)?;
    let (_, before) = port::played(&plan(0), gather_main)?;
    if left != wanted {
        return Err(format!("{}: what it leaves differs", NAMES[call as usize]));
    }
    Ok(all.saturating_sub(before).as_secs_f64() * 1e9 / f64::from(CALLS) / (16 * LENGTH) as f64)
}

fn run(rounds: u32) -> Result<(), String> {
    let wanted = wanted();
    println!("{:<24}{:>10}{:>10}", "ns a word", "least", "middle");
    for call in 0..2 {
        let times: Result<Vec<f64>, String> = (0..rounds).map(|_| timed(call, wanted)).collect();
        let mut times = times?;
        times.sort_by(f64::total_cmp);
        println!("{:<24}{:>10.2}{:>10.2}", NAMES[call as usize], times[0], times[times.len() / 2]);
    }
    Ok(())
}

fn main() -> ExitCode {
    let rounds = std::env::args().nth(1).map_or(Some(9), |w| w.parse().ok()).filter(|n| *n > 0);
    let Some(rounds) = rounds else {
        eprintln!("usage: gather [ROUNDS]");
        return ExitCode::FAILURE;
    };
    // The port's memory stands on its stack.
    let thread = std::thread::Builder::new().stack_size(1 << 28).spawn(move || run(rounds));
    match thread.map(|t| t.join()) {
        Ok(Ok(Ok(()))) => ExitCode::SUCCESS,
        Ok(Ok(Err(words))) => {
            eprintln!("gather: {words}");
            ExitCode::FAILURE
        }
        _ => ExitCode::FAILURE,
    }
}
