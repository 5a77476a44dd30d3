//! Times recordings written as WAVE files and read, over the port's calls, on two channels of 2^22 samples, and holds what they leave to a writer of the
//! comparison's own (docs/BENCHMARKS.md).
//!
//!     wave [ROUNDS]    each call is timed ROUNDS times (9 unless given)

mod clock;
mod port;
#[allow(dead_code)]
#[path = "../oracle/shared/random.rs"]
mod random;
#[allow(dead_code)]
#[path = "../oracle/shared/wave.rs"]
mod wave;

use std::process::ExitCode;

extern "C" {
    fn wave_main() -> i32;
}

/// How many calls a round has, and how many samples a channel.
const CALLS: u32 = 4;
const SAMPLES: usize = 1 << 22;

/// As the port numbers them.
const NAMES: [&str; 4] = ["write_wave, lent", "read_wave, lent", "write_wave, by value", "read_wave, by value"];

fn word_at(i: u32) -> u32 {
    1056964608 + i % 65536 * 37 % 4096
}

fn mixed(words: impl Iterator<Item = u32>) -> u64 {
    words.fold(0u32, |x, word| x.wrapping_mul(1664525).wrapping_add(word)).into()
}

/// What so many rounds of a write and of a read leave: the last round's first word, and the file that the first write made with the last round's byte.
fn wanted() -> [u64; 2] {
    let word = |first: u32, place: usize| if place == 0 { first } else { word_at(place as u32) };
    let file = |first: u32| wave::written(44_100, 2, SAMPLES, |j, i| word(first, j * SAMPLES + i));
    let read = word_at(0) & !0xff | (CALLS - 1);
    [mixed(file(word_at(CALLS - 1)).into_iter().map(u32::from)), mixed((0..2 * SAMPLES).map(|place| word(read, place)))]
}

/// Nanoseconds a sample of a call: a run without it is taken away.
fn timed(call: u32, wanted: u64) -> Result<f64, String> {
    let plan = |calls: u32| [call, SAMPLES as u32, calls].map(u32::to_be_bytes).concat();
    let (left, all) = port::played(&plan(CALLS), wave_main)?;
    let (_, before) = port::played(&plan(0), wave_main)?;
    if left != wanted {
        return Err(format!("{}: what it leaves differs", NAMES[call as usize]));
    }
    Ok(all.saturating_sub(before).as_secs_f64() * 1e9 / f64::from(CALLS) / (2 * SAMPLES) as f64)
}

fn run(rounds: u32) -> Result<(), String> {
    let wanted = wanted();
    println!("{:<24}{:>10}{:>10}", "ns a sample", "least", "middle");
    for call in 0..4 {
        let times: Result<Vec<f64>, String> = (0..rounds).map(|_| timed(call, wanted[call as usize % 2])).collect();
        let mut times = times?;
        times.sort_by(f64::total_cmp);
        println!("{:<24}{:>10.2}{:>10.2}", NAMES[call as usize], times[0], times[times.len() / 2]);
    }
    Ok(())
}

fn main() -> ExitCode {
    let rounds = std::env::args().nth(1).map_or(Some(9), |w| w.parse().ok()).filter(|n| *n > 0);
    let Some(rounds) = rounds else {
        eprintln!("usage: wave [ROUNDS]");
        return ExitCode::FAILURE;
    };
    // The port's memory and file stand on its stack.
    let thread = std::thread::Builder::new().stack_size(1 << 28).spawn(move || run(rounds));
    match thread.map(|t| t.join()) {
        Ok(Ok(Ok(()))) => ExitCode::SUCCESS,
        Ok(Ok(Err(words))) => {
            eprintln!("wave: {words}");
            ExitCode::FAILURE
        }
        _ => ExitCode::FAILURE,
    }
}
