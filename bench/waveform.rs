//! Times waveform summaries of the port beside those of the Rust, and compares the bits of their values (docs/BENCHMARKS.md).
//!
//!     waveform [ROUNDS]                           each scenario is run ROUNDS times by each side in turn (9 unless given)
//!     waveform SIDE SAMPLES COLUMNS SUMMARIES     the side, rust or port, alone and once, for a tool that counts instructions

mod clock;
mod port;

use audio_sampler_lib::common_types::InitParams;
use audio_sampler_lib::inside::recording_mut;
use audio_sampler_lib::sampler::Sampler;
use std::process::ExitCode;
use std::time::Duration;

extern "C" {
    fn waveform_main() -> i32;
}

#[derive(Clone, Copy)]
struct Plan {
    samples: u32,
    columns: u32,
    summaries: u32,
}

/// A full recording and a short one, each in as many columns as there may be.
const PLANS: [Plan; 2] = [
    Plan { samples: 1 << 22, columns: 4096, summaries: 10 },
    Plan { samples: 4096, columns: 4096, summaries: 2000 },
];

type Side = fn(Plan) -> Result<(u64, Duration), String>;

fn sample_at(i: u32) -> f32 {
    (i % 1024 * 37 % 64) as f32 / 32.0 - 1.0
}

fn rust(plan: Plan) -> Result<(u64, Duration), String> {
    let begin = clock::now();
    let mut sampler = Sampler::new(1, &InitParams { auto_passthru: false });
    recording_mut(&mut sampler.channels[0]).extend((0..plan.samples).map(sample_at));
    let mut values = vec![];
    for i in 0..plan.summaries {
        recording_mut(&mut sampler.channels[0])[0] = sample_at(i);
        values = sampler.get_waveform_summary(plan.columns as usize).data;
    }
    let bits = |x: &f32| u64::from(if x.is_nan() { 0x7fc0_0000 } else { x.to_bits() });
    Ok((values.iter().map(bits).sum(), clock::now() - begin))
}

fn ported(plan: Plan) -> Result<(u64, Duration), String> {
    let words = [plan.samples, plan.columns, plan.summaries];
    port::played(&words.map(u32::to_be_bytes).concat(), waveform_main)
}

/// Microseconds a summary: a run without them is taken away.
fn timed(side: Side, plan: Plan) -> Result<(u64, f64), String> {
    let (sum, all) = side(plan)?;
    let (_, before) = side(Plan { summaries: 0, ..plan })?;
    Ok((sum, all.saturating_sub(before).as_secs_f64() * 1e6 / f64::from(plan.summaries)))
}

fn run(rounds: u32) -> Result<(), String> {
    println!("{:<32}{:>10}{:>10}{:>8}", "microseconds a summary", "Rust", "port", "ratio");
    for plan in PLANS {
        let mut least = [f64::MAX; 2];
        for _ in 0..rounds {
            let (wanted, time) = timed(rust, plan)?;
            least[0] = least[0].min(time);
            let (got, time) = timed(ported, plan)?;
            least[1] = least[1].min(time);
            if got != wanted {
                return Err(format!("{} samples, {} columns: the values differ", plan.samples, plan.columns));
            }
        }
        let name = format!("{} samples, {} columns", plan.samples, plan.columns);
        println!("{:<32}{:>10.1}{:>10.1}{:>8.2}", name, least[0], least[1], least[1] / least[0]);
    }
    Ok(())
}

fn asked(words: &[String]) -> Result<(), String> {
    let numbers: Vec<u32> = words.iter().filter_map(|w| w.parse().ok()).collect();
    match (words.first().map(String::as_str), &numbers[..]) {
        (None, []) => run(9),
        (Some("rust"), &[samples, columns, summaries]) => rust(Plan { samples, columns, summaries }).map(|_| ()),
        (Some("port"), &[samples, columns, summaries]) => ported(Plan { samples, columns, summaries }).map(|_| ()),
        (Some(_), &[rounds]) if rounds > 0 => run(rounds),
        _ => Err("usage: waveform [ROUNDS] or waveform SIDE SAMPLES COLUMNS SUMMARIES".into()),
    }
}

fn main() -> ExitCode {
    // The port's memory stands on its stack.
    let thread = std::thread::Builder::new().stack_size(1 << 26).spawn(|| asked(&std::env::args().skip(1).collect::<Vec<_>>()));
    match thread.map(|t| t.join()) {
        Ok(Ok(Ok(()))) => ExitCode::SUCCESS,
        Ok(Ok(Err(words))) => {
            eprintln!("waveform: {words}");
            ExitCode::FAILURE
        }
        _ => ExitCode::FAILURE,
    }
}
