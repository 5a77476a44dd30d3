//! Times the port beside the Rust that it is ported from, in one run and on the same scenarios, and compares the bits of all outputs (docs/BENCHMARKS.md).
//! The Rust is there twice: as `-O` compiles it, and as one module. So is the port: by its engine on one lent record, and by the plain engine on two.
//!
//!     bench [ROUNDS]                each scenario is played ROUNDS times by each side in turn (9 unless given); a table is printed
//!     bench rows FRAMES             a line for each scenario: how many samples or calls so many turns of it are, and its name
//!     bench count SIDE ROW FRAMES   the scenario of that line (from 0), so many turns, once by one side (0 to 3), for a tool that counts instructions
//!     bench idle SIDE ROW FRAMES    the same without what is to be counted

mod clock;
mod original;
#[allow(dead_code)]
#[path = "../oracle/shared/params.rs"]
mod params;
mod port;
#[allow(dead_code)]
#[path = "../oracle/shared/random.rs"]
mod random;
#[allow(dead_code)]
#[path = "../oracle/shared/record.rs"]
mod record;
mod scenario;
#[allow(dead_code)]
#[path = "../oracle/shared/values.rs"]
mod values;

use scenario::{Scenario, SCENARIOS};
use std::process::ExitCode;
use std::time::Duration;

extern "C" {
    /// The port's engines, each twice, to play frame by frame and in runs.
    fn port_main() -> i32;
    fn runs_main() -> i32;
    fn backed_main() -> i32;
    fn backed_runs_main() -> i32;
    fn whole_played(row: u32, frames: u32, idle: bool) -> u64;
}

/// A row of the scenarios, how many turns of it, and whether what is timed is left out.
#[derive(Clone, Copy)]
struct Job {
    row: u32,
    frames: u32,
    idle: bool,
}

impl Job {
    fn scenario(&self) -> Scenario {
        scenario::of(self.row, self.frames, self.idle)
    }
}

/// The sum that a side gives, and the time that it took.
type Side = fn(Job) -> Result<(u64, Duration), String>;

const SIDES: [Side; 4] = [rust, whole, ported, backed];

fn rust(job: Job) -> Result<(u64, Duration), String> {
    Ok(timed(|| original::played(&job.scenario())))
}

fn whole(job: Job) -> Result<(u64, Duration), String> {
    Ok(timed(|| unsafe { whole_played(job.row, job.frames, job.idle) }))
}

fn ported(job: Job) -> Result<(u64, Duration), String> {
    let scenario = job.scenario();
    port::played(&scenario.bytes(), if scenario.run > 1 { runs_main } else { port_main })
}

fn backed(job: Job) -> Result<(u64, Duration), String> {
    let scenario = job.scenario();
    port::played(&scenario.bytes(), if scenario.run > 1 { backed_runs_main } else { backed_main })
}

fn timed(played: impl Fn() -> u64) -> (u64, Duration) {
    let begin = clock::now();
    let sum = played();
    (sum, clock::now() - begin)
}

/// Of one side, a time for each round: with what is timed, and without it.
#[derive(Default)]
struct Times {
    all: Vec<Duration>,
    idle: Vec<Duration>,
}

/// Of one side: the least time and the middle one, in nanoseconds a sample or a call.
struct Figures {
    least: f64,
    middle: f64,
}

impl Times {
    fn figures(mut self, units: u32) -> Figures {
        self.all.sort();
        self.idle.sort();
        let at = |k: usize| (self.all[k].as_nanos() as f64 - self.idle[k].as_nanos() as f64) / f64::from(units);
        Figures { least: at(0), middle: at(self.all.len() / 2) }
    }
}

/// Each side once, and the sums of all of them.
fn round(job: Job, times: &mut [Times; 4]) -> Result<Vec<[u64; 2]>, String> {
    let mut sums = Vec::new();
    for (side, times) in SIDES.iter().zip(times) {
        let (sum, all) = side(job)?;
        let (rest, idle) = side(Job { idle: true, ..job })?;
        times.all.push(all);
        times.idle.push(idle);
        sums.push([sum, rest]);
    }
    Ok(sums)
}

fn row_figures(row: u32, rounds: u32) -> Result<[Figures; 4], String> {
    let scenario = &SCENARIOS[row as usize];
    let mut times: [Times; 4] = Default::default();
    for _ in 0..rounds {
        let sums = round(Job { row, frames: scenario.frames, idle: false }, &mut times)?;
        if sums.iter().any(|sum| *sum != sums[0]) {
            return Err(format!("{}: the outputs differ", scenario.name));
        }
    }
    Ok(times.map(|t| t.figures(scenario.units())))
}

/// A side's time as a part of another's. What is below a nanosecond is lost beside what is taken away.
fn ratio(of: &Figures, side: &Figures) -> String {
    if side.least < 1.0 {
        return "-".into();
    }
    format!("{:.2}", of.least / side.least)
}

fn run(rounds: u32) -> Result<(), String> {
    println!("| {:<43} | Rust -O | Rust lto |    port |   plain | port / -O | port / lto | plain / -O | plain / port | middle/least           |", "ns a sample or call");
    println!("|{}|", ["---"; 10].join("|"));
    for (row, scenario) in SCENARIOS.iter().enumerate() {
        eprint!("\r{} of {}: {:<50}", row + 1, SCENARIOS.len(), scenario.name);
        let [rust, whole, port, plain] = row_figures(row as u32, rounds)?;
        eprint!("\r{:<70}\r", "");
        print!("| {:<43} | {:>7.1} | {:>8.1} | {:>7.1} | {:>7.1} ", scenario.name, rust.least, whole.least, port.least, plain.least);
        print!("| {:>9} | {:>10} ", ratio(&port, &rust), ratio(&port, &whole));
        print!("| {:>10} | {:>12} ", ratio(&plain, &rust), ratio(&plain, &port));
        println!("| {} |", [rust, whole, port, plain].map(|f| format!("{:.2}", f.middle / f.least)).join(", "));
    }
    eprintln!("all outputs equal, bit for bit");
    Ok(())
}

fn rows(frames: u32) -> Result<(), String> {
    (0..SCENARIOS.len() as u32).map(|row| scenario::of(row, frames, false)).for_each(|s| println!("{} {}", s.units(), s.name));
    Ok(())
}

fn once(side: u32, job: Job) -> Result<(), String> {
    let side = SIDES.get(side as usize).ok_or("no such side")?;
    SCENARIOS.get(job.row as usize).ok_or("no such row")?;
    side(job).map(|_| ())
}

fn main() -> ExitCode {
    let words: Vec<String> = std::env::args().skip(1).collect();
    let numbers: Vec<Option<u32>> = words.iter().map(|w| w.parse().ok()).collect();
    let ended = match (words.first().map(String::as_str), &numbers[..]) {
        (None, _) => run(9),
        (_, &[Some(rounds)]) if rounds > 0 => run(rounds),
        (Some("rows"), &[_, Some(frames)]) => rows(frames),
        (Some(word @ ("count" | "idle")), &[_, Some(side), Some(row), Some(frames)]) => once(side, Job { row, frames, idle: word == "idle" }),
        _ => Err("usage: bench [ROUNDS], bench rows FRAMES, or bench count (or idle) SIDE ROW FRAMES".into()),
    };
    match ended {
        Ok(()) => ExitCode::SUCCESS,
        Err(words) => {
            eprintln!("bench: {words}");
            ExitCode::FAILURE
        }
    }
}
