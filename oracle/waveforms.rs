//! Compares the port's waveform summaries with the Rust's, through the program of waveforms.rt.txt (README.md beside this file).
//!
//!     waveforms SEED COUNT COMMAND [WORD..]    COMMAND with its words runs the port; COUNT random recordings follow those at the edges

#[path = "shared/random.rs"]
#[allow(dead_code)]
mod random;
#[path = "shared/values.rs"]
#[allow(dead_code)]
mod values;

use audio_sampler_lib::common_types::InitParams;
use audio_sampler_lib::inside::recording_mut;
use audio_sampler_lib::sampler::Sampler;
use random::Random;
use std::io::{BufReader, BufWriter, Read, Write};
use std::process::{ChildStdin, ChildStdout, Command, ExitCode, Stdio};
use values::hostile_float;

/// The port's memory, and the longest list.
const MEMORY: usize = 262_144;
const LONGEST: usize = 4100;

/// 1e30, whose square is too large, 1e-30, whose square is too small, subnormal floats, infinities, NaNs, and either zero.
const HOSTILE: [u32; 12] = [
    0x7149_f2ca, 0x0da2_4260, 0x0000_0001, 0x807f_ffff, 0x7f80_0000, 0xff80_0000, 0x7fc0_0000, 0x7f80_0001, 0xffff_ffff, 0x8000_0000, 0x0000_0000,
    0x7f7f_ffff,
];

struct Question {
    samples: Vec<u32>,
    columns: usize,
    room: usize,
    size: usize,
}

/// What is answered: the number, the extremes, and the list.
#[derive(PartialEq)]
struct Answer(Vec<u32>);

fn pattern(x: f32) -> u32 {
    if x.is_nan() { 0x7fc0_0000 } else { x.to_bits() }
}

impl Question {
    /// Rows 9, 11 and 8, which the Rust doesn't have.
    fn number(&self) -> u32 {
        match () {
            _ if self.size < MEMORY => 9,
            _ if self.columns > 4096 => 11,
            _ if self.room < self.columns => 8,
            _ => 0,
        }
    }

    fn rust(&self) -> Answer {
        let number = self.number();
        let mut list = vec![7.0; self.room];
        let mut extremes = [0.0, 0.0];
        if number == 0 {
            let mut sampler = Sampler::new(1, &InitParams { auto_passthru: false });
            recording_mut(&mut sampler.channels[0]).extend(self.samples.iter().map(|&p| f32::from_bits(p)));
            let summary = sampler.get_waveform_summary(self.columns);
            list[..self.columns].copy_from_slice(&summary.data);
            extremes = [summary.min, summary.max];
        }
        Answer([number].into_iter().chain(extremes.into_iter().chain(list).map(pattern)).collect())
    }

    fn ask(&self, port: &mut impl Write) -> std::io::Result<()> {
        let head = [self.samples.len(), self.columns, self.room, self.size].map(|n| n as u32);
        for word in head.iter().chain(&self.samples) {
            port.write_all(&word.to_le_bytes())?;
        }
        port.flush()
    }

    fn read(&self, port: &mut impl Read) -> Result<Answer, String> {
        let mut bytes = vec![0; (3 + self.room) * 4];
        port.read_exact(&mut bytes).map_err(|_| "the port ended".to_string())?;
        Ok(Answer(bytes.chunks(4).map(|b| u32::from_le_bytes(b.try_into().unwrap())).collect()))
    }
}

fn samples(r: &mut Random, count: usize, hostile: bool) -> Vec<u32> {
    let ordinary = |r: &mut Random| ((r.below(2_000_001) as f32 - 1e6) / 1e6).to_bits();
    (0..count)
        .map(|_| match r.below(16) {
            0 if hostile => r.pick(&HOSTILE),
            1 if hostile => hostile_float(r),
            _ => ordinary(r),
        })
        .collect()
}

/// Recordings of each length in each number of columns, ordinary and hostile, with a list that just fits, one longer and one short; and one sample of memory
/// too few.
fn edges(r: &mut Random) -> Vec<Question> {
    let mut questions = Vec::new();
    for length in [0, 1, 2, 7, 14, 31, 100, 4095, 4096, 4097, 65_537, MEMORY] {
        for columns in [0, 1, 2, 7, 41, 46, 1000, 4095, 4096, 4097] {
            for (hostile, room) in [(false, columns), (true, columns), (true, columns + 3), (false, columns.max(1) - 1)] {
                questions.push(Question { samples: samples(r, length, hostile), columns, room: room.min(LONGEST), size: MEMORY });
            }
        }
        questions.push(Question { samples: samples(r, length, true), columns: 5000, room: 0, size: MEMORY - 1 });
    }
    for hostile in HOSTILE {
        questions.push(Question { samples: vec![hostile; 9], columns: 4, room: 6, size: MEMORY });
    }
    questions
}

fn random(r: &mut Random) -> Question {
    let bound = r.pick(&[40, 400, 5000]);
    let length = r.below(bound) as usize;
    let columns = r.below(bound.min(4098)) as usize;
    let room = (columns + r.below(3) as usize).max(1) - 1;
    let hostile = r.below(2) == 0;
    Question { samples: samples(r, length, hostile), columns, room, size: MEMORY }
}

fn compare(seed: u64, count: u64, command: &str, words: &[String]) -> Result<(u64, u64), String> {
    let port = Command::new(command).args(words).stdin(Stdio::piped()).stdout(Stdio::piped()).spawn();
    let mut port = port.map_err(|e| format!("{command}: {e}"))?;
    let mut input: BufWriter<ChildStdin> = BufWriter::new(port.stdin.take().unwrap());
    let mut output: BufReader<ChildStdout> = BufReader::new(port.stdout.take().unwrap());
    let mut r = Random::new(seed);
    let at_edges = edges(&mut r);
    let (mut asked, mut equal) = (0, 0);
    for question in at_edges.into_iter().chain((0..count).map(|_| random(&mut r))) {
        question.ask(&mut input).map_err(|e| e.to_string())?;
        let rust = question.rust();
        for form in ["by value", "on a lent record"] {
            let answer = question.read(&mut output)?;
            if answer != rust {
                let place = rust.0.iter().zip(&answer.0).position(|(a, b)| a != b).unwrap();
                return Err(format!(
                    "{} samples, {} columns, room {}, {form}: word {place} is {:08X} in Rust and {:08X} in the port",
                    question.samples.len(), question.columns, question.room, rust.0[place], answer.0[place]
                ));
            }
            equal += rust.0.len() as u64;
        }
        asked += 1;
    }
    drop(input);
    port.wait().map_err(|e| format!("{command}: {e}"))?;
    Ok((asked, equal))
}

fn main() -> ExitCode {
    let words: Vec<String> = std::env::args().skip(1).collect();
    let numbers: Vec<u64> = words.iter().take(2).filter_map(|w| w.parse().ok()).collect();
    let ([seed, count], [_, _, command, rest @ ..]) = (&numbers[..], &words[..]) else {
        eprintln!("waveforms SEED COUNT COMMAND [WORD..]");
        return ExitCode::from(2);
    };
    match compare(*seed, *count, command, rest) {
        Ok((asked, equal)) => {
            println!("waveforms: {asked} summaries by value and on a lent record, {equal} values equal");
            ExitCode::SUCCESS
        }
        Err(difference) => {
            println!("waveforms: {difference}");
            ExitCode::FAILURE
        }
    }
}
