//! Compares the port's WAVE files with a reader and a writer written here from request 10/12, through the program of wave.rt.txt (README.md beside this file).
//!
//!     wave SEED COUNT COMMAND [WORD..]    COMMAND with its words runs the port; it is asked about COUNT files, and writes COUNT
//!     wave tools COMMAND [WORD..]         a file that it writes is opened by the tools that are installed, and those that sox and scipy make of it are read

#[path = "shared/random.rs"]
mod random;
#[path = "shared/wave.rs"]
mod wave;

use random::Random;
use std::io::{BufReader, BufWriter, Read, Write};
use std::process::{ChildStdin, ChildStdout, Command, ExitCode, Stdio};
use wave::{four, made, read, words, written};

/// What a memory and an output hold beforehand.
const BEFORE: u32 = 7;

/// Where the recordings of channels 0 and 1 begin in a memory.
type Starts = [usize; 2];

/// Whether so many samples from each start on lie one behind the other in a memory of this size. There are one or two channels.
fn lie(starts: Starts, channels: usize, samples: usize, size: usize) -> bool {
    match channels {
        1 => starts[0] + samples <= size,
        2 => starts[0] + samples <= starts[1] && starts[1] + samples <= size,
        _ => false,
    }
}

// ---- what is written

struct Take {
    rate: u32,
    channels: usize,
    samples: usize,
    starts: Starts,
    memory: Vec<u32>,
    room: usize,
}

impl Take {
    fn file(&self) -> Vec<u8> {
        written(self.rate, self.channels, self.samples, |j, i| self.memory[self.starts[j] + i])
    }

    fn fits(&self) -> bool {
        lie(self.starts, self.channels, self.samples, self.memory.len()) && 58 + 4 * self.channels * self.samples <= self.room
    }

    /// How many bytes are written, and the output.
    fn answer(&self) -> Vec<u8> {
        let file = if self.fits() { self.file() } else { vec![] };
        let mut answer = (file.len() as u32).to_le_bytes().to_vec();
        answer.extend(&file);
        answer.resize(4 + self.room, BEFORE as u8);
        answer
    }
}

// ---- questions

struct Question {
    file: Vec<u8>,
    starts: Starts,
    size: usize,
}

impl Question {
    fn answer(&self) -> Vec<u8> {
        let mut memory = vec![BEFORE; self.size];
        let (mut head, mut loaded) = ([17, 0, 0, 0, 0], 0);
        if let Some(w) = read(&self.file) {
            head = [0, w.rate, w.channels as u32, w.samples as u32, w.first as u32];
            if lie(self.starts, w.channels, w.samples, self.size) {
                loaded = 1;
                for (k, word) in self.file[w.first..].chunks(4).take(w.channels * w.samples).enumerate() {
                    memory[self.starts[k % w.channels] + k / w.channels] = four(word, 0);
                }
            }
        }
        head.iter().chain(&[loaded]).chain(&memory).flat_map(|w| w.to_le_bytes()).collect()
    }
}

fn few(r: &mut Random) -> usize {
    let bound = r.pick(&[1, 4, 40]);
    r.below(bound) as usize
}

/// Starts and a size that fit so many samples, with nothing between them or a little, or are one short.
fn places(r: &mut Random, channels: usize, samples: usize) -> (Starts, usize) {
    let near = |n: usize, r: &mut Random| (n + r.below(4) as usize).max(1) - 1;
    let first = r.pick(&[0, 0, 1, 5]);
    let second = near(first + samples, r);
    let size = near(if channels == 1 { first } else { second } + samples, r);
    ([first, second], size)
}

fn question(r: &mut Random) -> Question {
    let channels = r.pick(&[1, 1, 1, 2, 2, 2, 2, 3, 5, 16_383, 16_384]);
    let samples = if channels > 5 { 0 } else { few(r) };
    let hurt = r.below(3) > 0;
    let file = made(r, channels, samples, hurt);
    let (starts, size) = places(r, channels, samples);
    Question { file, starts, size }
}

fn take(r: &mut Random) -> Take {
    let channels = r.pick(&[0, 1, 1, 1, 2, 2, 2, 2, 3, 16_384]);
    let samples = if channels > 3 { 0 } else { few(r) };
    let (starts, size) = places(r, channels, samples);
    let room = 58 + 4 * channels * samples + r.below(4) as usize - 1;
    let rate = r.pick(&[0, 44_100, 1 << 29, (1 << 29) + 1, u32::MAX]);
    Take { rate, channels, samples, starts, memory: words(r, size), room }
}

// ---- the comparison

struct Port {
    input: BufWriter<ChildStdin>,
    output: BufReader<ChildStdout>,
}

impl Port {
    fn new(command: &str, words: &[String]) -> Result<Self, String> {
        let child = Command::new(command).args(words).stdin(Stdio::piped()).stdout(Stdio::piped()).spawn();
        let mut child = child.map_err(|e| format!("{command}: {e}"))?;
        Ok(Port { input: BufWriter::new(child.stdin.take().unwrap()), output: BufReader::new(child.stdout.take().unwrap()) })
    }

    fn reads(&mut self, q: &Question, wanted: &[u8]) -> Result<bool, String> {
        self.same([0, q.file.len(), q.starts[0], q.starts[1], q.size, 0, 0, 0], &q.file, wanted)
    }

    fn writes(&mut self, t: &Take, wanted: &[u8]) -> Result<bool, String> {
        let memory: Vec<u8> = t.memory.iter().flat_map(|w| w.to_le_bytes()).collect();
        self.same([1, t.rate as usize, t.channels, t.samples, t.starts[0], t.starts[1], t.memory.len(), t.room], &memory, wanted)
    }

    fn same(&mut self, head: [usize; 8], rest: &[u8], wanted: &[u8]) -> Result<bool, String> {
        let words: Vec<u8> = head.iter().flat_map(|&n| (n as u32).to_le_bytes()).collect();
        let asked = self.input.write_all(&words).and_then(|()| self.input.write_all(rest)).and_then(|()| self.input.flush());
        asked.map_err(|e| e.to_string())?;
        let mut answer = vec![0; wanted.len()];
        self.output.read_exact(&mut answer).map_err(|_| "the port ended".to_string())?;
        Ok(answer == wanted)
    }
}

fn compare(seed: u64, count: u64, mut port: Port) -> Result<String, String> {
    let mut r = Random::new(seed);
    let (mut accepted, mut loaded, mut written) = (0, 0, 0);
    for i in 0..count {
        let q = question(&mut r);
        let wanted = q.answer();
        accepted += u64::from(wanted[0] == 0);
        loaded += u64::from(wanted[20]);
        if !port.reads(&q, &wanted)? {
            std::fs::write("target/oracle/wave-input", &q.file).map_err(|e| e.to_string())?;
            return Err(format!("file {i}, starts {:?}, memory {}: the answers differ; it is target/oracle/wave-input", q.starts, q.size));
        }
        let t = take(&mut r);
        let wanted = t.answer();
        written += u64::from(wanted[..4] != [0; 4]);
        if !port.writes(&t, &wanted)? {
            return Err(format!("{} samples of {} channels, starts {:?}, room {}: what is written differs", t.samples, t.channels, t.starts, t.room));
        }
    }
    Ok(format!("{count} files asked about, {accepted} accepted, {loaded} loaded; {count} asked for, {written} written; every field equal"))
}

// ---- tools

/// What a tool says; none where it isn't installed.
fn said(tool: &str, words: &[&str]) -> Option<String> {
    let output = Command::new(tool).args(words).output().ok()?;
    Some(String::from_utf8_lossy(&[output.stdout, output.stderr].concat()).split_whitespace().collect::<Vec<_>>().join(" "))
}

fn tools(mut port: Port) -> Result<String, String> {
    let memory = [0.5f32, -0.25, 1.0 / 3.0, 0.75, -0.125, 0.0].map(f32::to_bits).to_vec();
    let t = Take { rate: 48_000, channels: 2, samples: 3, starts: [0, 3], memory, room: 58 + 24 };
    if !port.writes(&t, &t.answer())? {
        return Err("what is written differs".into());
    }
    let (file, back) = ("target/oracle/wave.wav", "target/oracle/wave-back.wav");
    std::fs::write(file, t.file()).map_err(|e| e.to_string())?;
    let asked: [(&str, &[&str], &[&str]); 3] = [
        ("sox", &["--i", file], &["Channels : 2", "Sample Rate : 48000", "= 3 samples", "32-bit Floating Point PCM"]),
        ("sndfile-info", &[file], &["Sample Rate : 48000", "Frames : 3", "Channels : 2", "fact : 4 frames : 3", "0x3 => WAVE_FORMAT_IEEE_FLOAT"]),
        ("ffprobe", &[file], &["pcm_f32le", "48000 Hz"]),
    ];
    let mut tally = vec![];
    for (tool, words, wanted) in asked {
        match said(tool, words) {
            None => tally.push(format!("{tool} left out")),
            Some(text) if wanted.iter().all(|w| text.contains(w)) => tally.push(format!("{tool} opens it")),
            Some(text) => return Err(format!("{tool} says: {text}")),
        }
    }
    let again = format!("import scipy.io.wavfile as w; w.write('{back}', *w.read('{file}'))");
    let makers: [(&str, &str, &[&str]); 2] =
        [("sox", "sox", &[file, "-b", "32", "-e", "floating-point", back]), ("scipy", "/usr/bin/python3", &["-c", &again])];
    for (maker, tool, words) in makers {
        let _ = std::fs::remove_file(back);
        said(tool, words);
        let Ok(file) = std::fs::read(back) else {
            tally.push(format!("no file of {maker}"));
            continue;
        };
        let q = Question { file, starts: [0, 3], size: 6 };
        let wanted = q.answer();
        if wanted[0] != 0 || wanted[20] != 1 || !port.reads(&q, &wanted)? {
            return Err(format!("the file of {maker} is read otherwise"));
        }
        tally.push(format!("the file of {maker} is loaded"));
    }
    Ok(tally.join(", "))
}

fn asked(words: &[String]) -> Result<String, String> {
    match words {
        [part, command, rest @ ..] if part == "tools" => tools(Port::new(command, rest)?),
        [seed, count, command, rest @ ..] => match (seed.parse(), count.parse()) {
            (Ok(seed), Ok(count)) => compare(seed, count, Port::new(command, rest)?),
            _ => Err("SEED and COUNT are numbers".into()),
        },
        _ => Err("wave SEED COUNT COMMAND [WORD..], or wave tools COMMAND [WORD..]".into()),
    }
}

fn main() -> ExitCode {
    match asked(&std::env::args().skip(1).collect::<Vec<_>>()) {
        Ok(tally) => {
            println!("wave: {tally}");
            ExitCode::SUCCESS
        }
        Err(difference) => {
            println!("wave: {difference}");
            ExitCode::FAILURE
        }
    }
}
