//! Compares what the tool renders with the Rust's library under a host of its own, word by word (README.md beside this file).
//!
//!     rendered SEED COUNT TOOL FOLDER    the example of README by several options, then COUNT songs and takes made from SEED; FOLDER is written to

#[path = "shared/random.rs"]
mod random;

use audio_sampler_lib::common_types::{InitParams, LoopMode, Note, NoteOffBehaviour, Params};
use audio_sampler_lib::inside::{recording_mut, voices};
use audio_sampler_lib::sampler::Sampler;
use random::Random;
use std::path::{Path, PathBuf};
use std::process::{Command, ExitCode};

/// What both sides are asked for.
#[derive(Clone)]
struct Asked {
    attack: usize,
    decay: usize,
    mode: usize,
    note_off: usize,
    volume: f32,
    pitch: Option<u8>,
    smooth: bool,
    rate: u32,
}

const PLAIN: Asked = Asked { attack: 0, decay: 2205, mode: 1, note_off: 0, volume: 1.0, pitch: None, smooth: false, rate: 44100 };

struct Wave {
    channels: usize,
    rate: u32,
    words: Vec<u32>,
}

fn low4(b: &[u8]) -> u32 {
    u32::from_le_bytes([b[0], b[1], b[2], b[3]])
}

/// A file as the request has it: 58 bytes, then the samples.
fn wave_of(bytes: &[u8]) -> Result<Wave, String> {
    let fits = bytes.len() >= 58 && &bytes[..4] == b"RIFF" && low4(&bytes[4..]) as usize == bytes.len() - 8 && &bytes[8..16] == b"WAVEfmt ";
    let formed = fits && low4(&bytes[16..]) == 18 && bytes[20] == 3 && bytes[34] == 32 && &bytes[38..42] == b"fact" && &bytes[50..54] == b"data";
    if !formed || low4(&bytes[54..]) as usize != bytes.len() - 58 {
        return Err("not the head that 10/12 has".into());
    }
    let channels = bytes[22] as usize;
    let words: Vec<u32> = bytes[58..].chunks(4).map(low4).collect();
    if low4(&bytes[46..]) as usize != words.len() / channels || low4(&bytes[28..]) != low4(&bytes[24..]) * 4 * channels as u32 {
        return Err("a head whose counts disagree".into());
    }
    Ok(Wave { channels, rate: low4(&bytes[24..]), words })
}

fn file_of(wave: &Wave) -> Vec<u8> {
    let size = 4 * wave.words.len() as u32;
    let wide = 4 * wave.channels as u32;
    let mut out = Vec::new();
    let four = |out: &mut Vec<u8>, n: u32| out.extend(n.to_le_bytes());
    out.extend(b"RIFF");
    four(&mut out, size + 50);
    out.extend(b"WAVEfmt ");
    four(&mut out, 18);
    four(&mut out, 3 + ((wave.channels as u32) << 16));
    four(&mut out, wave.rate);
    four(&mut out, wave.rate * wide);
    four(&mut out, wide + (32 << 16));
    out.extend([0, 0]);
    out.extend(b"fact");
    four(&mut out, 4);
    four(&mut out, wave.words.len() as u32 / wave.channels as u32);
    out.extend(b"data");
    four(&mut out, size);
    wave.words.iter().for_each(|w| four(&mut out, *w));
    out
}

struct Cue {
    frame: usize,
    note: Note,
    velocity: u8,
}

/// The lines of `--cues`.
fn cues_of(text: &str) -> Vec<Cue> {
    let cue = |line: &str| {
        let words: Vec<&str> = line.split(' ').collect();
        let number = |i: usize| words[i].parse::<usize>().unwrap();
        let velocity = if words[1] == "start" { number(4) as u8 } else { 0 };
        Cue { frame: number(0), note: Note { note: number(2) as u8, channel: number(3) as u8 }, velocity }
    };
    text.lines().map(cue).collect()
}

fn params_of(asked: &Asked) -> Params {
    let mut p = Params::default();
    p.attack_samples = asked.attack;
    p.decay_samples = asked.decay;
    p.auto_passthru = false;
    p.loop_mode = [LoopMode::PlayOnce, LoopMode::Loop, LoopMode::PingPong][asked.mode].clone();
    p.note_off_behavior = [NoteOffBehaviour::Decay, NoteOffBehaviour::ZeroCrossing, NoteOffBehaviour::DecayAndZeroCrossing][asked.note_off].clone();
    p.volume = asked.volume;
    p.transport.sample_rate = asked.rate as f32;
    p
}

/// The calls that are due, then the frame, from the first to the decay of the last.
fn by_rust(take: &Wave, cues: &[Cue], asked: &Asked) -> Vec<u32> {
    let params = params_of(asked);
    let mut s = Sampler::new(take.channels, &InitParams { auto_passthru: false });
    for (j, channel) in s.channels.iter_mut().enumerate() {
        *recording_mut(channel) = take.words.iter().skip(j).step_by(take.channels).map(|w| f32::from_bits(*w)).collect();
        channel.interpolates = asked.smooth;
    }
    let frames = cues.last().map_or(0, |c| c.frame + asked.decay + 1);
    let mut out = Vec::new();
    let mut next = 0;
    for frame in 0..frames {
        while next < cues.len() && cues[next].frame <= frame {
            called(&mut s, &cues[next], &params, asked.pitch);
            next += 1;
        }
        for j in 0..take.channels {
            out.push(s.process_sample(j, 0.0, &params).to_bits());
        }
    }
    out
}

fn called(s: &mut Sampler, cue: &Cue, params: &Params, pitch: Option<u8>) {
    if cue.velocity == 0 {
        s.stop_playing(cue.note, params);
        return;
    }
    // row 5, which the Rust doesn't have
    if s.channels.iter().any(|c| voices(c).len() >= 32) {
        return;
    }
    s.start_playing(0.0, cue.note, cue.velocity as f32 / 127.0, params);
    if let Some(key) = pitch {
        s.set_note_speed(cue.note, 2f64.powf((cue.note.note as f64 - key as f64) / 12.0) as f32);
    }
}

struct Case {
    take: PathBuf,
    song: PathBuf,
    asked: Asked,
}

fn by_tool(tool: &str, words: &[&str]) -> Result<String, String> {
    let run = Command::new(tool).args(words).output().map_err(|e| e.to_string())?;
    match run.status.code() {
        Some(0) => Ok(String::from_utf8(run.stdout).unwrap()),
        _ => Err(format!("the tool: {}", String::from_utf8_lossy(&run.stderr))),
    }
}

fn pattern(w: u32) -> u32 {
    if f32::from_bits(w).is_nan() { 0x7fc0_0000 } else { w }
}

/// How many words are equal, or where two are not.
fn compared(tool: &str, case: &Case, folder: &Path) -> Result<usize, String> {
    let a = &case.asked;
    let out = folder.join("rendered.wav");
    let (song, take, out_name) = (case.song.to_str().unwrap(), case.take.to_str().unwrap(), out.to_str().unwrap());
    let rate = a.rate.to_string();
    let cues = cues_of(&by_tool(tool, &["--cues", "--song", song, "--rate", &rate])?);
    let (attack, decay, volume) = (a.attack.to_string(), a.decay.to_string(), format!("{:.9}", a.volume));
    let mode = ["once", "loop", "ping-pong"][a.mode];
    let off = ["decay", "crossing", "either"][a.note_off];
    let mut words = vec!["--song", song, "--take", take, "--wav", out_name, "--rate", &rate, "--attack", &attack, "--decay", &decay];
    words.extend(["--volume", &volume, "--loop", mode, "--note-off", off]);
    let key = a.pitch.map(|k| k.to_string()).unwrap_or_default();
    if a.pitch.is_some() {
        words.extend(["--pitch", &key]);
    }
    if a.smooth {
        words.push("--smooth");
    }
    by_tool(tool, &words)?;
    let got = wave_of(&std::fs::read(&out).map_err(|e| e.to_string())?)?;
    let wave = wave_of(&std::fs::read(&case.take).map_err(|e| e.to_string())?)?;
    let wanted = by_rust(&wave, &cues, a);
    if got.channels != wave.channels || got.rate != a.rate || got.words.len() != wanted.len() {
        return Err(format!("{} channels, rate {}, {} words, not {}", got.channels, got.rate, got.words.len(), wanted.len()));
    }
    match (0..wanted.len()).find(|&i| pattern(got.words[i]) != pattern(wanted[i])) {
        Some(i) => Err(format!("word {i} is {:08X}, not {:08X}; {}", got.words[i], wanted[i], words.join(" "))),
        None => Ok(wanted.len()),
    }
}

fn examples() -> Vec<Case> {
    let changed: [fn(&mut Asked); 8] = [
        |_| {},
        |a| a.pitch = Some(60),
        |a| (a.pitch, a.smooth) = (Some(60), true),
        |a| (a.mode, a.attack) = (0, 441),
        |a| (a.mode, a.pitch) = (2, Some(72)),
        |a| (a.note_off, a.decay) = (1, 5000),
        |a| (a.note_off, a.volume) = (2, 0.25),
        |a| (a.attack, a.decay, a.rate) = (100, 100, 44100),
    ];
    let case = |change: &fn(&mut Asked)| {
        let mut asked = PLAIN;
        change(&mut asked);
        Case { take: "examples/take.wav".into(), song: "examples/song.mid".into(), asked }
    };
    changed.iter().map(case).collect()
}

fn random_wave(r: &mut Random) -> Wave {
    let channels = 1 + r.below(2) as usize;
    let samples = [1, 2, 3, 100, 1000, 5000][r.below(6) as usize] as usize;
    let word = |r: &mut Random| match r.below(40) {
        0 => r.pick(&[0, 0x8000_0000, 0x7fc0_0000, 0x7f80_0000, 0x0000_0001, 0x7f7f_ffff]),
        _ => (r.below(2001) as f32 / 1000.0 - 1.0).to_bits(),
    };
    Wave { channels, rate: 44100, words: (0..channels * samples).map(|_| word(r)).collect() }
}

/// A track of starts and stops in ticks of 441 frames or so, at 480 a quarter note.
fn random_song(r: &mut Random) -> Vec<u8> {
    let mut events = Vec::new();
    for _ in 0..r.below(120) {
        let delta = r.pick(&[0, 0, 1, 2, 5, 17]);
        events.extend([delta as u8, 0x90 + r.below(3) as u8, 55 + r.below(12) as u8, r.pick(&[0, 0, 1, 64, 100, 127])]);
    }
    events.extend([0, 0xff, 0x2f, 0]);
    let mut file = b"MThd\0\0\0\x06\0\0\0\x01\x01\xe0MTrk".to_vec();
    file.extend((events.len() as u32).to_be_bytes());
    file.extend(events);
    file
}

fn random_case(r: &mut Random, folder: &Path) -> Case {
    let (take, song) = (folder.join("take.wav"), folder.join("song.mid"));
    std::fs::write(&take, file_of(&random_wave(r))).unwrap();
    std::fs::write(&song, random_song(r)).unwrap();
    let asked = Asked {
        attack: r.pick(&[0, 0, 1, 7, 100]),
        decay: r.pick(&[0, 1, 13, 100, 1000]),
        mode: r.below(3) as usize,
        note_off: r.below(3) as usize,
        volume: r.pick(&[1.0, 0.5, 0.0, 3.25]),
        pitch: r.pick(&[None, Some(60), Some(57), Some(127)]),
        smooth: r.below(3) == 0,
        rate: r.pick(&[44100, 8000, 192000]),
    };
    Case { take, song, asked }
}

fn run(words: &[String]) -> Result<String, String> {
    let [seed, count, tool, folder] = words else { return Err("usage: rendered SEED COUNT TOOL FOLDER".into()) };
    let (seed, count) = (seed.parse().map_err(|_| "a seed is a number")?, count.parse::<usize>().map_err(|_| "a count is a number")?);
    let folder = Path::new(folder);
    let mut r = Random::new(seed);
    let mut equal = 0;
    let fixed = examples();
    for case in &fixed {
        equal += compared(tool, case, folder)?;
    }
    for _ in 0..count {
        let case = random_case(&mut r, folder);
        equal += compared(tool, &case, folder)?;
    }
    Ok(format!("rendered: the example by {} options and {count} songs, {equal} words equal to the Rust's", fixed.len()))
}

fn main() -> ExitCode {
    let words: Vec<String> = std::env::args().skip(1).collect();
    match run(&words) {
        Ok(text) => {
            println!("{text}");
            ExitCode::SUCCESS
        }
        Err(text) => {
            eprintln!("rendered: {text}");
            ExitCode::FAILURE
        }
    }
}
