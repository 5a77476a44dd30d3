//! What a run has met: each call by its answer, and what happened in the engine.

use crate::engine::Engine;
use crate::inside;
use crate::listing::*;
use crate::phrases::Phrases;
use crate::puts;
use crate::record::Record;
use audio_sampler_lib::common_types::Params;
use audio_sampler_lib::sampler::Channel;
use audio_sampler_lib::volume::Volume;
use std::collections::BTreeMap;

/// How many voices there are on all channels, and how many of them are in some state; and what stands in the recorders.
pub struct Census {
    voices: usize,
    finished: usize,
    ramps: usize,
    shifted: usize,
    crossing: usize,
    clocks: usize,
    recorded: usize,
    recording: usize,
    skipped: u64,
    passing: usize,
    smooth: usize,
    broken: bool,
    sides: Vec<Side>,
}

/// What a channel has of phrases.
struct Side {
    clock: usize,
    skipped: u64,
    /// How many aren't empty, and where they begin in sum.
    filled: (usize, usize),
    /// Whether its voices are of two or more, and how many are of an empty one.
    spread: bool,
    resting: usize,
    /// The chosen one.
    empty: bool,
    last: bool,
    start: usize,
}

impl Side {
    fn of(c: &Channel, p: &Phrases, skipped: u64) -> Self {
        let empty = inside::recording(c).is_empty();
        Side {
            clock: inside::clock(c),
            skipped,
            filled: p.filled(c),
            spread: p.spread(),
            resting: p.resting(c),
            empty,
            last: p.is_last(),
            start: if empty { 0 } else { p.start() },
        }
    }

    /// Which phrase is chosen, where there are others.
    fn chosen(&self) -> &'static str {
        match (self.empty, self.last) {
            _ if self.filled.0 <= !self.empty as usize => "the only one",
            (true, _) => "an empty one, others are there",
            (_, true) => "the last one, others are there",
            _ => "one that isn't last",
        }
    }
}

impl Census {
    pub fn of(engine: &Engine) -> Self {
        let channels = &engine.sampler.channels;
        let voices = || channels.iter().flat_map(inside::voices);
        Census {
            voices: voices().count(),
            finished: voices().filter(|v| v.finished).count(),
            ramps: voices().filter(|v| matches!(v.volume, Volume::Linear { .. })).count(),
            shifted: voices().filter(|v| v.clip2.shift != 0.0).count(),
            crossing: voices().filter(|v| v.is_at_zero_crossing).count(),
            clocks: channels.iter().map(inside::clock).sum(),
            recorded: channels.iter().map(|c| inside::recording(c).len()).sum(),
            recording: channels.iter().filter(|c| inside::write_place(c).is_some()).count(),
            skipped: engine.skipped.iter().sum(),
            passing: channels.iter().filter(|c| inside::passthru(c).0).count(),
            smooth: channels.iter().filter(|c| c.interpolates).count(),
            broken: engine.broken(),
            sides: channels.iter().zip(&engine.phrases).zip(engine.skipped).map(|((c, p), skipped)| Side::of(c, p, skipped)).collect(),
        }
    }
}

#[derive(Default)]
pub struct Tally {
    pub listings: u64,
    pub calls: u64,
    pub fields: u64,
    answers: [[u64; 22]; NAMES.len()],
    frames_of_many: u64,
    /// The kind of the record before.
    last: u8,
    ways: [u64; WAYS.len()],
    met: BTreeMap<(&'static str, &'static str), u64>,
}

impl Tally {
    pub fn call(&mut self, r: &Record, number: u8, before: &Census, after: &Census, params: &Params, length_kind: u8) {
        let kind = r.u8_at(0);
        self.calls += 1;
        self.answers[kind as usize][number as usize] += 1;
        if number == 18 {
            self.met("files refused by 18 for", before.sides[0].chosen(), 1);
        }
        if number != 0 && !(kind == RUN && number == 6) {
            return;
        }
        match kind {
            START => {
                self.met("voices", "started", after.voices - before.voices);
                self.met("voices", "not started: no recording", (after.voices == before.voices) as usize);
            }
            STOP => {
                self.met("voices", "stopped", after.finished - before.finished);
                self.met("voices", "not stopped: no such voice", (after.finished == before.finished) as usize);
            }
            NOTE_SPEED => self.met("voices", "there at a note speed", before.voices),
            STOP_RECORDING => self.met("recordings", "cut or emptied by a stop", (after.recorded < before.recorded) as usize),
            RESET => {
                self.met("voices", "gone by a reset", before.voices);
                self.met("the setting", "kept on by a reset", (after.smooth > 0) as usize);
            }
            WRITE => self.met("files", "written without a sample", (after.recorded == 0) as usize),
            READ => {
                self.met("files", "read while voices sound", (before.voices > 0) as usize);
                self.met("files", "read, with fewer samples than before", (after.recorded < before.recorded) as usize);
                self.met("files", "read, with more samples than before", (after.recorded > before.recorded) as usize);
                self.met("files read into", before.sides[0].chosen(), 1);
            }
            WAVEFORM => self.met("phrases", "not at the front, in a waveform", (before.sides[0].start > 0) as usize),
            VOICE_INFO => {
                self.met("phrases", "two or more of voices, in their info", before.sides.iter().any(|s| s.spread) as usize);
                self.met("phrases", "empty ones of voices, in their info", before.sides.iter().any(|s| s.resting > 0) as usize);
            }
            PUT => {
                let of = if after.broken { "fields put, the record is broken" } else { "fields put, the record is good" };
                self.met(of, puts::name(r), 1);
            }
            CHOOSE => {
                self.met("phrases", "chosen while voices sound", (before.voices > 0) as usize);
                self.met("phrases", "chosen again while it records", (before.recording > 0) as usize);
            }
            DELETE => {
                let deleted = before.sides.iter().zip(&after.sides).any(|(b, a)| a.filled.0 < b.filled.0);
                self.met("phrases", "deleted, with samples", deleted as usize);
                self.met("phrases", "deleted while another records", (deleted && before.recording > 0) as usize);
                self.met("phrases", "deleted, the chosen one", (deleted && before.sides.iter().zip(&after.sides).any(|(b, a)| a.empty && !b.empty)) as usize);
            }
            GATHER => {
                let moved = before.sides.iter().zip(&after.sides).any(|(b, a)| a.filled.1 < b.filled.1);
                self.met("phrases", "gathered, none moved", !moved as usize);
                self.met("phrases", "gathered, some moved", moved as usize);
                self.met("phrases", "gathered, some moved under voices", (moved && before.voices > 0) as usize);
            }
            INTERPOLATION if before.voices > 0 => {
                self.met("the setting", "put on while voices sound", (after.smooth > before.smooth) as usize);
                self.met("the setting", "put off while voices sound", (after.smooth < before.smooth) as usize);
            }
            SAMPLE | FRAME | FRAMES | RUN => {
                self.phrases(kind, before, after);
                self.samples(before, after, params, length_kind);
            }
            _ => (),
        }
    }

    /// A run of frames, by its length where all of it is done, and by what it met.
    pub fn run(&mut self, number: u8, asked: usize, done: usize, before: &Census, after: &Census) {
        match number {
            0 => self.met("runs of frames, by their length", run_length(asked), 1),
            6 => self.met("runs of frames", if done > 0 { "to the clock's end, some frames done" } else { "at the clock's end, none done" }, 1),
            _ => return,
        }
        let full = after.recorded > before.recorded && after.skipped > before.skipped;
        self.met("runs of frames", "that reach the capacity", full as usize);
        self.met("runs of frames", "with voices", (before.voices > 0) as usize);
        self.met("runs of frames", "in which a voice leaves", (after.voices < before.voices) as usize);
        self.met("runs of frames", "right behind a start", (self.last == START) as usize);
        self.met("runs of frames", "right behind a stop", (self.last == STOP) as usize);
    }

    /// How many voices a sample, or the frame that is shown, moved up as others left.
    pub fn moved(&mut self, kind: u8, moved: usize) {
        let (some, most, both) = if kind == SAMPLE { ("a sample", "a sample: 31", "") } else { ("a frame", "a frame: 31 or more", "a frame: 62") };
        self.met("voices moved up in", some, (moved > 0) as usize);
        self.met("voices moved up in", most, (moved >= 31) as usize);
        self.met("voices moved up in", both, (moved == 62) as usize);
    }

    /// A record of many frames asks for as many calls.
    pub fn asked(&mut self, r: &Record) {
        if r.u8_at(0) == FRAMES {
            self.frames_of_many += r.u32_at(TIMES) as u64;
        }
        self.last = r.u8_at(0);
    }

    /// How often each call was asked for, by the kind of its record.
    fn times(&self) -> [u64; NAMES.len()] {
        let mut times = self.answers.map(|numbers| numbers.iter().sum());
        times[FRAME as usize] += self.frames_of_many;
        times
    }

    /// The same as the program over the lent calls writes at its end how often it made each.
    pub fn made(&self) -> String {
        let lines = self.times().into_iter().enumerate().filter(|m| m.1 > 0);
        lines.map(|(kind, times)| format!("T {kind:02X} {times:016X}\n")).collect()
    }

    /// Takes what the program over the lent calls writes at its end apart: which way channels went through the samples of frames, and the rest.
    pub fn ways(&mut self, told: &str) -> String {
        let (ways, rest): (Vec<&str>, Vec<&str>) = told.split_inclusive('\n').partition(|line| line.starts_with("W "));
        for line in ways {
            let words: Vec<u64> = line.split_whitespace().skip(1).filter_map(|w| u64::from_str_radix(w, 16).ok()).collect();
            if let [way, times] = words[..] {
                self.ways[way as usize] += times;
            }
        }
        rest.concat()
    }

    /// The first way that so many listings should have met more often.
    pub fn seldom(&self) -> Option<&'static str> {
        let many = self.listings >= MANY_LISTINGS;
        self.ways.iter().zip(WAYS).find(|(times, _)| many && **times <= OFTEN).map(|(_, way)| way)
    }

    /// The first of what phrases met that so many listings should have met more often.
    pub fn rare(&self) -> Option<String> {
        let times = |met: &(&'static str, &'static str)| self.met.get(met).copied().unwrap_or(0);
        let rare = OF_PHRASES.iter().find(|met| self.listings >= MANY_LISTINGS && times(met) <= RARELY);
        rare.map(|(what, which)| format!("{what}: {which}"))
    }

    /// The samples of channels by what they have of phrases.
    fn phrases(&mut self, kind: u8, before: &Census, after: &Census) {
        for (b, a) in before.sides.iter().zip(&after.sides) {
            let samples = a.clock - b.clock;
            if b.spread {
                self.met(SPREAD, NAMES[kind as usize], samples);
            }
            self.met("recordings", "samples dropped, no phrase behind", if a.last { a.skipped - b.skipped } else { 0 } as usize);
            self.met("recordings", "samples dropped, a phrase behind", if a.last { 0 } else { a.skipped - b.skipped } as usize);
        }
    }

    fn samples(&mut self, before: &Census, after: &Census, params: &Params, length_kind: u8) {
        self.met("recordings", "samples appended", after.recorded - before.recorded);
        self.met("recordings", "of 10,000 samples or more, in a sample", (after.recorded >= 10_000) as usize);
        self.met("recordings", "samples recorded over voices", if before.voices > 0 { before.recording } else { 0 });
        self.met("pass-through", "turned on", after.passing.saturating_sub(before.passing));
        self.met("pass-through", "turned off", before.passing.saturating_sub(after.passing));
        self.met("samples", "in all", after.clocks - before.clocks);
        // What is recorded may be the first sample of an empty phrase.
        let resting: usize = after.sides.iter().map(|s| s.resting).sum();
        self.met("voices", "in a sample on an empty phrase", resting);
        if before.voices == 0 || resting == after.voices && resting == before.voices {
            return;
        }
        let samples = after.clocks - before.clocks;
        self.met("samples with voices, by loop mode", name(&LOOP_MODES, params.loop_mode as usize), samples);
        self.met("samples with voices, by the setting", if before.smooth > 0 { "on" } else { "off" }, samples);
        self.met("samples with voices, by length kind", name(&LENGTH_KINDS, length_kind as usize), samples);
        self.met("voices", "in a sample", before.voices);
        self.met("voices", "left in a sample", before.voices - after.voices);
        self.met("voices", "on a ramp after a sample", after.ramps);
        self.met("voices", "shifted after a sample", after.shifted);
        self.met("voices", "at a crossing after a sample", after.crossing);
        self.met("voices", "32 on a channel in a sample", (before.voices >= 32) as usize);
        self.met("finished voices in samples, by note-off mode", name(&NOTE_OFF_MODES, params.note_off_behavior as usize), before.finished);
    }

    pub fn styles(&mut self, counts: impl Iterator<Item = (&'static str, usize)>) {
        for (style, listings) in counts {
            self.met("listings, by style", style, listings);
        }
    }

    fn met(&mut self, what: &'static str, which: &'static str, times: usize) {
        if times > 0 {
            *self.met.entry((what, which)).or_default() += times as u64;
        }
    }

    pub fn print(&self) {
        let numbers = [0, 1, 2, 3, 4, 5, 6, 8, 9, 10, 11, 15, 16, 17, 18, 19, 20, 21];
        println!("{:<26}{}{:>10}", "answers", numbers.iter().map(|n| format!("{n:>10}")).collect::<String>(), "made");
        for ((name, counts), made) in NAMES.iter().zip(&self.answers).zip(self.times()) {
            let cells = numbers.iter().map(|n| counts[*n]).chain([made]);
            println!("  {name:<24}{}", cells.map(|n| if n == 0 { format!("{:>10}", ".") } else { format!("{n:>10}") }).collect::<String>());
        }
        if self.ways.iter().any(|times| *times > 0) {
            for (of, ways) in [("samples of a channel with voices, in frames", 0..CHANNEL_WAYS), ("quick turns of voices, in frames", CHANNEL_WAYS..WAYS.len())] {
                println!("{of}");
                ways.for_each(|k| println!("  {:<40}{:>14}", WAYS[k], self.ways[k]));
            }
        }
        let mut last = "";
        for ((what, which), times) in &self.met {
            if *what != last {
                println!("{what}");
                last = what;
            }
            println!("  {which:<40}{times:>14}");
        }
    }
}

fn run_length(frames: usize) -> &'static str {
    match frames {
        0 => "0",
        1 => "1",
        2 => "2",
        64 => "64",
        1000 => "1,000",
        _ => "another",
    }
}

/// As the program over the lent calls numbers them.
const WAYS: [&str; CHANNEL_WAYS + 12] = [
    "all voices quickly", "all slowly", "some quickly, then the rest slowly", "slow after a quick one", "quick after a slow one",
    "loop, forwards", "loop, backwards", "ping-pong, forwards, there", "ping-pong, backwards, there", "ping-pong, forwards, back",
    "ping-pong, backwards, back", "smooth loop, forwards", "smooth loop, backwards", "smooth ping-pong, forwards, there",
    "smooth ping-pong, backwards, there", "smooth ping-pong, forwards, back", "smooth ping-pong, backwards, back",
];
/// The first are ways of a channel through a sample, the others of a voice through a quick turn.
const CHANNEL_WAYS: usize = 5;
/// From so many listings on each way has to be met more often than this.
const MANY_LISTINGS: u64 = 5000;
const OFTEN: u64 = 1000;

/// And each of these more often than this.
const RARELY: u64 = 100;
const OF_PHRASES: [(&str, &str); 21] = [
    ("files read into", "an empty one, others are there"),
    ("files read into", "one that isn't last"),
    ("files read into", "the last one, others are there"),
    ("files refused by 18 for", "an empty one, others are there"),
    ("files refused by 18 for", "one that isn't last"),
    ("files refused by 18 for", "the last one, others are there"),
    ("phrases", "chosen again while it records"),
    ("phrases", "chosen while voices sound"),
    ("phrases", "deleted while another records"),
    ("phrases", "deleted, the chosen one"),
    ("phrases", "deleted, with samples"),
    ("phrases", "empty ones of voices, in their info"),
    ("phrases", "gathered, some moved"),
    ("phrases", "gathered, some moved under voices"),
    ("phrases", "not at the front, in a waveform"),
    ("phrases", "two or more of voices, in their info"),
    ("recordings", "samples dropped, a phrase behind"),
    (SPREAD, "process_frame"),
    (SPREAD, "process_frames"),
    (SPREAD, "process_sample"),
    ("voices", "in a sample on an empty phrase"),
];
const SPREAD: &str = "samples of a channel with voices of two or more phrases, by call";

const LOOP_MODES: [&str; 3] = ["PlayOnce", "Loop", "PingPong"];
const NOTE_OFF_MODES: [&str; 3] = ["Decay", "ZeroCrossing", "DecayAndZeroCrossing"];
const LENGTH_KINDS: [&str; 6] = ["quarter notes", "samples", "seconds", "bars", "ratio", "whole bars"];

fn name(names: &[&'static str], index: usize) -> &'static str {
    names[index]
}
