//! What is played, and how it is handed to the port.

use crate::params;
use crate::record::Record;
use audio_sampler_lib::common_types::Params;

pub const SIZE: u32 = 4096;

/// Frames between two calls of a scenario that makes some while it plays.
pub const BEAT: u32 = 512;

/// What a turn of a scenario is. The port reads its number.
#[derive(Clone, Copy, PartialEq)]
pub enum Act {
    Nothing,
    Frame,
    Start,
    Stop,
    NoteSpeed,
    StartRecording,
    StopRecording,
    Reset,
}

#[derive(Clone, Copy)]
pub struct Scenario {
    pub name: &'static str,
    pub act: Act,
    /// After each turn the record is put back as it was, but for its clock, with so many voices, the last ones; 0: a turn goes on where the one before it
    /// ended. What that takes is not timed.
    pub put_back: u32,
    pub voices: u32,
    /// An index: 0 plays once, 1 loops, 2 goes to and fro.
    pub mode: u8,
    pub speed: f32,
    pub reverse: f32,
    /// The loop's length as a part of the recording's.
    pub ratio: f32,
    /// Samples of attack and of decay.
    pub ramp: u64,
    pub auto_passthru: bool,
    /// Voices whose number is a multiple of this are stopped before the first turn; 0 stops none.
    pub stopped: u32,
    pub records: bool,
    /// The recording isn't stopped before the first turn: each frame makes it longer.
    pub grows: bool,
    /// Every second frame, or run, is played under other parameters: length, speed and mode.
    pub changes: bool,
    /// Every 1,024 frames 16 keys are let go at once; 512 frames later they are started again.
    pub leaves: bool,
    pub clock: u64,
    /// How many turns: frames, or calls.
    pub frames: u32,
    /// How many frames the port plays in one call: 1 by the frame call, more by the run's.
    pub run: u32,
    /// 7/12's setting.
    pub smooth: bool,
    /// How many of 11/12's phrases the port records, each the same and together as long as one would be; the Rust has one of them.
    pub phrases: u32,
    /// How many voices in turn are started on one phrase before the next is chosen.
    pub stretch: u32,
    /// From this voice on, each that is so many after the one before has note speed 0.7; 0 voices after: none has.
    pub bent_from: u32,
    pub bent_each: u32,
}

const ONCE: u8 = 0;
const LOOP: u8 = 1;
const PING_PONG: u8 = 2;
const LONGEST_RAMP: u64 = 1 << 24;

const BASE: Scenario = Scenario {
    name: "",
    act: Act::Frame,
    put_back: 0,
    voices: 8,
    mode: LOOP,
    speed: 0.75,
    reverse: 1.0,
    ratio: 0.3,
    ramp: 0,
    auto_passthru: false,
    stopped: 0,
    records: false,
    grows: false,
    changes: false,
    leaves: false,
    clock: 10,
    frames: 50_000,
    run: 1,
    smooth: false,
    phrases: 1,
    stretch: 1,
    bent_from: 0,
    bent_each: 0,
};

/// One frame of 32 voices, over and over.
const LONE_FRAME: Scenario = Scenario { put_back: 32, voices: 32, frames: 20_000, ..BASE };

/// 32 voices on eight phrases.
const PHRASES: Scenario = Scenario { voices: 32, phrases: 8, frames: 20_000, ..BASE };

/// A call while 8 voices are held, over and over.
const CALL: Scenario = Scenario { put_back: 1, ramp: 100, auto_passthru: true, frames: 100_000, ..BASE };

/// Of 8/12's profile.
const WHOLE: Scenario = Scenario { speed: 1.0, ratio: 0.25, ..BASE };

pub const SCENARIOS: &[Scenario] = &[
    Scenario { name: "plain: 1 voice", voices: 1, frames: 200_000, ..WHOLE },
    Scenario { name: "plain: 8 voices", ..WHOLE },
    Scenario { name: "plain: 32 voices", voices: 32, frames: 20_000, ..WHOLE },
    Scenario { name: "plain: 32 voices, attack running", voices: 32, frames: 20_000, ramp: LONGEST_RAMP, ..WHOLE },
    Scenario { name: "plain: 32 voices, eight phrases", voices: 32, frames: 20_000, phrases: 8, ratio: 0.25, stretch: 4, ..WHOLE },
    Scenario { name: "plain: 32 voices, 16 leave and come back", voices: 32, leaves: true, frames: 20_480, ..WHOLE },
    Scenario { name: "plain: 32 voices, recording", voices: 32, records: true, frames: 20_480, ..WHOLE },
    Scenario { name: "plain: 1 voice, runs of 64", voices: 1, frames: 200_000, run: 64, ..WHOLE },
    Scenario { name: "plain: 8 voices, runs of 64", run: 64, ..WHOLE },
    Scenario { name: "plain: 32 voices, runs of 64", voices: 32, frames: 20_000, run: 64, ..WHOLE },
    Scenario { name: "plain: 32 voices, attack running, runs of 64", voices: 32, frames: 20_000, run: 64, ramp: LONGEST_RAMP, ..WHOLE },
    Scenario { name: "plain: 32 voices, eight phrases, runs of 64", voices: 32, frames: 20_000, run: 64, phrases: 8, stretch: 4, ratio: 0.25, ..WHOLE },
    Scenario { name: "half plain: 16 plain, then 16 not, runs of 64", voices: 32, frames: 20_000, run: 64, bent_from: 16, bent_each: 1, ..WHOLE },
    Scenario { name: "half plain: each second of 32, runs of 64", voices: 32, frames: 20_000, run: 64, bent_each: 2, ..WHOLE },
    Scenario { name: "plain: 32 voices, 16 leave and come back, runs of 64", voices: 32, leaves: true, frames: 20_480, run: 64, ..WHOLE },
    Scenario { name: "no voices", voices: 0, frames: 500_000, ..BASE },
    Scenario { name: "1 voice, loop", voices: 1, frames: 200_000, ..BASE },
    Scenario { name: "1 voice, ping-pong", voices: 1, mode: PING_PONG, frames: 200_000, ..BASE },
    Scenario { name: "8 voices, loop", ..BASE },
    Scenario { name: "8 voices, ping-pong", mode: PING_PONG, ..BASE },
    Scenario { name: "32 voices, loop", voices: 32, frames: 20_000, ..BASE },
    Scenario { name: "32 voices, ping-pong", voices: 32, mode: PING_PONG, frames: 20_000, ..BASE },
    Scenario { name: "8 voices, reverse speed", reverse: -1.0, ..BASE },
    Scenario { name: "8 voices, play-once", mode: ONCE, speed: 0.05, ratio: 1.0, ..BASE },
    Scenario { name: "8 voices, attack running", ramp: LONGEST_RAMP, ..BASE },
    Scenario { name: "8 voices, decay running", ramp: LONGEST_RAMP, stopped: 1, ..BASE },
    Scenario { name: "32 voices, attack running", voices: 32, ramp: LONGEST_RAMP, frames: 20_000, ..BASE },
    Scenario { name: "8 voices, recording", records: true, ..BASE },
    Scenario { name: "no voices, recording", voices: 0, records: true, frames: 500_000, ..BASE },
    Scenario { name: "8 voices, growing recording", grows: true, ..BASE },
    Scenario { name: "8 voices, clock at 2^40", clock: 1 << 40, ..BASE },
    Scenario { name: "1 voice, parameters change", voices: 1, changes: true, frames: 200_000, ..BASE },
    Scenario { name: "8 voices, parameters change", changes: true, ..BASE },
    Scenario { name: "32 voices, parameters change", voices: 32, changes: true, frames: 20_000, ..BASE },
    Scenario { name: "32 voices, 16 leave and come back", voices: 32, leaves: true, frames: 20_480, ..BASE },
    Scenario { name: "a frame of 32 voices, 16 leave", stopped: 2, ..LONE_FRAME },
    Scenario { name: "a frame of 32 voices, none leaves", ..LONE_FRAME },
    Scenario { name: "no voices, runs of 64", voices: 0, frames: 500_000, run: 64, ..BASE },
    Scenario { name: "1 voice, loop, runs of 64", voices: 1, frames: 200_000, run: 64, ..BASE },
    Scenario { name: "8 voices, loop, runs of 64", run: 64, ..BASE },
    Scenario { name: "32 voices, loop, runs of 64", voices: 32, frames: 20_000, run: 64, ..BASE },
    Scenario { name: "32 voices, loop, speed 1, runs of 64", voices: 32, speed: 1.0, frames: 20_000, run: 64, ..BASE },
    Scenario { name: "32 voices, loop, speed 0.7, runs of 64", voices: 32, speed: 0.7, frames: 20_000, run: 64, ..BASE },
    Scenario { name: "32 voices, loop, speed -0.5, runs of 64", voices: 32, speed: 0.5, reverse: -1.0, frames: 20_000, run: 64, ..BASE },
    Scenario { name: "32 voices, ping-pong, runs of 64", voices: 32, mode: PING_PONG, frames: 20_000, run: 64, ..BASE },
    Scenario { name: "32 voices, reverse speed, runs of 64", voices: 32, reverse: -1.0, frames: 20_000, run: 64, ..BASE },
    Scenario { name: "32 voices, attack running, runs of 64", voices: 32, ramp: LONGEST_RAMP, frames: 20_000, run: 64, ..BASE },
    Scenario { name: "8 voices, play-once, runs of 64", mode: ONCE, speed: 0.05, ratio: 1.0, run: 64, ..BASE },
    Scenario { name: "32 voices, decay running, runs of 64", voices: 32, ramp: LONGEST_RAMP, stopped: 1, frames: 20_000, run: 64, ..BASE },
    Scenario { name: "32 voices, 16 leave and come back, runs of 64", voices: 32, leaves: true, frames: 20_480, run: 64, ..BASE },
    Scenario { name: "8 voices, parameters change each run, runs of 64", changes: true, run: 64, ..BASE },
    Scenario { name: "32 voices, parameters change each run, runs of 64", voices: 32, changes: true, frames: 20_000, run: 64, ..BASE },
    Scenario { name: "32 voices, recording, runs of 64", voices: 32, records: true, frames: 20_480, run: 64, ..BASE },
    Scenario { name: "1 voice, loop, ten million frames", voices: 1, frames: 10_000_000, ..BASE },
    Scenario { name: "call: start", act: Act::Start, ..CALL },
    Scenario { name: "call: stop", act: Act::Stop, ..CALL },
    Scenario { name: "call: note speed", act: Act::NoteSpeed, ..CALL },
    Scenario { name: "call: start of recording", act: Act::StartRecording, ..CALL },
    Scenario { name: "call: stop of recording", act: Act::StopRecording, grows: true, ..CALL },
    Scenario { name: "call: reset", act: Act::Reset, ..CALL },
    Scenario { name: "smooth: 1 voice, loop", voices: 1, frames: 200_000, smooth: true, ..BASE },
    Scenario { name: "smooth: 8 voices, loop", smooth: true, ..BASE },
    Scenario { name: "smooth: 32 voices, loop", voices: 32, frames: 20_000, smooth: true, ..BASE },
    Scenario { name: "smooth: 8 voices, ping-pong", mode: PING_PONG, smooth: true, ..BASE },
    Scenario { name: "smooth: 32 voices, ping-pong", voices: 32, mode: PING_PONG, frames: 20_000, smooth: true, ..BASE },
    Scenario { name: "smooth: 8 voices, reverse speed", reverse: -1.0, smooth: true, ..BASE },
    Scenario { name: "smooth: 8 voices, play-once", mode: ONCE, speed: 0.05, ratio: 1.0, smooth: true, ..BASE },
    Scenario { name: "smooth: 8 voices, parameters change", changes: true, smooth: true, ..BASE },
    Scenario { name: "smooth: 8 voices, loop, runs of 64", run: 64, smooth: true, ..BASE },
    Scenario { name: "smooth: 32 voices, loop, runs of 64", voices: 32, frames: 20_000, run: 64, smooth: true, ..BASE },
    Scenario { name: "eight phrases: 32 voices, each on another than the one before", ..PHRASES },
    Scenario { name: "eight phrases: 32 voices, four in turn on one", stretch: 4, ..PHRASES },
    Scenario { name: "eight phrases: no voices", voices: 0, frames: 500_000, ..PHRASES },
];

/// The scenario of a row, with so many turns; an idle one has all but what is timed.
pub fn of(row: u32, frames: u32, idle: bool) -> Scenario {
    let scenario = Scenario { frames, ..SCENARIOS[row as usize] };
    match (idle, scenario.put_back) {
        (false, _) => scenario,
        (true, 0) => Scenario { frames: 0, ..scenario },
        (true, _) => Scenario { act: Act::Nothing, ..scenario },
    }
}

pub fn input_at(i: u32) -> f32 {
    (i * 37 % 64) as f32 / 32.0 - 1.0
}

impl Scenario {
    /// How many samples or calls its turns are.
    pub fn units(&self) -> u32 {
        if self.act == Act::Frame { self.frames * 2 } else { self.frames }
    }

    pub fn stops(&self, voice: u32) -> bool {
        self.stopped > 0 && voice % self.stopped == 0
    }

    pub fn bends(&self, voice: u32) -> bool {
        self.bent_each > 0 && voice >= self.bent_from && (voice - self.bent_from) % self.bent_each == 0
    }

    fn settings(&self) -> Record {
        Record::new(1)
            .with_u8(params::KIND, 4)
            .with_u8(params::MODE, self.mode)
            .with_u8(params::AUTO_PASSTHRU, self.auto_passthru.into())
            .with_u32(params::VOLUME, 1.0f32.to_bits())
            .with_u32(params::VALUE, self.ratio.to_bits())
            .with_u32(params::RATE, 44100.0f32.to_bits())
            .with_u32(params::TEMPO, 120.0f32.to_bits())
            .with_u32(params::NUMERATOR, 4)
            .with_u32(params::DENOMINATOR, 4)
            .with_u64(params::ATTACK, self.ramp)
            .with_u64(params::DECAY, self.ramp)
            .with_u32(params::SPEED, self.speed.to_bits())
            .with_u32(params::REVERSE, self.reverse.to_bits())
    }

    /// The parameters of every second frame or run.
    fn other_settings(&self) -> Record {
        if !self.changes {
            return self.settings();
        }
        self.settings()
            .with_u8(params::MODE, PING_PONG)
            .with_u32(params::VALUE, 0.4f32.to_bits())
            .with_u32(params::SPEED, 0.5f32.to_bits())
    }

    pub fn params(&self) -> Params {
        params::params(&self.settings())
    }

    pub fn other_params(&self) -> Params {
        params::params(&self.other_settings())
    }

    /// The parameters, those of every second frame or run and the plan, as bench/port.rt.txt reads them.
    pub fn bytes(&self) -> Vec<u8> {
        let plan = Record::new(0)
            .with_u32(0, self.frames)
            .with_u32(4, self.voices)
            .with_u32(8, self.stopped)
            .with_u32(12, self.records.into())
            .with_u64(16, self.clock)
            .with_u32(24, self.changes.into())
            .with_u32(32, self.grows.into())
            .with_u32(36, self.leaves.into())
            .with_u32(40, self.put_back)
            .with_u32(44, self.act as u32)
            .with_u32(48, self.smooth.into())
            .with_u32(52, self.phrases)
            .with_u32(28, self.bent_from)
            .with_u32(56, self.stretch)
            .with_u32(60, self.bent_each);
        [self.settings().0, self.other_settings().0, plan.0].concat()
    }
}
