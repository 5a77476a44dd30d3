//! The parameters in a record, at the places that the port's `lines::settings` has, and row 4 of document 01's table.

use crate::record::Record;
use crate::values::quiet;
use audio_sampler_lib::common_types::{LoopMode, NoteOffBehaviour, Params, Transport};
use audio_sampler_lib::time_value::{TimeOrRatio, TimeValue};

/// A length kind of the listing's version 2.
pub const KIND: usize = 4;
pub const MODE: usize = 5;
pub const NOTE_OFF: usize = 6;
pub const AUTO_PASSTHRU: usize = 7;
pub const VOLUME: usize = 16;
pub const VALUE: usize = 20;
pub const RATE: usize = 24;
pub const TEMPO: usize = 28;
pub const NUMERATOR: usize = 32;
pub const DENOMINATOR: usize = 36;
pub const ATTACK: usize = 40;
pub const DECAY: usize = 48;
pub const SPEED: usize = 56;
pub const REVERSE: usize = 60;

/// The last length kind. The Rust has no such length.
pub const WHOLE_BARS: u8 = 5;

pub fn params(record: &Record) -> Params {
    let transport = transport(record);
    Params {
        attack_samples: record.u64_at(ATTACK) as usize,
        decay_samples: record.u64_at(DECAY) as usize,
        auto_passthru: record.u8_at(AUTO_PASSTHRU) != 0,
        loop_mode: loop_mode(record),
        loop_length: length(record.u8_at(KIND), float(record, VALUE), &transport),
        speed: float(record, SPEED),
        reverse_speed: float(record, REVERSE),
        transport,
        note_off_behavior: note_off(record),
        volume: float(record, VOLUME),
        ..Params::default()
    }
}

/// In place of whole bars the Rust plays the samples that its `as_samples` has for them.
fn length(kind: u8, value: f32, transport: &Transport) -> TimeOrRatio {
    match kind {
        0 => TimeOrRatio::Time(TimeValue::quarter_notes(value)),
        1 => TimeOrRatio::Time(TimeValue::samples(value)),
        2 => TimeOrRatio::Time(TimeValue::Seconds(value)),
        3 => TimeOrRatio::Time(TimeValue::bars(value)),
        4 => TimeOrRatio::Ratio(value),
        WHOLE_BARS.. => TimeOrRatio::Time(TimeValue::samples(TimeValue::bars(value).as_samples(transport))),
    }
}

pub fn loop_mode(record: &Record) -> LoopMode {
    [LoopMode::PlayOnce, LoopMode::Loop, LoopMode::PingPong][record.u8_at(MODE).min(2) as usize]
}

pub fn note_off(record: &Record) -> NoteOffBehaviour {
    [NoteOffBehaviour::Decay, NoteOffBehaviour::ZeroCrossing, NoteOffBehaviour::DecayAndZeroCrossing][record.u8_at(NOTE_OFF).min(2) as usize]
}

pub fn transport(record: &Record) -> Transport {
    Transport {
        sample_rate: float(record, RATE),
        tempo: float(record, TEMPO),
        time_sig_numerator: record.u32_at(NUMERATOR),
        time_sig_denominator: record.u32_at(DENOMINATOR),
        ..Transport::default()
    }
}

/// A float of a record, with a quiet NaN for every NaN.
pub fn float(record: &Record, at: usize) -> f32 {
    quiet(record.f32_at(at))
}

/// Row 4, which the Rust doesn't have: attack or decay above 2^24, a ratio above 1, or a time length worked out above 2^22. The Rust holds a
/// length to 1 or more, and that makes none of them larger than 2^22.
pub fn beyond_limits(params: &Params) -> bool {
    let long = match params.loop_length {
        TimeOrRatio::Ratio(ratio) => ratio > 1.0,
        TimeOrRatio::Time(_) => params.loop_length(0) > 4194304.0,
    };
    long || params.attack_samples > 1 << 24 || params.decay_samples > 1 << 24
}
