//! Part 1: the crate common_types beside common_types.rs and time_value.rs.

use crate::params;
use crate::part::{bits, Arg, Function, Line, Part};
use crate::random::Random;
use crate::record::Record;
use crate::values::{hostile_float, hostile_whole, ordinary_float, ordinary_whole, special_floats};
use audio_sampler_lib::common_types::{EnumIndex, Note};
use audio_sampler_lib::time_value::{self, TimeOrRatio, TimeUnit, TimeValue};

const NOTE: Arg = Arg("note", 1, 1);
const CHANNEL: Arg = Arg("channel", 2, 1);
const UNIT: Arg = Arg("unit", 3, 1);
const KIND: Arg = Arg("kind", params::KIND, 1);
const MODE: Arg = Arg("mode", params::MODE, 1);
const NOTE_OFF: Arg = Arg("note-off", params::NOTE_OFF, 1);
/// A packed note, an index, and a data length.
const N: Arg = Arg("n", 8, 8);
const X: Arg = Arg("x", 16, 4);
const VALUE: Arg = Arg("value", params::VALUE, 4);
const RATE: Arg = Arg("rate", params::RATE, 4);
const TEMPO: Arg = Arg("tempo", params::TEMPO, 4);
const NUMERATOR: Arg = Arg("numerator", params::NUMERATOR, 4);
const DENOMINATOR: Arg = Arg("denominator", params::DENOMINATOR, 4);
const ATTACK: Arg = Arg("attack", params::ATTACK, 8);
const DECAY: Arg = Arg("decay", params::DECAY, 8);
const SPEED: Arg = Arg("speed", params::SPEED, 4);
const REVERSE: Arg = Arg("reverse speed", params::REVERSE, 4);

pub const PART: Part = Part {
    name: "common_types",
    functions: &[
        Function { name: "Note::new", args: &[NOTE, CHANNEL] },
        Function { name: "Note::into_u64", args: &[NOTE, CHANNEL] },
        Function { name: "Note::from_u64", args: &[N] },
        Function { name: "LoopMode::to_index", args: &[MODE] },
        Function { name: "LoopMode::to_f32", args: &[MODE] },
        Function { name: "LoopMode::from_index", args: &[N] },
        Function { name: "LoopMode::from_f32", args: &[X] },
        Function { name: "NoteOffBehaviour::to_index", args: &[NOTE_OFF] },
        Function { name: "NoteOffBehaviour::to_f32", args: &[NOTE_OFF] },
        Function { name: "NoteOffBehaviour::from_index", args: &[N] },
        Function { name: "NoteOffBehaviour::from_f32", args: &[X] },
        Function { name: "TimeValue::from_unit_value", args: &[UNIT, VALUE] },
        Function { name: "TimeValue::as_samples", args: &[UNIT, VALUE, RATE, TEMPO, NUMERATOR, DENOMINATOR] },
        Function { name: "calc_quarter_notes_per_bar", args: &[NUMERATOR, DENOMINATOR] },
        Function { name: "calc_samples_per_quarter_note", args: &[RATE, TEMPO] },
        Function { name: "calc_samples_per_bar", args: &[RATE, TEMPO, NUMERATOR, DENOMINATOR] },
        Function { name: "Params::speed", args: &[SPEED, REVERSE] },
        Function { name: "Params::loop_length", args: &[KIND, VALUE, N, RATE, TEMPO, NUMERATOR, DENOMINATOR] },
        Function { name: "Params::beyond_limits", args: &[KIND, VALUE, ATTACK, DECAY, RATE, TEMPO, NUMERATOR, DENOMINATOR] },
    ],
    edges,
    random: &[("hostile", |r, _| hostile(r)), ("ordinary", |r, _| ordinary(r))],
    answer,
    met: &[],
};

/// Every note and channel, and with these, in turn, the special floats and the whole numbers around the limits.
fn edges() -> Vec<Record> {
    let floats: Vec<u32> = special_floats().collect();
    let ramps = [0, 1, (1 << 24) - 1, 1 << 24, (1 << 24) + 1, u32::MAX as u64 + 1, u64::MAX];
    let wholes = [0, 1, 2, 3, 4, 255, 256, 1 << 16, (1 << 22) - 1, 1 << 22, (1 << 24) + 1, u64::MAX];
    let signatures = [0, 1, 3, 4, 8, (1 << 24) + 1, u32::MAX];
    let mut r = Random::new(0);
    let mut records = Vec::new();
    for k in 0..=0xffff_u32 {
        let settings = ordinary(&mut r)
            .with_u8(NOTE.1, (k >> 8) as u8)
            .with_u8(CHANNEL.1, k as u8)
            .with_u64(N.1, r.pick(&wholes))
            .with_u32(X.1, floats[k as usize % floats.len()])
            .with_u32(VALUE.1, r.pick(&floats))
            .with_u32(SPEED.1, r.pick(&floats))
            .with_u32(REVERSE.1, r.pick(&floats))
            .with_u64(ATTACK.1, r.pick(&ramps))
            .with_u64(DECAY.1, r.pick(&ramps));
        records.push(match r.below(4) {
            0 => settings.with_u32(RATE.1, r.pick(&floats)),
            1 => settings.with_u32(TEMPO.1, r.pick(&floats)),
            2 => settings.with_u32(NUMERATOR.1, r.pick(&signatures)).with_u32(DENOMINATOR.1, r.pick(&signatures)),
            _ => settings,
        });
    }
    records
}

/// Each argument of ordinary settings is made hostile or left, by chance.
fn hostile(r: &mut Random) -> Record {
    let mut settings = ordinary(r).with_u8(NOTE.1, r.bits() as u8).with_u8(CHANNEL.1, r.bits() as u8);
    for float in [X, VALUE, RATE, TEMPO, SPEED, REVERSE] {
        if r.below(2) == 0 {
            settings = settings.with_u32(float.1, hostile_float(r));
        }
    }
    for narrow in [NUMERATOR, DENOMINATOR] {
        if r.below(2) == 0 {
            settings = settings.with_u32(narrow.1, hostile_whole(r) as u32);
        }
    }
    for wide in [N, ATTACK, DECAY] {
        if r.below(2) == 0 {
            settings = settings.with_u64(wide.1, hostile_whole(r));
        }
    }
    settings
}

fn ordinary(r: &mut Random) -> Record {
    let dial = r.below(1 << 16) as f32 / 65536.0;
    let rate = r.pick(&[8000.0, 22050.0, 44100.0, 48000.0, 96000.0, 192000.0f32]);
    let tempo = 20.0 + r.below(28000) as f32 / 100.0;
    let kind = r.below(params::WHOLE_BARS as u64 + 1) as u8;
    let value = match kind {
        0 | 3 | params::WHOLE_BARS => r.below(256) as f32 / 16.0,
        2 => r.below(10000) as f32 / 1000.0,
        4 => r.below(1 << 20) as f32 / 1048576.0,
        _ => ordinary_float(r),
    };
    let n = match r.below(3) {
        0 => r.below(4),
        1 => r.below((1 << 22) + 1),
        _ => ordinary_whole(r),
    };
    Record::new(1)
        .with_u8(NOTE.1, r.below(128) as u8)
        .with_u8(CHANNEL.1, r.below(16) as u8)
        .with_u8(UNIT.1, r.below(5) as u8)
        .with_u8(KIND.1, kind)
        .with_u8(MODE.1, r.below(3) as u8)
        .with_u8(NOTE_OFF.1, r.below(3) as u8)
        .with_u64(N.1, n)
        .with_u32(X.1, dial.to_bits())
        .with_u32(VALUE.1, value.to_bits())
        .with_u32(RATE.1, rate.to_bits())
        .with_u32(TEMPO.1, tempo.to_bits())
        .with_u32(NUMERATOR.1, r.below(16) as u32 + 1)
        .with_u32(DENOMINATOR.1, r.pick(&[1, 2, 4, 8, 16]))
        .with_u64(ATTACK.1, r.below(100_000))
        .with_u64(DECAY.1, r.below(100_000))
        .with_u32(SPEED.1, ordinary_float(r).to_bits())
        .with_u32(REVERSE.1, r.pick(&[1.0f32, -1.0]).to_bits())
}

fn answer(record: &Record, line: &mut Line) {
    let note = Note::new(record.u8_at(NOTE.1), record.u8_at(CHANNEL.1));
    put_note(note, line);
    line.u64(note.into_u64());
    put_note(Note::from_u64(record.u64_at(N.1)), line);
    modes(params::loop_mode(record), record, line);
    modes(params::note_off(record), record, line);
    let transport = params::transport(record);
    let time = TimeValue::from_unit_value(unit(record.u8_at(UNIT.1)), params::float(record, VALUE.1));
    line.word(&length(&TimeOrRatio::Time(time)));
    line.float(time.as_samples(&transport));
    line.float(time_value::calc_quarter_notes_per_bar(&transport));
    line.float(time_value::calc_samples_per_quarter_note(&transport));
    line.float(time_value::calc_samples_per_bar(&transport));
    let params = params::params(record);
    line.float(params.speed());
    line.float(params.loop_length(record.u64_at(N.1) as usize));
    line.flag(params::beyond_limits(&params));
}

fn put_note(note: Note, line: &mut Line) {
    line.word(&[(2, note.note as u64), (2, note.channel as u64)]);
}

/// The Rust panics at an index of 3 or more, which document 01 refuses.
fn modes<M: EnumIndex>(mode: M, record: &Record, line: &mut Line) {
    line.word(&[(1, mode.to_index() as u64)]);
    line.float(mode.to_f32());
    let index = record.u64_at(N.1) as usize;
    put_index(index < 3, || M::from_index(index), line);
    let x = params::float(record, X.1);
    put_index(!((3.0 * x).floor() >= 3.0), || M::from_f32(x), line);
}

fn put_index<M: EnumIndex>(done: bool, mode: impl Fn() -> M, line: &mut Line) {
    line.answer(done, &[(1, if done { mode().to_index() as u64 } else { 0 })]);
}

/// A length's kind and value.
pub fn length(length: &TimeOrRatio) -> [(u32, u64); 2] {
    match *length {
        TimeOrRatio::Time(TimeValue::QuarterNotes(x)) => [(1, 0), bits(x)],
        TimeOrRatio::Time(TimeValue::Samples(x)) => [(1, 1), bits(x)],
        TimeOrRatio::Time(TimeValue::Seconds(x)) => [(1, 2), bits(x)],
        TimeOrRatio::Time(TimeValue::Bars(x)) => [(1, 3), bits(x)],
        TimeOrRatio::Ratio(x) => [(1, 4), bits(x)],
    }
}

fn unit(index: u8) -> TimeUnit {
    match index {
        0 => TimeUnit::SixteenthNotes,
        1 => TimeUnit::QuarterNotes,
        2 => TimeUnit::Seconds,
        3 => TimeUnit::Samples,
        _ => TimeUnit::Bars,
    }
}
