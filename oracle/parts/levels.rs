//! Part 2: the crate volume beside volume.rs.

use crate::part::{bits, Arg, Function, Line, Part};
use crate::random::Random;
use crate::record::Record;
use crate::values::{hostile_float, hostile_whole, special_floats};
use audio_sampler_lib::volume::Volume;

/// 0 for a steady level, 1 for a ramp.
const KIND: Arg = Arg("kind", 1, 1);
const START: Arg = Arg("start", 8, 8);
const END: Arg = Arg("end", 16, 8);
const NOW: Arg = Arg("now", 24, 8);
const DURATION: Arg = Arg("duration", 32, 8);
/// Where a ramp begins, or the steady level.
const FROM: Arg = Arg("from", 40, 4);
const TILL: Arg = Arg("till", 44, 4);
const TARGET: Arg = Arg("target", 48, 4);
/// A time at which the volume is read and stepped after `to`.
const LATER: Arg = Arg("later", 56, 8);

const LAST: u64 = 1 << 48;
const LONGEST: u64 = 1 << 24;

pub const PART: Part = Part {
    name: "volume",
    functions: &[
        Function { name: "Volume::is_static", args: &[KIND] },
        Function { name: "Volume::is_static_and_mute", args: &[KIND, FROM] },
        Function { name: "Volume::new", args: &[TARGET] },
        Function { name: "Volume::set", args: &[TARGET] },
        Function { name: "Volume::value", args: &[KIND, START, END, NOW, FROM, TILL] },
        Function { name: "Volume::step", args: &[KIND, START, END, NOW, FROM, TILL] },
        Function { name: "Volume::to", args: &[KIND, START, END, NOW, DURATION, FROM, TILL, TARGET] },
        Function { name: "Volume::value after to", args: &[KIND, START, END, NOW, DURATION, FROM, TILL, TARGET, LATER] },
        Function { name: "Volume::step after to", args: &[KIND, START, END, NOW, DURATION, FROM, TILL, TARGET, LATER] },
    ],
    edges,
    random: &[("hostile", |r, _| hostile(r)), ("ordinary", |r, _| ordinary(r))],
    answer,
    met: &[],
};

/// Ramps from times around the limits, of lengths around the limits, read and moved around their ends.
fn edges() -> Vec<Record> {
    let floats: Vec<u32> = special_floats().collect();
    let mut r = Random::new(0);
    let mut records = Vec::new();
    for start in [0, 1, 4, LONGEST, LAST - LONGEST, LAST - 1, LAST, LAST + 1, u64::MAX] {
        for length in [0, 1, 2, 4, 1000, LONGEST - 1, LONGEST, LONGEST + 1, 1 << 40, u64::MAX] {
            let end = start.wrapping_add(length);
            for now in [0, start.wrapping_sub(1), start, start.wrapping_add(1), end.wrapping_sub(1), end, end.wrapping_add(1), LAST, LAST + 1] {
                for duration in [0, 1, 4, LONGEST, LONGEST + 1, u64::MAX] {
                    let later = r.pick(&[now, now.wrapping_add(1), now.wrapping_add(duration / 2), now.wrapping_add(duration), now.wrapping_sub(1), LAST, LAST + 1]);
                    let levels = if r.below(2) == 0 { [0, 0x3f80_0000, 0] } else { [r.pick(&floats), r.pick(&floats), r.pick(&floats)] };
                    records.push(record(r.below(8) > 0, [start, end, now, duration, later], levels));
                }
            }
        }
    }
    records
}

fn record(ramp: bool, [start, end, now, duration, later]: [u64; 5], [from, till, target]: [u32; 3]) -> Record {
    Record::new(2)
        .with_u8(KIND.1, ramp as u8)
        .with_u64(START.1, start)
        .with_u64(END.1, end)
        .with_u64(NOW.1, now)
        .with_u64(DURATION.1, duration)
        .with_u64(LATER.1, later)
        .with_u32(FROM.1, from)
        .with_u32(TILL.1, till)
        .with_u32(TARGET.1, target)
}

/// Hostile levels, on a ramp within the limits or on any times.
fn hostile(r: &mut Random) -> Record {
    let levels = [hostile_float(r), hostile_float(r), hostile_float(r)];
    let times = if r.below(2) == 0 {
        [hostile_whole(r), hostile_whole(r), hostile_whole(r), hostile_whole(r), hostile_whole(r)]
    } else {
        let width = r.pick(&[1, 8, 16, 24]);
        times(r, width, LAST + 1)
    };
    record(r.below(8) > 0, times, levels)
}

fn ordinary(r: &mut Random) -> Record {
    let levels = [level(r), level(r), level(r)];
    let times = times(r, 12, 1 << 30);
    record(r.below(8) > 0, times, levels)
}

fn level(r: &mut Random) -> u32 {
    let x = match r.below(4) {
        0 => r.pick(&[0.0, 1.0]),
        1 => r.below(400) as f32 / 100.0,
        _ => r.below(1 << 16) as f32 / 65536.0,
    };
    x.to_bits()
}

/// A ramp of up to 2^width samples before `most`, a time on it or a little after it, and a duration and a later time alike.
fn times(r: &mut Random, width: u32, most: u64) -> [u64; 5] {
    let start = r.below(most);
    let length = r.below(1 << width) + 1;
    let now = start + r.below(length + length / 8 + 2);
    let duration = if r.below(4) == 0 { 0 } else { r.below((1 << width) + 1) };
    let later = now + r.below(duration + duration / 8 + 2);
    [start, start + length, now, duration, later]
}

fn answer(record: &Record, line: &mut Line) {
    let (now, later, target) = (record.u64_at(NOW.1), record.u64_at(LATER.1), record.f32_at(TARGET.1));
    let mut v = volume(record);
    line.flag(v.is_static());
    line.flag(v.is_static_and_mute());
    line.word(&numbers(&Volume::new(target)));
    let mut other = v.clone();
    other.set(target);
    line.word(&numbers(&other));
    read(&v, now, line);
    let duration = record.u64_at(DURATION.1);
    let done = !refused(&v, now) && duration <= LONGEST;
    if done {
        v.to(now as usize, duration as usize, target);
    }
    line.answer(done, &numbers(&v));
    read(&v, later, line);
}

/// The level at a time, and the volume after a step at it.
fn read(v: &Volume, now: u64, line: &mut Line) {
    let done = !refused(v, now);
    line.answer(done, &[bits(if done { v.value(now as usize) } else { 0.0 })]);
    let mut stepped = v.clone();
    if done {
        stepped.step(now as usize);
    }
    line.answer(done, &numbers(&stepped));
}

/// Number 7 of document 01, which the Rust doesn't have: a time above 2^48, for a steady level too, or before the ramp's start; an empty
/// ramp; one longer than 2^24.
fn refused(v: &Volume, now: u64) -> bool {
    let bad = match v {
        Volume::Static(_) => false,
        Volume::Linear { time, .. } => (now as usize) < time.start || time.is_empty() || time.len() as u64 > LONGEST,
    };
    bad || now > LAST
}

fn volume(record: &Record) -> Volume {
    let from = record.f32_at(FROM.1);
    if record.u8_at(KIND.1) == 0 {
        return Volume::Static(from);
    }
    Volume::Linear {
        time: record.u64_at(START.1) as usize..record.u64_at(END.1) as usize,
        value: from..record.f32_at(TILL.1),
    }
}

pub fn numbers(v: &Volume) -> [(u32, u64); 5] {
    match v {
        Volume::Static(x) => [(1, 0), (16, 0), (16, 0), bits(*x), (8, 0)],
        Volume::Linear { time, value } => [(1, 1), (16, time.start as u64), (16, time.end as u64), bits(value.start), bits(value.end)],
    }
}
