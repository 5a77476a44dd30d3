//! Part 4: the crate clip beside clip.rs. Records come in sequences: each begins with the clip that the update of the one before it left.

use crate::part::{bits, place, Arg, Function, Line, Part};
use crate::random::Random;
use crate::record::Record;
use crate::values::{hostile_float, hostile_whole, ordinary_float, quiet, special_floats};
use audio_sampler_lib::clip::{Clip, Mode};
use audio_sampler_lib::smooth::next_index;

/// 0 for a loop, 1 for ping-pong.
const MODE: Arg = Arg("mode", 1, 1);
/// What is updated: 0 the speed, 1 the mode, 2 the length, 3 the data length, 4 all of them in one call, beside the Rust's four in turn.
const KIND: Arg = Arg("kind", 2, 1);
const NEW_MODE: Arg = Arg("new mode", 3, 1);
const START: Arg = Arg("start", 4, 4);
const SPEED: Arg = Arg("speed", 8, 4);
const LENGTH: Arg = Arg("length", 12, 4);
const DATA_LENGTH: Arg = Arg("data length", 16, 4);
const SHIFT: Arg = Arg("shift", 20, 4);
/// A place in the data.
const X: Arg = Arg("x", 24, 4);
/// The new speed or length; of all four the length.
const VALUE: Arg = Arg("value", 28, 4);
const SINCE: Arg = Arg("since", 32, 8);
/// The time of the questions and of the update.
const NOW: Arg = Arg("now", 40, 8);
/// A time at which the clip is asked after the update.
const LATER: Arg = Arg("later", 48, 8);

/// Of all four.
const NEW_SPEED: Arg = Arg("new speed", 56, 4);
const NEW_DATA_LENGTH: Arg = Arg("new data length", 60, 4);

const LAST: u64 = 1 << 48;
const LONGEST: f32 = 4194304.0;
/// The elapsed count up to which request 8/12 has the index of a plain clip true.
const TRUE_TO: u64 = 1 << 24;

pub const PART: Part = Part {
    name: "clip",
    functions: &[
        Function { name: "Clip::new", args: &[MODE, START, SPEED, LENGTH, DATA_LENGTH, SINCE] },
        Function { name: "Clip::elapsed", args: &[START, LENGTH, DATA_LENGTH, SINCE, NOW] },
        Function { name: "Clip::clip_offset", args: &[MODE, START, SPEED, LENGTH, DATA_LENGTH, SHIFT, SINCE, NOW] },
        Function { name: "Clip::offset", args: &[MODE, START, SPEED, LENGTH, DATA_LENGTH, SHIFT, SINCE, NOW] },
        Function { name: "Clip::next_at", args: &[MODE, START, SPEED, LENGTH, DATA_LENGTH, SHIFT, SINCE, NOW] },
        Function { name: "Clip::is_pingpong_reversing", args: &[MODE, START, SPEED, LENGTH, DATA_LENGTH, SHIFT, SINCE, NOW] },
        Function { name: "Clip::data_to_clip", args: &[START, LENGTH, DATA_LENGTH, X] },
        Function { name: "Clip::update_..", args: &[MODE, KIND, NEW_MODE, START, SPEED, LENGTH, DATA_LENGTH, SHIFT, VALUE, SINCE, NOW, NEW_SPEED, NEW_DATA_LENGTH] },
        Function { name: "Clip::offset after update_..", args: &[MODE, KIND, NEW_MODE, START, SPEED, LENGTH, DATA_LENGTH, SHIFT, VALUE, SINCE, NOW, LATER, NEW_SPEED, NEW_DATA_LENGTH] },
    ],
    edges,
    random: &[("hostile", hostile), ("ordinary", ordinary), ("whole", whole)],
    answer,
    met: &[
        ("plain up to 2^24, at the whole index", |record| plain_to(record, 0, TRUE_TO) == Some(true)),
        ("plain up to 2^24, at another", |record| plain_to(record, 0, TRUE_TO) == Some(false)),
        ("plain past 2^24, at the whole index", |record| plain_to(record, TRUE_TO + 1, LAST) == Some(true)),
        ("plain past 2^24, at another", |record| plain_to(record, TRUE_TO + 1, LAST) == Some(false)),
    ],
};

/// K1 to K6; clips at the limits and beyond, at times around theirs; each two special floats as speed and shift.
fn edges() -> Vec<Record> {
    let mut r = Random::new(0);
    let mut records = table(&mut r);
    records.extend(all_at_once(&mut r));
    let lengths = [0.0, 0.99999994, 1.0, 1.0000001, 1.5, 4.0, 10.0, 4194303.5, LONGEST, 4194304.5, f32::INFINITY, f32::NAN];
    let starts = [-1e-45, -0.0, 0.0, 1e-45, 1.0, 8.0, 10.0, 4194303.8, LONGEST, 4194304.5, f32::INFINITY, f32::NAN];
    for mode in [Mode::Loop, Mode::PingPong] {
        for start in starts {
            for length in lengths {
                for data_length in lengths {
                    let since = r.pick(&[0, 1, LAST - 1, LAST, LAST + 1]);
                    let speed = r.pick(&[1.0, -1.0, 0.75, f32::NAN]);
                    let now = r.pick(&[0, since, since + 1, since + (1 << 24) + 1, LAST, LAST + 1]);
                    records.push(asked(&mut r, Clip::new(since as usize, start, speed, length, data_length, mode), now, edge_value));
                }
            }
        }
        for speed in special_floats() {
            for shift in special_floats() {
                let mut clip = hostile_clip(&mut r);
                (clip.mode, clip.speed, clip.shift) = (mode, f32::from_bits(speed), f32::from_bits(shift));
                let now = (clip.since as u64).wrapping_add(r.pick(&[0, 1, 2, 1 << 24]));
                records.push(asked(&mut r, clip, now, edge_value));
            }
        }
    }
    records
}

/// The clips of document 01's K1 to K6, at every time from 0 to 8.
fn table(r: &mut Random) -> Vec<Record> {
    let clips = [
        (8.0, 1.0, 4.0, Mode::Loop),
        (8.0, -1.0, 4.0, Mode::Loop),
        (0.0, 1.0, 4.0, Mode::PingPong),
        (0.0, f32::NAN, 4.0, Mode::Loop),
        (0.0, f32::NAN, 4.0, Mode::PingPong),
        (0.0, 1.0, 1.5, Mode::Loop),
        (10.0, 1.0, 4.0, Mode::Loop),
    ];
    let mut records = Vec::new();
    for (start, speed, length, mode) in clips {
        let clip = Clip::new(0, start, speed, length, 10.0, mode);
        records.extend((0..9).map(|now| asked(r, clip, now, ordinary_value)));
    }
    records
}

/// Updates of all four, where one offset used by all of them ends elsewhere; a speed that is NaN twice in a row; a bad length beside others that are not.
fn all_at_once(r: &mut Random) -> Vec<Record> {
    let four = |start| Clip::new(0, start, 1.0, 4.0, 4.0, Mode::Loop);
    let nan = Clip::new(0, 0.0, f32::NAN, 4.0, 4.0, Mode::Loop);
    let mut records = vec![
        all_of(r, four(0.0), 1, (4.0, -1.0, 4.0, Mode::PingPong)),
        all_of(r, four(0.0), 1, (1.5, 1.0, 4.0, Mode::Loop)),
        all_of(r, four(3.0), 2, (4.0, 1.0, 3.0, Mode::Loop)),
        all_of(r, nan, 1, (4.0, f32::NAN, 4.0, Mode::Loop)),
        all_of(r, four(0.0), 1, (0.5, -1.0, 3.0, Mode::PingPong)),
        all_of(r, four(0.0), 1, (3.0, -1.0, 0.5, Mode::PingPong)),
    ];
    let again = updated(&records[3]).unwrap_or(nan);
    records.push(all_of(r, again, 2, (4.0, f32::NAN, 4.0, Mode::Loop)));
    records
}

fn all_of(r: &mut Random, clip: Clip, now: u64, new: (f32, f32, f32, Mode)) -> Record {
    with_all(asked(r, clip, now, ordinary_value), new)
}

/// The record with an update of all four: length, speed, data length and mode.
fn with_all(record: Record, (length, speed, data_length, mode): (f32, f32, f32, Mode)) -> Record {
    record
        .with_u8(KIND.1, 4)
        .with_u8(NEW_MODE.1, mode as u8)
        .with_u32(VALUE.1, length.to_bits())
        .with_u32(NEW_SPEED.1, speed.to_bits())
        .with_u32(NEW_DATA_LENGTH.1, data_length.to_bits())
}

/// A sequence goes on with what the last record left, and takes up hostile clips, times, speeds and lengths.
fn hostile(r: &mut Random, last: &Record) -> Record {
    let (clip, now) = next(r, last).unwrap_or_else(|| {
        let clip = hostile_clip(r);
        (clip, time_after(r, clip.since as u64))
    });
    asked(r, clip, now, hostile_value)
}

fn ordinary(r: &mut Random, last: &Record) -> Record {
    let (clip, now) = next(r, last).unwrap_or_else(|| {
        let clip = ordinary_clip(r);
        (clip, clip.since as u64 + r.below(64))
    });
    let step = r.pick(&[1, 1, 1, 64, 4096]);
    let later = now + r.below(step) + 1;
    asked(r, clip, now, ordinary_value).with_u64(LATER.1, later)
}

/// A clip of whole numbers at speed 1 (request 8/12), asked around the counts at which a float no longer holds each of them. Its start may lie past the data,
/// and its length exceed them. One in 8 has something else: a speed, a shift, a mode or a half.
fn whole(r: &mut Random, _: &Record) -> Record {
    let [length, data_length] = [0; 2].map(|_| whole_length(r));
    let start = match r.below(4) {
        0 => r.pick(&[0.0, -0.0, 1.0, LONGEST]),
        1 => data_length,
        2 => whole_length(r),
        _ => r.below(data_length as u64 + 1) as f32,
    };
    let since = if r.below(4) == 0 { LAST - (1 << 25) } else { within(r, &[1, 20, 40]) };
    let mut clip = Clip::new(since as usize, start, 1.0, length, data_length, Mode::Loop);
    clip.shift = r.pick(&[0.0, -0.0]);
    match r.below(32) {
        0 => clip.speed = -1.0,
        1 => clip.shift = 1.0,
        2 => clip.length += 0.5,
        3 => clip.mode = Mode::PingPong,
        _ => {}
    }
    let elapsed = match r.below(4) {
        0 => within(r, &[4, 12, 22, 24, 25]),
        1 => TRUE_TO - r.below(64),
        2 => TRUE_TO + r.below(64),
        _ => TRUE_TO,
    };
    asked(r, clip, since + elapsed, ordinary_value)
}

/// What the last record's update left, at its later time. A sequence ends by chance, or where a time or a clip is refused.
fn next(r: &mut Random, last: &Record) -> Option<(Clip, u64)> {
    let (clip, later) = (updated(last).unwrap_or(clip(last)), last.u64_at(LATER.1));
    (r.below(16) > 0 && !refused(&clip, later)).then_some((clip, later))
}

/// A record of that clip at that time, with an update by chance. A `value` is made for each kind of update.
fn asked(r: &mut Random, clip: Clip, now: u64, value: fn(&mut Random, &Clip, u8) -> f32) -> Record {
    let kind = r.below(8) as u8;
    let new = value(r, &clip, kind);
    let x = match r.below(8) {
        0 => f32::from_bits(hostile_float(r)),
        1 => clip.start,
        2 => clip.data_length,
        _ => clip.data_length * (r.below(1 << 24) as f32 / 16777216.0),
    };
    let record = Record::new(4)
        .with_u8(MODE.1, clip.mode as u8)
        .with_u8(KIND.1, kind)
        .with_u8(NEW_MODE.1, r.below(2) as u8)
        .with_u32(START.1, clip.start.to_bits())
        .with_u32(SPEED.1, clip.speed.to_bits())
        .with_u32(LENGTH.1, clip.length.to_bits())
        .with_u32(DATA_LENGTH.1, clip.data_length.to_bits())
        .with_u32(SHIFT.1, clip.shift.to_bits())
        .with_u32(X.1, x.to_bits())
        .with_u32(VALUE.1, new.to_bits())
        .with_u64(SINCE.1, clip.since as u64)
        .with_u64(NOW.1, now)
        .with_u64(LATER.1, time_after(r, now));
    if kind < 4 { record } else { with_all(record, four(r, &clip, value)) }
}

/// New values for all four, each of them by chance the one that there is.
fn four(r: &mut Random, clip: &Clip, value: fn(&mut Random, &Clip, u8) -> f32) -> (f32, f32, f32, Mode) {
    let kept = r.below(16);
    let mode = if kept & 8 == 0 { clip.mode } else { r.pick(&[Mode::Loop, Mode::PingPong]) };
    let length = if kept & 1 == 0 { clip.length } else { value(r, clip, 2) };
    let speed = if kept & 2 == 0 { clip.speed } else { value(r, clip, 0) };
    let data_length = if kept & 4 == 0 { clip.data_length } else { value(r, clip, 3) };
    (length, speed, data_length, mode)
}

/// Of an update of all four that isn't refused: which parts are skipped, 1 the length, 2 the speed, 4 the data length, 8 the mode.
pub fn skipped(record: &Record) -> Option<usize> {
    if record.u8_at(KIND.1) != 4 || updated(record).is_none() {
        return None;
    }
    let clip = clip(record);
    let same = [
        float(record, VALUE) == clip.length,
        float(record, NEW_SPEED) == clip.speed,
        float(record, NEW_DATA_LENGTH) == clip.data_length,
        mode(record.u8_at(NEW_MODE.1)) as u8 == clip.mode as u8,
    ];
    Some(same.iter().enumerate().map(|(k, &same)| (same as usize) << k).sum())
}

fn edge_value(r: &mut Random, clip: &Clip, kind: u8) -> f32 {
    let old = if kind == 3 { clip.data_length } else { clip.length };
    match r.below(4) {
        0 => r.pick(&[1.0, 1.5, LONGEST, 0.99999994, 4194304.5, f32::NAN]),
        1 => r.pick(&[old, clip.speed, -clip.speed, clip.shift]),
        _ => hostile_value(r, clip, kind),
    }
}

/// A speed may be anything. A length is mostly good.
fn hostile_value(r: &mut Random, _: &Clip, kind: u8) -> f32 {
    if kind < 2 || r.below(16) == 0 {
        return speed(r);
    }
    good_length_of(r)
}

/// As in the engine: mostly the value that there is.
fn ordinary_value(r: &mut Random, clip: &Clip, kind: u8) -> f32 {
    let (old, new) = match kind {
        0 | 1 => (clip.speed, r.pick(&[1.0, -1.0, 0.5, -0.5, 0.75, 2.0, 0.99, 1.01])),
        2 => (clip.length, (clip.data_length * r.below(1001) as f32 / 1000.0).max(1.0)),
        _ => (clip.data_length, (clip.data_length + r.below(200) as f32 - 100.0).clamp(1.0, LONGEST)),
    };
    if r.below(2) == 0 { old } else { new }
}

/// A good clip of hostile floats. One in 16 has a float of any kind for its start or a length.
fn hostile_clip(r: &mut Random) -> Clip {
    let mode = r.pick(&[Mode::Loop, Mode::PingPong]);
    let (length, data_length) = (good_length_of(r), good_length_of(r));
    let start = match r.below(4) {
        0 => 0.0,
        1 => r.pick(&[length, data_length]),
        2 => good_length_of(r) - 1.0,
        _ => data_length * (r.below(1 << 16) as f32 / 65536.0),
    };
    let since = time_after(r, 0);
    let mut clip = Clip::new(since as usize, start, speed(r), length, data_length, mode);
    clip.shift = match r.below(4) {
        0 => 0.0,
        1 => length * (r.below(1 << 16) as f32 / 32768.0),
        _ => f32::from_bits(hostile_float(r)),
    };
    let any = f32::from_bits(hostile_float(r));
    match r.below(48) {
        0 => clip.start = any,
        1 => clip.length = any,
        2 => clip.data_length = any,
        _ => {}
    }
    clip
}

/// As in the engine: a recording of so many samples, a start in it, and a loop length.
fn ordinary_clip(r: &mut Random) -> Clip {
    let width = r.pick(&[4, 10, 16, 22]);
    let data_length = (r.below(1 << width) + 1) as f32;
    let start = r.below(1001) as f32 / 1000.0 * data_length;
    let length = match r.below(3) {
        0 => data_length,
        1 => (data_length * r.below(1001) as f32 / 1000.0).max(1.0),
        _ => (r.below(1 << 20) as f32 / r.pick(&[1.0, 2.0, 10.0])).max(1.0),
    };
    let speed = r.pick(&[1.0, -1.0, 0.5, 0.75, 2.0, -1.5]);
    Clip::new(r.below(1 << 30) as usize, start, speed, length, data_length, r.pick(&[Mode::Loop, Mode::PingPong]))
}

fn speed(r: &mut Random) -> f32 {
    match r.below(3) {
        0 => ordinary_float(r),
        1 => r.pick(&[1.0, -1.0, 0.5, -0.75, 1e-3, 0.0, f32::NAN]),
        _ => f32::from_bits(hostile_float(r)),
    }
}

/// From 1 to 2^22, whole or not, of any exponent there.
fn good_length_of(r: &mut Random) -> f32 {
    let power = r.below(22) as u32;
    let x = match r.below(4) {
        0 => (1u32 << power) as f32,
        1 => f32::from_bits(((1u32 << (power + 1)) as f32).to_bits() - 1 - r.below(3) as u32),
        2 => (r.below(1 << (power + 1)) + 1) as f32,
        _ => f32::from_bits((127 + power) << 23 | r.below(1 << 23) as u32),
    };
    if r.below(32) == 0 { LONGEST } else { x }
}

/// A whole number from 1 to 2^22.
fn whole_length(r: &mut Random) -> f32 {
    let width = r.pick(&[1, 4, 10, 22]);
    let edge = r.pick(&[1.0, 2.0, 3.0, LONGEST - 1.0, LONGEST]);
    if r.below(4) == 0 { edge } else { (r.below(1 << width) + 1) as f32 }
}

/// A time not before that one, and now and then one above 2^48 or of any kind.
fn time_after(r: &mut Random, time: u64) -> u64 {
    match r.below(32) {
        0 => hostile_whole(r),
        1 => LAST + r.below(3) - 1,
        2 => time,
        3..=9 => time.wrapping_add(within(r, &[24, 30, 40, 46])),
        _ => time.wrapping_add(within(r, &[1, 4, 12, 20])),
    }
}

fn within(r: &mut Random, widths: &[u32]) -> u64 {
    let width = r.pick(widths);
    r.below(1 << width)
}

fn answer(record: &Record, line: &mut Line) {
    let clip = clip(record);
    let (now, later) = (record.u64_at(NOW.1), record.u64_at(LATER.1));
    let made = Clip::new(clip.since, clip.start, clip.speed, clip.length, clip.data_length, clip.mode);
    put_clip((!refused(&made, made.since as u64)).then_some(made), line);
    let done = !refused(&clip, now);
    line.answer(done, &[(16, if done { clip.elapsed(now as usize) as u64 } else { 0 })]);
    line.answer(done, &[place(if done { clip.clip_offset(now as usize) } else { 0.0 })]);
    put_position(&clip, now, line);
    line.answer(done, &[(16, if done { next_index(&clip, now as usize) as u64 } else { 0 })]);
    line.answer(done, &[(1, (done && clip.is_pingpong_reversing(now as usize)) as u64)]);
    put_found(&clip, float(record, X), line);
    let changed = updated(record);
    put_clip(changed, line);
    put_position(&changed.unwrap_or(clip), later, line);
}

/// The offset, and its index and fraction (request 7/12).
fn put_position(clip: &Clip, now: u64, line: &mut Line) {
    let done = !refused(clip, now);
    let offset = if done { clip.offset(now as usize) } else { 0.0 };
    line.answer(done, &[place(offset), (16, offset.floor() as u64), bits(offset - offset.floor())]);
}

/// Whether there is a place in the clip, and the place.
fn put_found(clip: &Clip, x: f32, line: &mut Line) {
    let done = good(clip) && 0.0 <= x && x < clip.data_length;
    let found = if done { clip.data_to_clip(x) } else { None };
    line.answer(done, &[(1, found.is_some() as u64), place(found.unwrap_or(0.0))]);
}

fn put_clip(clip: Option<Clip>, line: &mut Line) {
    let numbers = clip.map_or([(16, 0), (8, 0), (8, 0), (8, 0), (8, 0), (8, 0), (1, 0)], |c| {
        [(16, c.since as u64), bits(c.start), bits(c.speed), bits(c.length), bits(c.data_length), place(c.shift), (1, c.mode as u64)]
    });
    line.answer(clip.is_some(), &numbers);
}

/// The clip after the record's update, unless that is refused.
fn updated(record: &Record) -> Option<Clip> {
    let (mut clip, now, value) = (clip(record), record.u64_at(NOW.1), float(record, VALUE));
    let kind = record.u8_at(KIND.1);
    let (speed, data_length) = (float(record, NEW_SPEED), float(record, NEW_DATA_LENGTH));
    if refused(&clip, now) || kind >= 2 && !good_length(value) || kind == 4 && !good_length(data_length) {
        return None;
    }
    match kind {
        0 => clip.update_speed(now as usize, value),
        1 => clip.update_mode(now as usize, mode(record.u8_at(NEW_MODE.1))),
        2 => clip.update_length(now as usize, value),
        4 => {
            clip.update_length(now as usize, value);
            clip.update_speed(now as usize, speed);
            clip.update_data_length(now as usize, data_length);
            clip.update_mode(now as usize, mode(record.u8_at(NEW_MODE.1)));
        }
        _ => clip.update_data_length(now as usize, value),
    }
    Some(clip)
}

/// For a plain clip (request 8/12) asked from so many samples after its `since` to so many: whether the Rust's index is (start + elapsed mod length) mod data
/// length over whole numbers.
fn plain_to(record: &Record, from: u64, to: u64) -> Option<bool> {
    let (clip, now) = (clip(record), record.u64_at(NOW.1));
    let whole = |x: f32| x == x.floor();
    if refused(&clip, now) || clip.mode as u8 != 0 || clip.speed != 1.0 || clip.shift != 0.0 || !(whole(clip.start) && whole(clip.length) && whole(clip.data_length)) {
        return None;
    }
    let elapsed = now - clip.since as u64;
    let index = (clip.start as u64 + elapsed % clip.length as u64) % clip.data_length as u64;
    (from..=to).contains(&elapsed).then(|| clip.offset(now as usize).floor() as u64 == index)
}

/// Number 7 of document 01, which the Rust doesn't have: a bad clip, a time before `since` or above 2^48.
fn refused(clip: &Clip, now: u64) -> bool {
    !good(clip) || now < clip.since as u64 || now > LAST
}

fn good(clip: &Clip) -> bool {
    good_length(clip.length) && good_length(clip.data_length) && (0.0..=LONGEST).contains(&clip.start)
}

fn good_length(length: f32) -> bool {
    (1.0..=LONGEST).contains(&length)
}

fn clip(record: &Record) -> Clip {
    Clip {
        since: record.u64_at(SINCE.1) as usize,
        start: float(record, START),
        speed: float(record, SPEED),
        length: float(record, LENGTH),
        data_length: float(record, DATA_LENGTH),
        mode: mode(record.u8_at(MODE.1)),
        shift: float(record, SHIFT),
    }
}

fn mode(index: u8) -> Mode {
    if index == 0 { Mode::Loop } else { Mode::PingPong }
}

fn float(record: &Record, arg: Arg) -> f32 {
    quiet(record.f32_at(arg.1))
}
