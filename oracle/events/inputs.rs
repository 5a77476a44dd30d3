//! Inputs from a seed: bytes of no meaning, good listings, and good listings with something broken.

use crate::random::Random;
use crate::values::{hostile_float, ordinary_float};

pub const STYLES: [&str; 6] = ["noise", "a header and noise", "good", "damaged", "more frames than fit", "each version with each length kind"];

/// The style of the input of this number, and its bytes.
pub fn input(seed: u64, number: u64) -> (usize, Vec<u8>) {
    let mut r = Random::new(seed.wrapping_mul(0x1_0000_0001).wrapping_add(number.wrapping_mul(0x9e37_79b9)));
    let r = &mut r;
    let style = if number % 250 == 249 { 4 } else if number % 10 == 7 { 5 } else { r.pick(&[0, 1, 2, 2, 3, 3, 3, 3]) };
    let bytes = match style {
        0 => noise(r, 120),
        1 => [header(r), noise(r, 120)].concat(),
        2 => good(r),
        3 => damaged(r),
        4 => overflowing(r, 1 + (number / 250 % 2) as u8),
        _ => versions(r, (number / 10 % 4) as u8, (number / 40 % 8) as u8),
    };
    (style, bytes)
}

fn noise(r: &mut Random, most: u64) -> Vec<u8> {
    let few = r.below(2) == 0;
    (0..r.below(most)).map(|_| if few { r.below(12) as u8 } else { r.bits() as u8 }).collect()
}

fn header(r: &mut Random) -> Vec<u8> {
    vec![1 + r.below(2) as u8, 1 + r.below(2) as u8, r.below(2) as u8]
}

/// The records of a good listing, the header first.
fn records(r: &mut Random) -> Vec<Vec<u8>> {
    let head = header(r);
    let (version, channels) = (head[0], head[1] as usize);
    let hostile = r.below(3) == 0;
    let mut l = vec![head];
    if r.below(4) > 0 {
        l.extend([parameters(r, version, hostile), record(4, vec![])]);
        l.extend((0..r.below(12)).map(|_| frame(r, channels, hostile)).collect::<Vec<_>>());
        l.push(record(5, vec![]));
    }
    // A crowd: about as many voices as there is room for.
    let crowd = if r.below(8) == 0 { 32 + r.below(12) } else { 0 };
    l.extend((0..crowd).map(|_| start(r, false)).collect::<Vec<_>>());
    for _ in 0..r.below(60) {
        l.push(any_record(r, version, channels, hostile));
    }
    l
}

fn good(r: &mut Random) -> Vec<u8> {
    records(r).concat()
}

/// One to three things go wrong in it.
fn damaged(r: &mut Random) -> Vec<u8> {
    let mut l = records(r);
    if r.below(2) == 0 {
        break_record(r, &mut l);
    }
    let mut bytes = l.concat();
    for _ in 0..1 + r.below(2) {
        break_bytes(r, &mut bytes);
    }
    bytes
}

/// A length, a kind or a mode that isn't named, or a record that is left out, doubled or cut.
fn break_record(r: &mut Random, l: &mut Vec<Vec<u8>>) {
    let at = r.below(l.len() as u64) as usize;
    let size = l[at].len() as u64;
    match r.below(6) {
        0 => l[at][0] ^= 1 << r.below(8),
        1 => l[at][1] = l[at][1].wrapping_add(r.pick(&[1, 255, 4, 252])),
        2 => l[at][2] = r.pick(&[0, 1, 2, 3, 4, 5, 6, 7, 8, 255]),
        3 => {
            let place = r.pick(&[11, 12, 13, 26]).min(size - 1) as usize;
            l[at][place] = r.below(8) as u8;
        }
        4 => l[at].truncate(r.below(size) as usize),
        _ => {
            let copy = l[at].clone();
            l.insert(at, copy);
        }
    }
}

fn break_bytes(r: &mut Random, bytes: &mut Vec<u8>) {
    let at = r.below(bytes.len() as u64 + 1) as usize;
    match r.below(5) {
        0 => bytes.truncate(at),
        1 => bytes.insert(at, r.bits() as u8),
        2 if at < bytes.len() => bytes[at] ^= 1 << r.below(8),
        3 if at < bytes.len() => bytes[at] = r.bits() as u8,
        _ if at < bytes.len() => drop(bytes.remove(at)),
        _ => (),
    }
}

/// The recording meets its capacity, and then is played. All of it prints more than 64 KB.
fn overflowing(r: &mut Random, channel_count: u8) -> Vec<u8> {
    let channels = channel_count as usize;
    let mut l = vec![vec![1, channel_count, r.below(2) as u8], parameters(r, 1, false), record(4, vec![])];
    l.extend((0..4100).map(|_| frame(r, channels, false)).collect::<Vec<_>>());
    l.push(record(5, vec![]));
    l.extend((0..4).map(|_| start(r, false)).collect::<Vec<_>>());
    l.extend((0..20).map(|_| frame(r, channels, false)).collect::<Vec<_>>());
    l.concat()
}

/// A take that is played with a length of this kind under this version, whether there are such or not.
fn versions(r: &mut Random, version: u8, kind: u8) -> Vec<u8> {
    let mut l = vec![vec![version, 1, 0], record(4, vec![])];
    l.extend((0..1 + r.below(9)).map(|_| frame(r, 1, false)).collect::<Vec<_>>());
    l.extend([record(5, vec![]), parameters_of(r, kind, false), start(r, false)]);
    l.extend((0..12).map(|_| frame(r, 1, false)).collect::<Vec<_>>());
    l.concat()
}

fn record(kind: u8, fields: Vec<u8>) -> Vec<u8> {
    let length = (fields.len() + 1) as u16;
    [&length.to_be_bytes()[..], &[kind], &fields].concat()
}

fn any_record(r: &mut Random, version: u8, channels: usize, hostile: bool) -> Vec<u8> {
    match r.below(20) {
        0 => parameters(r, version, hostile),
        1..=4 => start(r, hostile),
        5..=6 => record(2, note(r)),
        7 => record(3, [note(r), float(r, hostile)].concat()),
        8 => record(4, vec![]),
        9 => record(5, vec![]),
        10 if r.below(4) == 0 => record(7, vec![]),
        _ => frame(r, channels, hostile),
    }
}

fn start(r: &mut Random, hostile: bool) -> Vec<u8> {
    let position = if r.below(8) == 0 { float(r, hostile) } else { bits(r.below(65) as f32 / 64.0) };
    record(1, [note(r), position, float(r, hostile)].concat())
}

fn frame(r: &mut Random, channels: usize, hostile: bool) -> Vec<u8> {
    record(6, (0..channels).flat_map(|_| float(r, hostile)).collect())
}

/// Few notes, so that they meet; now and then a channel that there isn't.
fn note(r: &mut Random) -> Vec<u8> {
    vec![60 + r.below(3) as u8, if r.below(12) == 0 { r.bits() as u8 } else { 0 }]
}

/// With a length kind that the version has.
fn parameters(r: &mut Random, version: u8, hostile: bool) -> Vec<u8> {
    let kind = r.below(4 + version as u64) as u8;
    parameters_of(r, kind, hostile)
}

fn parameters_of(r: &mut Random, kind: u8, hostile: bool) -> Vec<u8> {
    let mut fields = [ramp(r), ramp(r)].concat();
    let value = match kind {
        _ if hostile => float(r, true),
        1 => bits(r.below(40) as f32 / 4.0),
        4 => bits(r.below(70) as f32 / 64.0),
        _ => bits(r.below(1000) as f32 / 8388608.0),
    };
    fields.extend([r.below(2) as u8, r.below(3) as u8, kind]);
    fields.extend([value, speed(r, hostile), speed(r, hostile)].concat());
    fields.push(r.below(3) as u8);
    fields.extend([float(r, hostile), bits(44100.0), bits(120.0)].concat());
    fields.extend([1 + r.below(7) as u32, 1 << r.below(4)].map(u32::to_be_bytes).concat());
    record(0, fields)
}

fn ramp(r: &mut Random) -> Vec<u8> {
    let n = match r.below(12) {
        0 => r.bits() as u32,
        1 => (1 << 24) - 1 + r.below(3) as u32,
        2..=5 => 0,
        _ => r.below(9) as u32,
    };
    n.to_be_bytes().into()
}

fn speed(r: &mut Random, hostile: bool) -> Vec<u8> {
    if hostile { float(r, true) } else { bits(r.pick(&[1.0, -1.0, 0.5, 2.0, 0.75])) }
}

fn float(r: &mut Random, hostile: bool) -> Vec<u8> {
    if hostile { hostile_float(r).to_be_bytes().into() } else { bits(ordinary_float(r)) }
}

fn bits(x: f32) -> Vec<u8> {
    x.to_bits().to_be_bytes().into()
}
