//! WAVE files of 32-bit floats, from request 10/12's words: a reader, a writer, and files good and damaged from a seed.

use crate::random::Random;

pub struct Wave {
    pub rate: u32,
    pub channels: usize,
    pub samples: usize,
    pub first: usize,
}

fn two(bytes: &[u8], at: usize) -> usize {
    u16::from_le_bytes(bytes[at..at + 2].try_into().unwrap()).into()
}

pub fn four(bytes: &[u8], at: usize) -> u32 {
    u32::from_le_bytes(bytes[at..at + 4].try_into().unwrap())
}

/// The chunks from a place on, each with its id and the place and size of its body; none where one is cut short or bytes are left.
fn chunks(file: &[u8]) -> Option<Vec<(&[u8], usize, usize)>> {
    let (mut found, mut at) = (vec![], 12);
    while at < file.len() {
        let size = file.get(at + 4..at + 8)?;
        let size = four(size, 0) as usize;
        found.push((&file[at..at + 4], at + 8, size));
        at += 8 + size + size % 2;
        if at > file.len() {
            return None;
        }
    }
    Some(found)
}

pub fn read(file: &[u8]) -> Option<Wave> {
    if file.len() < 12 || &file[..4] != b"RIFF" || &file[8..12] != b"WAVE" || four(file, 4) as usize + 8 != file.len() {
        return None;
    }
    let chunks = chunks(file)?;
    let places = |id: &[u8]| chunks.iter().enumerate().filter(|(_, c)| c.0 == id).map(|(i, c)| (i, c.1, c.2)).collect::<Vec<_>>();
    let (&[(format_number, format, 18)], &[(data_number, first, size)]) = (&places(b"fmt ")[..], &places(b"data")[..]) else {
        return None;
    };
    let channels = two(file, format + 2);
    let fields = [two(file, format), two(file, format + 12), two(file, format + 14), two(file, format + 16)];
    if format_number > data_number || channels == 0 || fields != [3, 4 * channels, 32, 0] || size % (4 * channels) != 0 {
        return None;
    }
    let samples = size / (4 * channels);
    match places(b"fact")[..] {
        [] => {}
        [(_, fact, 4)] if four(file, fact) as usize == samples => {}
        _ => return None,
    }
    Some(Wave { rate: four(file, format + 4), channels, samples, first })
}

/// A file of so many samples on each channel: the word of channel j at place i is asked for.
pub fn written(rate: u32, channels: usize, samples: usize, word: impl Fn(usize, usize) -> u32) -> Vec<u8> {
    let (count, length) = (channels as u32, samples as u32);
    let bytes = 4 * count * length;
    let mut file = vec![];
    let mut put = |name: &[u8], numbers: &[(u32, usize)]| {
        file.extend(name);
        for &(n, size) in numbers {
            file.extend(&n.to_le_bytes()[..size]);
        }
    };
    put(b"RIFF", &[(50 + bytes, 4)]);
    put(b"WAVE", &[]);
    let rates = [(rate, 4), ((4 * count).wrapping_mul(rate), 4)];
    put(b"fmt ", &[(18, 4), (3, 2), (count, 2), rates[0], rates[1], (4 * count, 2), (32, 2), (0, 2)]);
    put(b"fact", &[(4, 4), (length, 4)]);
    put(b"data", &[(bytes, 4)]);
    for i in 0..samples {
        for j in 0..channels {
            file.extend(word(j, i).to_le_bytes());
        }
    }
    file
}

fn chunk(id: &[u8], body: &[u8], pad: u8) -> Vec<u8> {
    let mut bytes = [id, &(body.len() as u32).to_le_bytes(), body].concat();
    bytes.extend(std::iter::repeat(pad).take(body.len() % 2));
    bytes
}

pub fn words(r: &mut Random, count: usize) -> Vec<u32> {
    (0..count).map(|_| if r.below(8) == 0 { r.pick(&[0x7f80_0001, 0xffff_ffff, 0x8000_0000, 0x7fc0_1234]) } else { r.bits() as u32 }).collect()
}

/// The chunks of a good file, with others among them.
fn good(r: &mut Random, channels: usize, samples: usize) -> Vec<Vec<u8>> {
    let rate = r.pick(&[0, 1, 44_100, 192_000, 1 << 29, u32::MAX]);
    let words = words(r, channels * samples);
    let file = written(rate, channels, samples, |j, i| words[j * samples + i]);
    let (format, fact, data) = (file[12..38].to_vec(), file[38..50].to_vec(), file[50..].to_vec());
    let mut chunks = vec![format, data];
    if r.below(3) > 0 {
        chunks.insert(r.below(3) as usize, fact);
    }
    for _ in 0..r.below(3) {
        let body: Vec<u8> = (0..r.below(7)).map(|_| r.bits() as u8).collect();
        let other = chunk(r.pick(&[b"LIST", b"PEAK", b"fmt_", b"DATA"]), &body, r.bits() as u8);
        chunks.insert(r.below(chunks.len() as u64 + 1) as usize, other);
    }
    chunks
}

fn number(r: &mut Random, chunk: &mut [u8], at: usize, size: usize) {
    let old = if size == 2 { two(chunk, at) as u32 } else { four(chunk, at) };
    let new = match r.below(4) {
        0 => old.wrapping_add(1),
        1 => old.wrapping_sub(1),
        2 => r.pick(&[0, 1, 4, 16, 40, 0x3fff, 0x4000, 0xfffe, u32::MAX]),
        _ => old ^ 1 << r.below(8 * size as u64),
    };
    chunk[at..at + size].copy_from_slice(&new.to_le_bytes()[..size]);
}

/// One thing wrong with the chunks.
fn damaged(r: &mut Random, chunks: &mut Vec<Vec<u8>>) {
    let i = r.below(chunks.len() as u64) as usize;
    match r.below(8) {
        0 => chunks.swap(0, i),
        1 => chunks.push(chunks[i].clone()),
        2 => drop(chunks.remove(i)),
        3 => number(r, &mut chunks[i], 4, 4),
        4 => drop(chunks[i].pop()),
        5 => chunks[i].push(r.bits() as u8),
        6 => chunks[i][r.below(4) as usize] ^= 0x20,
        _ => {
            let format = chunks.iter_mut().find(|c| &c[..4] == b"fmt ").unwrap();
            let (at, size) = r.pick(&[(8, 2), (10, 2), (12, 4), (16, 4), (20, 2), (22, 2), (24, 2)]);
            number(r, format, at, size);
        }
    }
}

/// A file of so many channels and samples, with something wrong where it is to be hurt.
pub fn made(r: &mut Random, channels: usize, samples: usize, hurt: bool) -> Vec<u8> {
    let mut chunks = good(r, channels, samples);
    if hurt {
        damaged(r, &mut chunks);
    }
    let body = chunks.concat();
    let mut file = [b"RIFF", &(4 + body.len() as u32).to_le_bytes()[..], b"WAVE", &body].concat();
    if hurt {
        match r.below(16) {
            0 => file.truncate(r.below(file.len() as u64 + 1) as usize),
            1 => file.push(0),
            2 => number(r, &mut file, 4, 4),
            3 => file[r.pick(&[0, 3, 8, 11])] ^= 0x20,
            _ => {}
        }
    }
    file
}
