//! Floats and whole numbers to ask about: those at which something changes, and random ones, hostile and ordinary.

use crate::random::Random;

const SIGN: u32 = 0x8000_0000;

/// Bit patterns of floats of positive sign at which a function may change: zero, the ends of the subnormals, small wholes and halves,
/// the powers of two that the leaves and the limits name, each with its neighbours, the largest, infinity, and NaNs, quiet and signaling.
const SPECIAL: [u32; 60] = [
    0x0000_0000, 0x0000_0001, 0x0000_0002, 0x007f_ffff, 0x0080_0000, 0x0080_0001, 0x3eaa_aaaa, 0x3eaa_aaab,
    0x3eff_ffff, 0x3f00_0000, 0x3f00_0001, 0x3f2a_aaaa, 0x3f2a_aaab, 0x3f7f_ffff, 0x3f80_0000, 0x3f80_0001,
    0x3fc0_0000, 0x4000_0000, 0x4040_0000, 0x4a7f_ffff, 0x4a80_0000, 0x4a80_0001, 0x4aff_ffff, 0x4b00_0000,
    0x4b00_0001, 0x4b7f_ffff, 0x4b80_0000, 0x4b80_0001, 0x4eff_ffff, 0x4f00_0000, 0x4f00_0001, 0x4f7f_ffff,
    0x4f80_0000, 0x4f80_0001, 0x577f_ffff, 0x5780_0000, 0x5780_0001, 0x59ff_ffff, 0x5a00_0000, 0x5a00_0001,
    0x5eff_ffff, 0x5f00_0000, 0x5f00_0001, 0x5f7f_ffff, 0x5f80_0000, 0x5f80_0001, 0x7eff_ffff, 0x7f00_0000,
    0x7f7f_fffe, 0x7f7f_ffff, 0x7f80_0000, 0x7f80_0001, 0x7fa0_0000, 0x7fbf_ffff, 0x7fc0_0000, 0x7fc0_0001,
    0x7fff_ffff, 0x42f0_0000, 0x472c_4400, 0x473b_8000,
];

pub fn special_floats() -> impl Iterator<Item = u32> {
    SPECIAL.into_iter().flat_map(|x| [x, x | SIGN])
}

/// Every exponent of either sign, with fractions of few ones, few zeros, and their neighbours.
pub fn edge_floats() -> Vec<u32> {
    let fractions = edge_fractions();
    let mut floats = Vec::new();
    for head in 0..512 {
        floats.extend(fractions.iter().map(|f| head << 23 | f));
    }
    floats
}

fn edge_fractions() -> Vec<u32> {
    let mut fractions = Vec::new();
    for k in 0..24 {
        let bit = 1u32 << k;
        for near in [bit, bit.wrapping_neg(), bit ^ 0x40_0000] {
            fractions.extend([near.wrapping_sub(1), near, near.wrapping_add(1)].map(|f| f & 0x7f_ffff));
        }
    }
    fractions.sort();
    fractions.dedup();
    fractions
}

/// Sums and differences of two powers of two, and ties between two floats at every exponent, each with its neighbours.
pub fn edge_wholes() -> Vec<u64> {
    let mut wholes = Vec::new();
    for k in 0..64 {
        let high = 1u64 << k;
        wholes.extend(neighbours(high));
        for low in (0..k).map(|j| 1 << j) {
            wholes.extend(neighbours(high + low));
            wholes.extend(neighbours(high - low));
        }
    }
    for gap in 1..=40 {
        for digits in [0x80_0000, 0x80_0001, 0xaa_aaaa, 0xaa_aaab, 0xff_fffe, 0xff_ffff] {
            wholes.extend(neighbours(tie(digits, gap)));
        }
    }
    wholes.extend(neighbours(u64::MAX));
    wholes
}

fn neighbours(n: u64) -> [u64; 3] {
    [n.wrapping_sub(1), n, n.wrapping_add(1)]
}

/// Half-way between the floats of the 24 digits and of the next digits, where floats lie 2^gap apart.
fn tie(digits: u64, gap: u32) -> u64 {
    digits << gap | 1 << (gap - 1)
}

/// The same float, but a quiet NaN for every NaN. On Arm, Rust's minimum and maximum are wrong at a signaling one.
pub fn quiet(x: f32) -> f32 {
    if x.is_nan() { f32::NAN } else { x }
}

pub fn hostile_float(r: &mut Random) -> u32 {
    let sign = r.pick(&[0, SIGN]);
    match r.below(6) {
        0 => r.bits() as u32,
        1 => r.pick(&SPECIAL) | sign,
        2 => (r.pick(&SPECIAL) | sign).wrapping_add(r.below(9) as u32).wrapping_sub(4),
        3 => sign | (r.below(256) as u32) << 23 | (r.bits() & r.bits() & r.bits()) as u32 & 0x7f_ffff,
        4 => sign | ((hostile_whole(r) as f32).to_bits() + r.below(3) as u32).wrapping_sub(1) & !SIGN,
        _ => sign | ((r.below(1 << 25) as f32) / r.pick(&[1.0, 2.0, 3.0, 4.0, 1024.0])).to_bits(),
    }
}

pub fn hostile_whole(r: &mut Random) -> u64 {
    match r.below(5) {
        0 => r.bits(),
        1 => r.bits() >> r.below(64),
        2 => (1u64 << r.below(64)).wrapping_add(r.below(5)).wrapping_sub(2),
        3 => {
            let (digits, gap) = (r.below(1 << 23) | 1 << 23, r.below(40) as u32 + 1);
            tie(digits, gap).wrapping_add(r.below(3)).wrapping_sub(1)
        }
        _ => {
            let (high, low) = (1u64 << r.below(64), 1u64 << r.below(64));
            r.pick(&[high.wrapping_add(low), high.wrapping_sub(low)]).wrapping_add(r.below(3)).wrapping_sub(1)
        }
    }
}

/// A level, a position, or a number with few digits after the point.
pub fn ordinary_float(r: &mut Random) -> f32 {
    match r.below(3) {
        0 => r.below(1 << 24) as f32 / 8388608.0 - 1.0,
        1 => r.below(1 << 22) as f32,
        _ => (r.below(1 << 20) as f32 - 524288.0) / r.pick(&[2.0, 8.0, 10.0, 1000.0]),
    }
}

pub fn ordinary_whole(r: &mut Random) -> u64 {
    let width = r.pick(&[8, 22, 24, 32, 48]);
    r.below(1 << width)
}
