//! Part 0: the leaves of the crate binary32 beside Rust's own functions. The arguments: floats a at 4 and b at 8, a whole number n at 16.

use crate::part::{Arg, Function, Line, Part};
use crate::random::Random;
use crate::record::Record;
use crate::values::{edge_floats, edge_wholes, hostile_float, hostile_whole, ordinary_float, ordinary_whole, quiet, special_floats};

const A: Arg = Arg("a", 4, 4);
const B: Arg = Arg("b", 8, 4);
const N: Arg = Arg("n", 16, 8);
const LOW: Arg = Arg("n", 20, 4);

pub const PART: Part = Part {
    name: "leaves",
    functions: &[
        Function { name: "u64_to_f32", args: &[N] },
        Function { name: "usize_to_f32", args: &[N] },
        Function { name: "u32_to_f32", args: &[LOW] },
        Function { name: "f32_to_usize", args: &[A] },
        Function { name: "f32_to_u32", args: &[A] },
        Function { name: "floor", args: &[A] },
        Function { name: "min", args: &[A, B] },
        Function { name: "max", args: &[A, B] },
        Function { name: "abs", args: &[A] },
        Function { name: "crossing", args: &[A, B] },
        Function { name: "to_bits(from_bits)", args: &[A] },
    ],
    edges,
    random: &[("hostile", |r, _| hostile(r)), ("ordinary", |r, _| ordinary(r))],
    answer,
    met: &[],
};

fn record(a: u32, b: u32, n: u64) -> Record {
    Record::new(0).with_u32(A.1, a).with_u32(B.1, b).with_u64(N.1, n)
}

/// Each edge beside itself, its neighbour and its negative; each two special floats; and with these, in turn, each whole number.
fn edges() -> Vec<Record> {
    let mut pairs = Vec::new();
    for a in edge_floats() {
        pairs.extend([(a, a), (a, a.wrapping_add(1)), (a, a ^ 0x8000_0000)]);
    }
    for a in special_floats() {
        pairs.extend(special_floats().map(|b| (a, b)));
    }
    let wholes = edge_wholes();
    pairs.iter().zip(wholes.iter().cycle()).map(|(&(a, b), &n)| record(a, b, n)).collect()
}

fn hostile(r: &mut Random) -> Record {
    let a = hostile_float(r);
    let b = match r.below(4) {
        0 => a ^ r.pick(&[0, 0x8000_0000]),
        1 => a.wrapping_add(r.below(5) as u32).wrapping_sub(2),
        _ => hostile_float(r),
    };
    record(a, b, hostile_whole(r))
}

fn ordinary(r: &mut Random) -> Record {
    record(ordinary_float(r).to_bits(), ordinary_float(r).to_bits(), ordinary_whole(r))
}

fn answer(record: &Record, line: &mut Line) {
    let (a, b, n) = (record.f32_at(A.1), record.f32_at(B.1), record.u64_at(N.1));
    line.float(n as f32);
    line.float(n as usize as f32);
    line.float(n as u32 as f32);
    line.u64(a as usize as u64);
    line.u32(a as u32);
    line.float(a.floor());
    line.float(of_two(f32::min, a, b));
    line.float(of_two(f32::max, a, b));
    line.float(a.abs());
    line.flag(a.signum() != b.signum() || a == 0.0);
    line.float(f32::from_bits(a.to_bits()));
}

/// Rust's minimum or maximum. Of two zeros it may give either, and the port gives the first.
fn of_two(f: fn(f32, f32) -> f32, a: f32, b: f32) -> f32 {
    let r = f(quiet(a), quiet(b));
    if a == 0.0 && b == 0.0 && r == 0.0 { a } else { r }
}
