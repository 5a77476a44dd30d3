//! What a part is: its functions, its inputs, and the Rust's answers to them.

use crate::random::Random;
use crate::record::Record;

pub struct Part {
    pub name: &'static str,
    /// In the order of the answers in a line.
    pub functions: &'static [Function],
    /// Inputs that every run has.
    pub edges: fn() -> Vec<Record>,
    /// Further inputs from a seed, by their kind. Each is made with the one before it at hand.
    pub random: &'static [(&'static str, fn(&mut Random, &Record) -> Record)],
    pub answer: fn(&Record, &mut Line),
    /// What is counted among the inputs: its name, and whether an input is such.
    pub met: &'static [(&'static str, fn(&Record) -> bool)],
}

impl Part {
    /// `count` random inputs of each kind.
    pub fn random(&self, mut r: Random, count: usize) -> impl Iterator<Item = Record> + '_ {
        let mut last = Record::new(0);
        self.random.iter().flat_map(move |kind| std::iter::repeat(kind.1).take(count)).map(move |make| {
            last = make(&mut r, &last);
            last
        })
    }
}

pub struct Function {
    pub name: &'static str,
    pub args: &'static [Arg],
}

/// An argument: its name, its place in the record and its width in bytes.
#[derive(Clone, Copy)]
pub struct Arg(pub &'static str, pub usize, pub usize);

/// The answers to a record: words with a space between them, each a function's answer.
#[derive(Default)]
pub struct Line {
    pub text: Vec<u8>,
    words: u32,
    /// The bit of each word that is a refusal.
    pub refused: u64,
}

impl Line {
    pub fn clear(&mut self) {
        self.text.clear();
        self.words = 0;
        self.refused = 0;
    }

    /// An answer: numbers with a colon between them, each with its count of digits.
    pub fn word(&mut self, numbers: &[(u32, u64)]) {
        for (k, &(digits, n)) in numbers.iter().enumerate() {
            if k > 0 {
                self.text.push(b':');
            } else if self.words > 0 {
                self.text.push(b' ');
            }
            self.text.extend((0..digits).rev().map(|d| b"0123456789ABCDEF"[(n >> (4 * d)) as usize % 16]));
        }
        self.words += 1;
    }

    /// An answer that begins with document 01's number for it: that of done, or of the refusal of a bad argument, which has no value.
    pub fn answer(&mut self, done: bool, value: &[(u32, u64)]) {
        let mut numbers = vec![(1, if done { 0 } else { 7 })];
        numbers.extend(value.iter().map(|&(digits, n)| (digits, if done { n } else { 0 })));
        self.refused |= (!done as u64) << self.words;
        self.word(&numbers);
    }

    pub fn u32(&mut self, n: u32) {
        self.word(&[(8, n as u64)]);
    }

    pub fn u64(&mut self, n: u64) {
        self.word(&[(16, n)]);
    }

    pub fn flag(&mut self, b: bool) {
        self.word(&[(1, b as u64)]);
    }

    pub fn float(&mut self, x: f32) {
        self.word(&[bits(x)]);
    }
}

/// A float by its bits. One NaN counts as any other.
pub fn bits(x: f32) -> (u32, u64) {
    (8, if x.is_nan() { 0x7fc0_0000 } else { x.to_bits() as u64 })
}

/// A position or a shift by its value: a zero of either sign counts as the other.
pub fn place(x: f32) -> (u32, u64) {
    if x == 0.0 { (8, 0) } else { bits(x) }
}
