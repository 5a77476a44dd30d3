//! Document 01's event listing, read from its text alone: the header, the good records as records of the engine's, and where a bad one begins.

use crate::listing as call;
use crate::params;
use crate::record::Record;

/// How many samples a channel has.
pub const SAMPLES: u32 = 4096;

pub struct Header {
    /// 2 has the length kind 5 beside what 1 has.
    pub version: u8,
    pub channels: u8,
    pub auto_passthru: bool,
}

pub struct Event {
    pub kind: u8,
    pub record: Record,
}

/// What is left to read, and how much has been.
pub struct Input<'a> {
    rest: &'a [u8],
    pub offset: usize,
}

impl<'a> Input<'a> {
    pub fn new(bytes: &'a [u8]) -> Self {
        Input { rest: bytes, offset: 0 }
    }

    pub fn is_over(&self) -> bool {
        self.rest.is_empty()
    }

    pub fn header(&mut self) -> Option<Header> {
        let &[version @ 1..=2, channels @ 1..=2, auto @ 0..=1, ..] = self.rest else { return None };
        self.pass(3);
        Some(Header { version, channels, auto_passthru: auto == 1 })
    }

    /// None where the next record is bad: the offset stays at its first byte.
    pub fn event(&mut self, header: &Header) -> Option<Event> {
        let (length, rest) = self.rest.split_first_chunk()?;
        let (kind, fields) = rest.get(..u16::from_be_bytes(*length) as usize)?.split_first()?;
        let record = call_of(*kind, fields, header)?;
        self.pass(3 + fields.len());
        Some(Event { kind: *kind, record })
    }

    fn pass(&mut self, n: usize) {
        self.rest = &self.rest[n..];
        self.offset += n;
    }
}

fn call_of(kind: u8, fields: &[u8], header: &Header) -> Option<Record> {
    let float = |at: usize| word(fields, at);
    let note = || (fields[0], fields[1]);
    let record = match (kind, fields.len()) {
        (0, 44) => return parameters(fields, header.version),
        (1, 10) => call::start(note(), float(2), float(6)),
        (2, 2) => call::of_note(call::STOP, note()),
        (3, 6) => call::of_note(call::NOTE_SPEED, note()).with_u32(call::FLOAT, float(2)),
        (4, 0) => Record::new(call::START_RECORDING),
        (5, 0) => Record::new(call::STOP_RECORDING),
        (6, 4) if header.channels == 1 => call::frame(1, [float(0), 0, 0], SAMPLES),
        (6, 8) if header.channels == 2 => call::frame(2, [float(0), float(4), 0], 2 * SAMPLES),
        (7, 0) => Record::new(call::RESET),
        _ => return None,
    };
    Some(record)
}

/// The fields in the order of document 01.
fn parameters(f: &[u8], version: u8) -> Option<Record> {
    let (auto, mode, kind, note_off) = (f[8], f[9], f[10], f[23]);
    if auto > 1 || mode > 2 || kind > 3 + version || note_off > 2 {
        return None;
    }
    let bytes = [(params::AUTO_PASSTHRU, auto), (params::MODE, mode), (params::KIND, kind), (params::NOTE_OFF, note_off)];
    let wides = [(params::ATTACK, 0), (params::DECAY, 4)];
    let words = [
        (params::VALUE, 11),
        (params::SPEED, 15),
        (params::REVERSE, 19),
        (params::VOLUME, 24),
        (params::RATE, 28),
        (params::TEMPO, 32),
        (params::NUMERATOR, 36),
        (params::DENOMINATOR, 40),
    ];
    let r = bytes.into_iter().fold(Record::new(call::PARAMETERS), |r, (to, byte)| r.with_u8(to, byte));
    let r = wides.into_iter().fold(r, |r, (to, from)| r.with_u64(to, word(f, from) as u64));
    Some(words.into_iter().fold(r, |r, (to, from)| r.with_u32(to, word(f, from))))
}

fn word(bytes: &[u8], at: usize) -> u32 {
    u32::from_be_bytes(bytes[at..at + 4].try_into().unwrap())
}
