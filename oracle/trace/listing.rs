//! The records of a listing: their kinds and fields, as crates/oracle_trace reads them, and how they read to a person.

use crate::params;
use crate::puts;
use crate::record::Record;

pub const SET_UP: u8 = 0;
pub const PARAMETERS: u8 = 1;
pub const START: u8 = 2;
pub const STOP: u8 = 3;
pub const NOTE_SPEED: u8 = 4;
pub const START_RECORDING: u8 = 5;
pub const STOP_RECORDING: u8 = 6;
pub const RESET: u8 = 7;
pub const SAMPLE: u8 = 8;
pub const FRAME: u8 = 9;
pub const PUT: u8 = 10;
pub const RECORDINGS: u8 = 11;
pub const FRAMES_PROCESSED: u8 = 12;
pub const DATA_LEN: u8 = 13;
pub const IS_RECORDING: u8 = 14;
pub const LAST_OFFSET: u8 = 15;
pub const ERROR_TEXT: u8 = 16;
pub const ACTIVE_NOTES: u8 = 17;
pub const VOICE_INFO: u8 = 18;
pub const FRAMES: u8 = 19;
pub const WAVEFORM: u8 = 20;
pub const RUN: u8 = 21;
pub const INTERPOLATION: u8 = 22;
pub const PIECE: u8 = 23;
pub const WRITE: u8 = 24;
pub const READ: u8 = 25;
pub const CHOOSE: u8 = 26;
pub const DELETE: u8 = 27;
pub const GATHER: u8 = 28;

/// The kinds by their numbers. Those in brackets are no calls.
pub const NAMES: [&str; 29] = [
    "set-up", "parameters", "start_playing", "stop_playing", "set_note_speed", "start_recording", "stop_recording", "reset", "process_sample",
    "process_frame", "(a field put)", "(recordings)", "get_frames_processed", "get_data_len", "is_recording", "get_last_recorded_offset",
    "print_error_info", "iter_active_notes", "get_voice_info", "many of process_frame", "get_waveform_summary", "process_frames", "set_interpolation",
    "(a piece of a file)", "write_wave", "read_wave", "choose_phrase", "delete_phrase", "gather",
];

/// How many samples of memory the port has to lend.
pub const MEMORY: usize = 65536;
/// How many entries a run of frames has at most.
pub const MOST_ENTRIES: usize = 2048;
/// How many entries the lists for the error text, for the active notes and for the voice info have at most.
pub const TEXT: usize = 64;
pub const NOTES: usize = 34;
pub const INFOS: usize = 34;
/// The same of the list for a waveform, of which a sum is shown; before a call it holds 7.0 everywhere.
pub const VALUES: usize = 4100;
/// The bytes of the file that is written, put together and read, and how many a piece has at most.
pub const FILE: usize = 1024;
pub const PIECE_BYTES: usize = 56;
/// Of how many words of the memory a number is shown after a read.
pub const MIXED: usize = 2048;

/// The places of the fields.
pub const NOTE: usize = 1;
pub const NOTE_CHANNEL: usize = 2;
pub const ENTRIES: usize = 1;
pub const AUTO: usize = 1;
pub const ON: usize = 1;
pub const PHRASE: usize = 1;
pub const FLOAT: usize = 4;
pub const SEED: usize = 4;
pub const COUNT: usize = 4;
pub const SECOND: usize = 8;
pub const CHANNEL: usize = 8;
pub const SIZE: usize = 8;
pub const COLUMNS: usize = 8;
pub const ROOM: usize = 12;
pub const TIMES: usize = 12;
pub const RUN_LENGTH: usize = 12;
pub const LENT: usize = 16;
pub const BYTES: usize = 1;
pub const PLACE: usize = 4;
pub const FIRST_BYTE: usize = 8;
pub const WAVE_RATE: usize = 4;
pub const SAID: usize = 1;
pub const FILE_LENGTH: usize = 12;

pub fn set_up(count: u32, auto: bool, memory: u32) -> Record {
    Record::new(SET_UP).with_u32(COUNT, count).with_u8(AUTO, auto as u8).with_u32(SIZE, memory)
}

pub fn start(note: (u8, u8), position: u32, velocity: u32) -> Record {
    of_note(START, note).with_u32(FLOAT, position).with_u32(SECOND, velocity)
}

pub fn of_note(kind: u8, note: (u8, u8)) -> Record {
    Record::new(kind).with_u8(NOTE, note.0).with_u8(NOTE_CHANNEL, note.1)
}

pub fn interpolation(on: bool) -> Record {
    Record::new(INTERPOLATION).with_u8(ON, on as u8)
}

pub fn choose(phrase: u8) -> Record {
    Record::new(CHOOSE).with_u8(PHRASE, phrase)
}

pub fn delete(phrase: u8) -> Record {
    Record::new(DELETE).with_u8(PHRASE, phrase)
}

pub fn gather(lent: u32) -> Record {
    Record::new(GATHER).with_u32(LENT, lent)
}

pub fn sample(channel: u32, input: u32, lent: u32) -> Record {
    Record::new(SAMPLE).with_u32(FLOAT, input).with_u32(CHANNEL, channel).with_u32(LENT, lent)
}

pub fn frame(entries: u8, inputs: [u32; 3], lent: u32) -> Record {
    let record = Record::new(FRAME).with_u8(ENTRIES, entries).with_u32(LENT, lent);
    record.with_u32(FLOAT, inputs[0]).with_u32(FLOAT + 4, inputs[1]).with_u32(FLOAT + 8, inputs[2])
}

pub fn frames(entries: u8, first: u32, more: u32, times: u32, lent: u32) -> Record {
    let record = Record::new(FRAMES).with_u8(ENTRIES, entries).with_u32(LENT, lent);
    record.with_u32(FLOAT, first).with_u32(SECOND, more).with_u32(TIMES, times)
}

/// A run of so many entries, which both sides make from the seed.
pub fn run(seed: u32, length: u32, lent: u32) -> Record {
    Record::new(RUN).with_u32(SEED, seed).with_u32(RUN_LENGTH, length).with_u32(LENT, lent)
}

/// The entries of a run: each from the 24 high bits of a number that the one before it gives, from -1 to 1.
pub fn inputs(r: &Record) -> Vec<f32> {
    let mut x = r.u32_at(SEED);
    let mut next = || {
        x = x.wrapping_mul(1664525).wrapping_add(1013904223);
        (x / 256) as f32 * 1.1920929e-7 - 1.0
    };
    (0..(r.u32_at(RUN_LENGTH) as usize).min(MOST_ENTRIES)).map(|_| next()).collect()
}

pub fn query(kind: u8, channel: u32, room: u32) -> Record {
    Record::new(kind).with_u32(CHANNEL, channel).with_u32(ROOM, room)
}

pub fn waveform(columns: u32, room: u32, lent: u32) -> Record {
    Record::new(WAVEFORM).with_u32(COLUMNS, columns).with_u32(ROOM, room).with_u32(LENT, lent)
}

/// At most as many bytes as a piece has, put into the file.
pub fn piece(place: usize, bytes: &[u8]) -> Record {
    let mut record = Record::new(PIECE).with_u8(BYTES, bytes.len() as u8).with_u32(PLACE, place as u32);
    record.0[FIRST_BYTE..FIRST_BYTE + bytes.len()].copy_from_slice(bytes);
    record
}

/// A whole file, put together and read.
pub fn file_read(file: &[u8], lent: u32) -> Vec<Record> {
    let mut records: Vec<Record> = file.chunks(PIECE_BYTES).enumerate().map(|(k, bytes)| piece(k * PIECE_BYTES, bytes)).collect();
    records.push(read(file.len() as u32, lent));
    records
}

pub fn write(rate: u32, room: u32, lent: u32) -> Record {
    Record::new(WRITE).with_u32(WAVE_RATE, rate).with_u32(ROOM, room).with_u32(LENT, lent)
}

/// The file is read to that length.
pub fn read(length: u32, lent: u32) -> Record {
    Record::new(READ).with_u32(FILE_LENGTH, length).with_u32(LENT, lent)
}

/// The file is read to the length that the low two bytes of its own size say.
pub fn read_said(lent: u32) -> Record {
    read(0, lent).with_u8(SAID, 1)
}

pub fn bytes(records: &[Record]) -> Vec<u8> {
    records.iter().flat_map(|r| r.0).collect()
}

/// The record in words.
pub fn describe(r: &Record) -> String {
    let kind = r.u8_at(0);
    let note = format!("note {} of channel {}", r.u8_at(NOTE), r.u8_at(NOTE_CHANNEL));
    let fields = match kind {
        SET_UP => format!("{} channels, auto pass-through {}, {} samples of memory", r.u32_at(COUNT), r.u8_at(AUTO), r.u32_at(SIZE)),
        PARAMETERS => describe_parameters(r),
        START => format!("{note}, position {}, velocity {}", float(r, FLOAT), float(r, SECOND)),
        STOP => note,
        NOTE_SPEED => format!("{note}, speed {}", float(r, FLOAT)),
        SAMPLE => format!("channel {}, input {}, {} samples lent", r.u32_at(CHANNEL), float(r, FLOAT), r.u32_at(LENT)),
        FRAME => {
            let entries: Vec<String> = (0..r.u8_at(ENTRIES).min(3) as usize).map(|j| float(r, FLOAT + 4 * j)).collect();
            format!("[{}], {} samples lent", entries.join(", "), r.u32_at(LENT))
        }
        FRAMES => format!(
            "{} times {} entries, from {} on, each time more by {}, {} samples lent",
            r.u32_at(TIMES),
            r.u8_at(ENTRIES),
            float(r, FLOAT),
            float(r, SECOND),
            r.u32_at(LENT)
        ),
        RUN => format!("{} entries from the seed {}, {} samples lent", r.u32_at(RUN_LENGTH), r.u32_at(SEED), r.u32_at(LENT)),
        PUT => puts::describe(r),
        INTERPOLATION => (if r.u8_at(ON) != 0 { "on" } else { "off" }).into(),
        FRAMES_PROCESSED..=LAST_OFFSET => format!("channel {}", r.u32_at(CHANNEL)),
        ERROR_TEXT..=VOICE_INFO => format!("channel {}, room for {}", r.u32_at(CHANNEL), r.u32_at(ROOM)),
        PIECE => format!("of {} bytes, from byte {} on", r.u8_at(BYTES), r.u32_at(PLACE)),
        WRITE => format!("rate {}, room for {}, {} samples lent", r.u32_at(WAVE_RATE), r.u32_at(ROOM), r.u32_at(LENT)),
        READ if r.u8_at(SAID) != 0 => format!("as long as it says, {} samples lent", r.u32_at(LENT)),
        READ => format!("{} bytes, {} samples lent", r.u32_at(FILE_LENGTH), r.u32_at(LENT)),
        CHOOSE | DELETE => format!("phrase {}", r.u8_at(PHRASE)),
        GATHER => format!("{} samples lent", r.u32_at(LENT)),
        WAVEFORM => format!("{} columns, room for {}, {} samples lent", r.u32_at(COLUMNS), r.u32_at(ROOM), r.u32_at(LENT)),
        _ => String::new(),
    };
    format!("{} {fields}", NAMES.get(kind as usize).unwrap_or(&"?")).trim_end().into()
}

fn describe_parameters(r: &Record) -> String {
    let p = params::params(r);
    format!(
        "attack {}, decay {}, auto pass-through {}, {:?}, {:?} ({:08X}), speed {}, reverse speed {}, {:?}, volume {}, rate {}, tempo {}, signature {}/{}",
        p.attack_samples,
        p.decay_samples,
        p.auto_passthru,
        p.loop_mode,
        p.loop_length,
        r.u32_at(params::VALUE),
        float(r, params::SPEED),
        float(r, params::REVERSE),
        p.note_off_behavior,
        float(r, params::VOLUME),
        float(r, params::RATE),
        float(r, params::TEMPO),
        p.transport.time_sig_numerator,
        p.transport.time_sig_denominator
    )
}

fn float(r: &Record, at: usize) -> String {
    format!("{:?} ({:08X})", r.f32_at(at), r.u32_at(at))
}
