//! Listings from a seed. Each is of a style: what it does often, how large its recordings are, and how hostile its floats.

use crate::listing::*;
use crate::params;
use crate::puts;
use crate::random::Random;
use crate::record::Record;
use crate::values::{hostile_float, hostile_whole};
use crate::wave;

pub struct Style {
    pub name: &'static str,
    /// How many of about 1,000 listings are of this style.
    share: u64,
    make: fn(&mut Song),
}

pub const STYLES: &[Style] = &[
    Style { name: "song", share: 180, make: song },
    Style { name: "long", share: 10, make: long },
    Style { name: "wide", share: 3, make: wide },
    Style { name: "crowd", share: 40, make: crowd },
    Style { name: "hostile", share: 150, make: hostile },
    Style { name: "changes", share: 140, make: changes },
    Style { name: "over", share: 130, make: over },
    Style { name: "full", share: 60, make: full },
    Style { name: "resets", share: 30, make: resets },
    Style { name: "edges", share: 100, make: edges },
    Style { name: "refusals", share: 120, make: refusals },
    Style { name: "broken", share: 50, make: broken },
    Style { name: "spoiled", share: 100, make: spoiled },
    Style { name: "late", share: 50, make: late },
    Style { name: "noise", share: 30, make: noise },
    Style { name: "runs", share: 80, make: runs },
    Style { name: "phrases", share: 200, make: phrases },
    Style { name: "gathers", share: 100, make: gathers },
];

const NOTES_USED: [(u8, u8); 4] = [(60, 0), (61, 0), (60, 1), (127, 15)];

/// The listing of that number, and the index of its style.
pub fn listing(seed: u64, number: u64) -> (usize, Vec<Record>) {
    let mut r = Random::new(seed.wrapping_mul(0x1_0000_0001).wrapping_add(number).wrapping_mul(0x9e37_79b9_7f4a_7c15));
    let mut place = r.below(STYLES.iter().map(|s| s.share).sum());
    let style = STYLES.iter().position(|s| if place < s.share { true } else { place -= s.share; false }).unwrap();
    let mut s = Song { r, records: Vec::new(), hostile: 0, bad: 0, count: 1, memory: 0, room: 0, recorder: None, data: 0, chosen: 0, others: [0; 8] };
    (STYLES[style].make)(&mut s);
    s.records.push(Record::new(RECORDINGS));
    (style, waved(phrased(sprinkled(s.records, seed, number), seed, number), seed, number))
}

/// The listing with 11/12's calls: a third are left as they are, in the others phrases are chosen, recorded, deleted and gathered anywhere. It has random numbers
/// of its own.
fn phrased(records: Vec<Record>, seed: u64, number: u64) -> Vec<Record> {
    let mut r = Random::new(seed.wrapping_mul(0x1_0000_0001).wrapping_add(number).wrapping_mul(0xd6e8_feb8_6659_fd93));
    let way = r.below(3);
    let (mut count, mut least) = (1, 1);
    let mut phrased = Vec::new();
    for record in records {
        if way > 0 && !phrased.is_empty() && r.below(12) == 0 {
            phrased.extend(of_phrases(&mut r, count, least));
        }
        if record.u8_at(0) == SET_UP {
            count = record.u32_at(COUNT).clamp(1, 2);
            least = record.u32_at(SIZE) / count * count;
        }
        phrased.push(record);
    }
    phrased
}

/// One chosen, or recorded too; one deleted; all gathered; or all that they have.
fn of_phrases(r: &mut Random, count: u32, least: u32) -> Vec<Record> {
    let any = r.below(8) as u8;
    let k = r.pick(&[0, 0, 1, 1, 2, 3, any, any, any, any, 8, 255]);
    let lent = r.pick(&[MEMORY as u32, MEMORY as u32, least, least, least.wrapping_sub(1)]);
    match r.below(8) {
        0 | 1 => vec![choose(k)],
        2 | 3 => {
            let mut made = vec![Record::new(STOP_RECORDING), choose(k), Record::new(START_RECORDING)];
            made.extend((0..r.below(6)).map(|_| frame(count as u8, [r.bits() as u32 >> 2, r.bits() as u32 >> 2, 0], MEMORY as u32)));
            made.push(Record::new(STOP_RECORDING));
            made
        }
        4 => vec![delete(k)],
        5 => vec![Record::new(STOP_RECORDING), delete(k), gather(lent), Record::new(RECORDINGS)],
        6 => vec![gather(lent)],
        _ => vec![Record::new(RECORDINGS)],
    }
}

/// The listing with 10/12's calls: a third are left as they are, in the others files are written and read anywhere. It has random numbers of its own.
fn waved(records: Vec<Record>, seed: u64, number: u64) -> Vec<Record> {
    let mut r = Random::new(seed.wrapping_mul(0x1_0000_0001).wrapping_add(number).wrapping_mul(0x94d0_49bb_1331_11eb));
    let way = r.below(3);
    let (mut count, mut room) = (1, 1);
    let mut waved = Vec::new();
    for record in records {
        if way > 0 && !waved.is_empty() && r.below(10) == 0 {
            if r.below(4) == 0 {
                waved.push(Record::new(STOP_RECORDING));
            }
            waved.extend(of_waves(&mut r, count, room));
        }
        if record.u8_at(0) == SET_UP {
            count = record.u32_at(COUNT).clamp(1, 2) as u64;
            room = record.u32_at(SIZE) as u64 / count;
        }
        waved.push(record);
    }
    waved
}

/// A file written; written, hurt or not, and read; put together and read; the last one read again; or recordings of different lengths. The room is
/// that of a channel.
fn of_waves(r: &mut Random, count: u64, room: u64) -> Vec<Record> {
    let least = (count * room) as u32;
    let lent = r.pick(&[MEMORY as u32, MEMORY as u32, MEMORY as u32, least, least, least.wrapping_sub(1)]);
    let rate = r.pick(&[0, 44_100, 48_000, u32::MAX]);
    let whole = write(rate, FILE as u32, lent);
    match r.below(11) {
        // A sample more on one channel than on the other, where there are two.
        10 => {
            let one = sample(r.below(count) as u32, 0, MEMORY as u32);
            vec![Record::new(START_RECORDING), one, Record::new(STOP_RECORDING), write(rate, r.pick(&[0, FILE as u32]), lent), read_said(lent)]
        }
        0 | 1 => {
            let (few, any) = (58 + 4 * count * r.below(9), r.below(FILE as u64));
            vec![write(rate, r.pick(&[57, 58, few, few, few + 3, any]) as u32, lent)]
        }
        2 | 3 => vec![whole, read_said(lent)],
        4 => {
            let place = r.pick(&[12, 64, 100]);
            let place = r.below(place) as usize;
            let length = r.pick(&[0, 57, 58, 58 + 4 * count, 62 + 4 * count]);
            vec![whole, piece(place, &[r.bits() as u8]), if length == 0 { read_said(lent) } else { read(length as u32, lent) }]
        }
        5 => vec![read_said(lent)],
        kind => {
            let channels = if r.below(6) == 0 { r.below(3) + 1 } else { count };
            let any = r.below(9);
            let samples = r.pick(&[any, any, any, room, room, room + 1, room.saturating_sub(1), 0]).min(200 / channels);
            file_read(&wave::made(r, channels as usize, samples as usize, kind == 9), lent)
        }
    }
}

/// The listing with 7/12's setting: two of six are left as they are, in one it is put on behind each set-up, and in the others on and off anywhere. It
/// has random numbers of its own.
fn sprinkled(records: Vec<Record>, seed: u64, number: u64) -> Vec<Record> {
    let mut r = Random::new(seed.wrapping_mul(0x1_0000_0001).wrapping_add(number).wrapping_mul(0xbf58_476d_1ce4_e5b9));
    let way = r.below(6);
    let mut sprinkled = Vec::new();
    for record in records {
        let begins = record.u8_at(0) == SET_UP;
        sprinkled.push(record);
        match way {
            0 | 1 => (),
            2 if begins => sprinkled.push(interpolation(true)),
            2 => (),
            _ if r.below(9) == 0 || (begins && r.below(2) == 0) => sprinkled.push(interpolation(r.below(3) > 0)),
            _ => (),
        }
    }
    sprinkled
}

/// A listing in the making, with what its maker knows of the sampler.
pub struct Song {
    r: Random,
    records: Vec<Record>,
    /// How many floats of 100 are hostile, and how many arguments of 100 ask for a refusal.
    hostile: u64,
    bad: u64,
    count: u64,
    memory: u64,
    room: u64,
    /// The recorder's write place, and the length of the data.
    recorder: Option<u64>,
    data: u64,
    /// The phrase that is chosen, and the lengths of the others.
    chosen: usize,
    others: [u64; 8],
}

fn song(s: &mut Song) {
    let room = s.r.pick(&[8, 16, 50, 100, 500, 4000]);
    s.begin(room);
    let n = s.r.below(30) + 3;
    s.record(n);
    for _ in 0..s.r.below(12) + 6 {
        s.event();
        let n = s.r.below(6) + 1;
        s.frames(n);
    }
}

/// The default parameters, whose ramps are long, or a long recording.
fn long(s: &mut Song) {
    s.set_up(2000);
    let n = s.r.below(200) + 50;
    s.record(n);
    for _ in 0..3 {
        s.start();
        let n = s.r.below(150) + 20;
        s.frames(n);
        s.stop();
        let n = s.r.below(120) + 20;
        s.frames(n);
    }
}

/// A recording of some ten thousand samples.
fn wide(s: &mut Song) {
    let room = s.r.pick(&[20_000, 30_000]);
    s.begin(room);
    s.call(START_RECORDING);
    let n = 10_000 + s.r.below(room - 9_000);
    s.many(n);
    s.call(STOP_RECORDING);
    for _ in 0..s.r.below(12) + 6 {
        s.event();
        let n = s.r.below(6) + 1;
        s.frames(n);
        if s.r.below(6) == 0 {
            let n = s.r.below(1000);
            s.many(n);
        }
    }
}

fn crowd(s: &mut Song) {
    let room = s.r.pick(&[2, 5, 9, 32]);
    s.begin(room);
    let n = s.r.below(6) + 1;
    s.record(n);
    for k in 0..s.r.below(8) + 29 {
        s.start_note((k as u8 % 40, 0));
        if s.r.below(12) == 0 {
            s.frames(1);
        }
    }
    for room in [0, 20, 31, 32] {
        s.ask(VOICE_INFO, room);
        s.ask(ACTIVE_NOTES, room);
    }
    // Keys let go at once: the first, or every second or third.
    let step = s.r.pick(&[64, 64, 2, 3]);
    for k in (s.r.below(4) as u8 / 3..40).step_by(step) {
        s.stop_note((k, 0));
    }
    if s.r.below(2) == 0 {
        s.single();
    }
    s.frames(1);
    // An empty recording has room for a voice, and takes none.
    if s.r.below(2) == 0 {
        s.record(0);
        s.start();
        let n = s.r.below(3);
        s.record(n);
    }
    for _ in 0..s.r.below(8) + 3 {
        match s.r.below(4) {
            0 => s.settings(),
            1 => {
                let k = s.r.below(40) as u8;
                s.stop_note((k, 0));
            }
            2 => s.start(),
            _ => s.frames(1),
        }
    }
}

fn hostile(s: &mut Song) {
    s.hostile = s.r.pick(&[10, 50, 90]);
    let room = s.r.pick(&[1, 3, 8, 40, 300]);
    s.begin(room);
    let n = s.r.below(10) + 1;
    s.record(n);
    for _ in 0..s.r.below(14) + 6 {
        s.event();
        let n = s.r.below(4) + 1;
        s.frames(n);
    }
}

/// Parameters change under sounding voices.
fn changes(s: &mut Song) {
    s.hostile = s.r.pick(&[0, 0, 5, 20]);
    let room = s.r.pick(&[4, 10, 30, 200]);
    s.begin(room);
    let n = s.r.below(25) + 2;
    s.record(n);
    for _ in 0..s.r.below(3) + 1 {
        s.start();
    }
    for _ in 0..s.r.below(25) + 8 {
        match s.r.below(8) {
            0 => s.start(),
            1 => s.stop(),
            2 => s.speed(),
            _ => s.settings(),
        }
        let n = s.r.below(4) + 1;
        s.frames(n);
    }
}

/// Recording over sounding voices, with stops that cut the data.
fn over(s: &mut Song) {
    s.hostile = s.r.pick(&[0, 0, 5]);
    let room = s.r.pick(&[4, 12, 40, 200]);
    s.begin(room);
    let n = s.r.below(12) + 1;
    s.record(n);
    for _ in 0..s.r.below(3) + 1 {
        s.start();
    }
    for _ in 0..s.r.below(16) + 8 {
        match s.r.below(12) {
            0..=2 => s.call(START_RECORDING),
            3..=5 => s.call(STOP_RECORDING),
            6 => s.start(),
            7 => s.stop(),
            8 => s.query(LAST_OFFSET),
            9 => s.record(0),
            _ => s.event(),
        }
        let n = s.r.below(8);
        s.frames(n);
    }
}

/// The capacity is reached, and samples are dropped.
fn full(s: &mut Song) {
    let room = s.r.below(6) + 1;
    s.begin(room);
    s.call(START_RECORDING);
    for _ in 0..s.r.below(10) + 4 {
        let n = s.r.below(room + 2);
        s.frames(n);
        match s.r.below(6) {
            0 => s.call(STOP_RECORDING),
            1 => s.call(START_RECORDING),
            2 | 3 => s.start(),
            4 => s.query(ERROR_TEXT),
            _ => s.event(),
        }
    }
}

fn resets(s: &mut Song) {
    for _ in 0..s.r.below(3) + 1 {
        let room = s.r.pick(&[1, 6, 30]);
        s.begin(room);
        for _ in 0..s.r.below(3) + 1 {
            let n = s.r.below(8) + 1;
            s.record(n);
            for _ in 0..s.r.below(5) + 1 {
                s.event();
                let n = s.r.below(4);
                s.frames(n);
            }
            s.call(RESET);
            let n = s.r.below(3);
            s.frames(n);
        }
    }
}

/// Small recordings, and lengths and positions at their edges.
fn edges(s: &mut Song) {
    s.hostile = s.r.pick(&[0, 0, 3]);
    s.bad = 2;
    let room = s.r.below(9) + 1;
    s.begin(room);
    let n = s.r.below(room) + 1;
    s.record(n);
    for _ in 0..s.r.below(20) + 8 {
        match s.r.below(6) {
            0 => s.start(),
            1 => s.settings(),
            _ => s.event(),
        }
        let n = s.r.below(5) + 1;
        s.frames(n);
    }
}

/// Every row of the table.
fn refusals(s: &mut Song) {
    s.bad = s.r.pick(&[10, 30, 60]);
    let room = s.r.pick(&[1, 4, 20]);
    s.begin(room);
    let n = s.r.below(6) + 1;
    s.record(n);
    for _ in 0..s.r.below(40) + 20 {
        s.any();
    }
}

/// Set-ups that are refused, after which every call is.
fn broken(s: &mut Song) {
    for _ in 0..s.r.below(3) + 1 {
        let (count, memory) = s.r.pick(&[(0, 10), (3, 10), (0xffff_ffff, 65536), (1, 0), (2, 1), (2, 0)]);
        s.count = 1;
        s.records.push(set_up(count, false, memory));
        s.settings();
        for _ in 0..s.r.below(30) + 6 {
            s.any();
        }
    }
    let room = s.r.below(3) + 1;
    s.begin(room);
    s.record(1);
    s.event();
    s.frames(1);
}

/// A field of the record is put to its limit or past it, and calls follow.
fn spoiled(s: &mut Song) {
    for _ in 0..s.r.below(6) + 2 {
        let room = s.r.pick(&[2, 6, 20]);
        s.begin(room);
        let n = s.r.below(room) + 1;
        s.record(n);
        for _ in 0..s.r.below(4) + 1 {
            s.start();
        }
        s.stop();
        let n = s.r.below(4);
        s.frames(n);
        if s.r.below(2) == 0 {
            s.choose();
            let n = s.r.below(room) / 2;
            s.record(n);
        }
        s.spoil();
        for _ in 0..s.r.below(6) + 3 {
            s.any();
        }
    }
    s.begin(1);
    s.record(1);
}

/// Clocks that are far on, up to their end.
fn late(s: &mut Song) {
    let room = s.r.pick(&[2, 10, 60]);
    s.begin(room);
    if s.r.below(2) == 0 {
        s.put_on();
    }
    let n = s.r.below(8) + 1;
    s.record(n);
    for _ in 0..s.r.below(14) + 6 {
        match s.r.below(5) {
            0 => s.put_on(),
            1 => s.start(),
            2 => s.single(),
            _ => s.event(),
        }
        let n = s.r.below(4) + 1;
        if s.r.below(4) == 0 {
            s.many(n);
        } else {
            s.frames(n);
        }
    }
}

/// Runs of frames, with starts, stops and changes between them.
fn runs(s: &mut Song) {
    s.bad = s.r.pick(&[0, 0, 10]);
    let room = s.r.pick(&[1, 8, 40, 100]);
    s.begin(room);
    if s.r.below(3) == 0 {
        s.put_on();
    }
    s.call(START_RECORDING);
    let n = s.r.below(2 * room);
    s.run(n);
    s.call(STOP_RECORDING);
    for _ in 0..s.r.below(10) + 4 {
        match s.r.below(5) {
            0 => s.start(),
            1 => s.single(),
            _ => s.event(),
        }
        let n = s.r.below(9);
        let n = s.r.pick(&[0, 1, 2, n, n, n, 64]);
        s.run(n);
    }
    if s.r.below(6) == 0 {
        s.run(1000);
    }
    if s.r.below(2) == 0 {
        s.runs_to_the_end();
    }
}

/// Phrases recorded, chosen, deleted and gathered under voices of several.
fn phrases(s: &mut Song) {
    s.hostile = s.r.pick(&[0, 0, 0, 5]);
    s.bad = s.r.pick(&[0, 0, 3]);
    let room = s.r.pick(&[6, 12, 24, 60, 200]);
    s.begin(room);
    for _ in 0..s.r.below(4) + 1 {
        s.choose();
        let n = s.r.below(room / 3) + 1;
        s.record(n);
        s.start();
    }
    if s.r.below(6) == 0 {
        s.choir();
    }
    for _ in 0..s.r.below(30) + 10 {
        match s.r.below(20) {
            0..=2 => s.choose(),
            3 | 4 => s.delete(),
            5 | 6 => s.gather(),
            7 => {
                let n = s.r.below(room / 3 + 2);
                s.record(n);
            }
            8 => s.call(START_RECORDING),
            9 => s.call(STOP_RECORDING),
            10 => s.start(),
            11 => s.file(),
            12 => s.call(RECORDINGS),
            13 => s.columns(),
            14 => s.query(VOICE_INFO),
            15 => {
                s.call(START_RECORDING);
                s.delete();
            }
            16 => s.one_sided(),
            _ => s.event(),
        }
        s.sound();
    }
}

/// Phrases one behind the other, by numbers in no order. Some are deleted, cut or emptied, the others gathered under their voices, and what is free then is
/// recorded.
fn gathers(s: &mut Song) {
    let room = s.r.pick(&[8, 20, 60]);
    s.begin(room);
    let many = s.r.below(7) + 2;
    for _ in 0..many {
        s.choose();
        let n = s.r.below(room / many + 1) + 1;
        s.record(n);
        if s.r.below(2) == 0 {
            s.start();
        }
    }
    for _ in 0..s.r.below(6) + 2 {
        match s.r.below(4) {
            0 => {
                s.choose();
                let n = s.r.below(3);
                s.record(n);
            }
            1 => s.stop(),
            _ => s.delete(),
        }
        s.sound();
        s.gather();
        s.sound();
        s.call(RECORDINGS);
        s.choose();
        let n = s.r.below(room / many + 3);
        s.record(n);
        s.event();
    }
}

/// Records of random bytes, with kinds that there are.
fn noise(s: &mut Song) {
    let room = s.r.below(50) + 1;
    s.begin(room);
    let n = s.r.below(10) + 1;
    s.record(n);
    for _ in 0..s.r.below(40) + 10 {
        let kind = s.r.below(NAMES.len() as u64) as u8;
        let mut record = Record::new(kind);
        for at in 1..record.0.len() {
            record = record.with_u8(at, s.r.bits() as u8 & s.r.pick(&[0xff, 0x0f, 0x03, 0]));
        }
        match kind {
            SET_UP if s.r.below(8) > 0 => s.settings(),
            RECORDINGS => s.event(),
            PUT => s.put_on(),
            SAMPLE | FRAME => s.records.push(record.with_u32(LENT, MEMORY as u32)),
            FRAMES => s.records.push(record.with_u32(LENT, MEMORY as u32).with_u32(TIMES, 3)),
            RUN => s.records.push(record.with_u32(LENT, MEMORY as u32).with_u32(RUN_LENGTH, 6)),
            GATHER => s.records.push(record.with_u32(LENT, MEMORY as u32)),
            _ => s.records.push(record),
        }
        s.frames(1);
    }
}

impl Song {
    fn chance(&mut self, of_100: u64) -> bool {
        self.r.below(100) < of_100
    }

    fn float(&mut self, ordinary: fn(&mut Song) -> f32) -> u32 {
        if self.hostile > 0 && self.chance(self.hostile) {
            return hostile_float(&mut self.r);
        }
        ordinary(self).to_bits()
    }

    fn begin(&mut self, room: u64) {
        self.set_up(room);
        self.settings();
    }

    fn set_up(&mut self, room: u64) {
        self.count = self.r.below(2) + 1;
        self.memory = self.count * room + self.r.below(self.count);
        let (mut count, mut memory) = (self.count, self.memory);
        if self.chance(self.bad / 4) {
            match self.r.below(3) {
                0 => count = self.r.pick(&[0, 3, 4, 0xffff_ffff]),
                1 => memory = 0,
                _ => memory = self.count - 1,
            }
        }
        (self.room, self.recorder, self.data, self.chosen, self.others) = (room, None, 0, 0, [0; 8]);
        let auto = self.r.below(2) == 0;
        self.records.push(set_up(count as u32, auto, memory as u32));
    }

    /// New parameters, around the present data length.
    fn settings(&mut self) {
        let rate = self.float(|s| s.r.pick(&[44100.0, 48000.0, 8000.0, 1.0]));
        let tempo = self.float(|s| s.r.pick(&[120.0, 60.0, 98.7, 240.0]));
        let signature = if self.chance(self.hostile) { [hostile_whole(&mut self.r) as u32, hostile_whole(&mut self.r) as u32] } else { self.r.pick(&[[4, 4], [3, 4], [7, 8], [1, 1]]) };
        let kind = self.r.below(params::WHOLE_BARS as u64 + 1) as u8;
        let value = self.value(kind, f32::from_bits(rate), f32::from_bits(tempo), signature);
        let value = if self.chance(self.hostile) { hostile_float(&mut self.r) } else { value.to_bits() };
        let record = Record::new(PARAMETERS)
            .with_u8(params::KIND, kind)
            .with_u8(params::MODE, self.r.below(3) as u8)
            .with_u8(params::NOTE_OFF, self.r.below(3) as u8)
            .with_u8(params::AUTO_PASSTHRU, self.r.below(2) as u8)
            .with_u32(params::VOLUME, self.float(|s| s.r.pick(&[1.0, 1.0, 0.5, 0.0, -2.0])))
            .with_u32(params::VALUE, value)
            .with_u32(params::RATE, rate)
            .with_u32(params::TEMPO, tempo)
            .with_u32(params::NUMERATOR, signature[0])
            .with_u32(params::DENOMINATOR, signature[1])
            .with_u64(params::ATTACK, self.ramp())
            .with_u64(params::DECAY, self.ramp())
            .with_u32(params::SPEED, self.float(pace))
            .with_u32(params::REVERSE, self.float(|s| s.r.pick(&[1.0, 1.0, -1.0, 0.5])));
        self.records.push(record);
    }

    fn ramp(&mut self) -> u64 {
        if self.chance(self.bad) {
            return self.r.pick(&[(1 << 24) + 1, 1 << 40, u64::MAX]);
        }
        let few = self.r.below(6);
        self.r.pick(&[0, 0, 0, 1, few, few, 10, 100, 1 << 24])
    }

    /// A length of a kind that comes to about so many samples as have an edge near them.
    fn value(&mut self, kind: u8, rate: f32, tempo: f32, signature: [u32; 2]) -> f32 {
        let data = self.data as f32;
        let near = (self.r.below(8 * (self.data + 2)) as f32) / 8.0;
        let far = self.r.pick(&[4194304.0, 4194303.75, 65536.0, 1000.5]);
        let mut samples = self.r.pick(&[0.0, 0.5, 1.0, 1.5, 2.0, data - 1.0, data, data + 1.0, data * 2.0, near, near, near, near, near, far]);
        if self.chance(self.bad) {
            samples = self.r.pick(&[4194304.5, 5e6, f32::INFINITY]);
        }
        match kind {
            0 => samples / (rate * 60.0 / tempo),
            1 => samples,
            2 => samples / rate,
            3 => samples / (rate * 60.0 / tempo * signature[0] as f32 / signature[1] as f32),
            params::WHOLE_BARS => samples / (rate * 60.0 / tempo * (signature[0] as f32 / signature[1] as f32 * 4.0)),
            _ if samples > data && !self.chance(self.bad) => self.r.below(9) as f32 / 8.0,
            _ => samples / data,
        }
    }

    /// Records n samples, from the front.
    fn record(&mut self, n: u64) {
        self.call(START_RECORDING);
        self.frames(n);
        self.call(STOP_RECORDING);
    }

    fn call(&mut self, kind: u8) {
        match kind {
            START_RECORDING if self.recorder.is_none() => self.recorder = Some(0),
            STOP_RECORDING => self.data = self.recorder.take().unwrap_or(self.data),
            RESET => (self.recorder, self.data, self.chosen, self.others) = (None, 0, 0, [0; 8]),
            _ => (),
        }
        self.records.push(Record::new(kind));
    }

    /// The number of a phrase, often of one with samples.
    fn phrase(&mut self) -> u8 {
        if self.chance(self.bad.max(3)) {
            return self.r.pick(&[8, 9, 255]);
        }
        let filled: Vec<u8> = (0..8).filter(|k| self.others[*k as usize] > 0).collect();
        if filled.is_empty() || self.r.below(2) == 0 { self.r.below(8) as u8 } else { self.r.pick(&filled) }
    }

    fn choose(&mut self) {
        let k = self.phrase();
        if k < 8 && self.recorder.is_none() {
            self.others[self.chosen] = self.data;
            self.chosen = k as usize;
            self.data = self.others[self.chosen];
        }
        self.records.push(choose(k));
    }

    fn delete(&mut self) {
        let k = self.phrase();
        self.records.push(delete(k));
    }

    fn gather(&mut self) {
        let lent = self.lent();
        self.records.push(gather(lent));
    }

    /// A phrase that has more samples on one channel than on the other, or samples and a voice on one alone; then it is not to be deleted either.
    fn one_sided(&mut self) {
        self.call(STOP_RECORDING);
        self.choose();
        let k = self.chosen as u8;
        self.record(0);
        self.call(START_RECORDING);
        let n = self.r.below(5);
        self.frames(n);
        for _ in 0..self.r.below(3) + 1 {
            self.single();
        }
        self.call(STOP_RECORDING);
        self.start();
        self.query(VOICE_INFO);
        self.choose();
        self.records.push(delete(k));
    }

    /// As many voices as there is a place for, of a phrase each.
    fn choir(&mut self) {
        for _ in 0..self.r.below(20) + 24 {
            self.choose();
            self.start();
        }
    }

    fn file(&mut self) {
        let records = of_waves(&mut self.r, self.count, self.room);
        self.records.extend(records);
    }

    fn columns(&mut self) {
        let (columns, lent) = (self.r.below(12) as u32, self.lent());
        self.records.push(waveform(columns, 12, lent));
    }

    /// Frames, a run of them, or a sample of one channel.
    fn sound(&mut self) {
        let n = self.r.below(5);
        match self.r.below(6) {
            0 => self.run(n),
            1 => self.single(),
            _ => self.frames(n),
        }
    }

    fn lent(&mut self) -> u32 {
        let least = self.count * self.room;
        let lent = if self.chance(self.bad / 2) { least - 1 } else { self.r.pick(&[self.memory, self.memory, least, MEMORY as u64]) };
        lent as u32
    }

    fn frames(&mut self, n: u64) {
        for _ in 0..n {
            let mut entries = self.count;
            if self.r.below(16) == 0 {
                entries = self.r.below(self.count + 1);
            }
            if self.chance(self.bad / 2) {
                entries = self.count + 1;
            }
            let inputs = [self.float(level), self.float(level), self.float(level)];
            let lent = self.lent();
            self.records.push(frame(entries as u8, inputs, lent));
            self.stepped();
        }
    }

    /// Each clock a few samples before its end, and runs of more frames than are left, or of as many.
    fn runs_to_the_end(&mut self) {
        for channel in 0..self.count as u8 {
            let left = self.r.below(7);
            self.records.push(puts::of(channel, 0, puts::put(puts::CLOCK, left.wrapping_neg())));
        }
        for _ in 0..3 {
            let n = self.r.below(7);
            self.run(n);
            self.event();
        }
    }

    /// A run of n frames; now and then of an entry more.
    fn run(&mut self, n: u64) {
        let more = (self.chance(self.bad) || self.r.below(24) == 0) as u64;
        let (seed, lent) = (self.r.bits() as u32, self.lent());
        self.records.push(run(seed, (n * self.count + more) as u32, lent));
        for _ in 0..n {
            self.stepped();
        }
    }

    fn stepped(&mut self) {
        if let Some(write) = self.recorder.as_mut().filter(|w| **w < self.room) {
            *write += 1;
            self.data = self.data.max(*write);
        }
    }

    /// A sample of one channel.
    fn single(&mut self) {
        let mut channel = self.r.below(self.count) as u32;
        if self.chance(self.bad) {
            channel = self.r.pick(&[self.count as u32, 2, 0xffff_ffff]);
        }
        let (input, lent) = (self.float(level), self.lent());
        self.records.push(sample(channel, input, lent));
    }

    fn note(&mut self) -> (u8, u8) {
        let (note, channel) = self.r.pick(&NOTES_USED);
        if self.chance(self.bad) { (note, self.r.pick(&[16, 17, 255])) } else { (note, channel) }
    }

    fn start(&mut self) {
        let note = self.note();
        self.start_note(note);
    }

    fn start_note(&mut self, note: (u8, u8)) {
        let position = if self.chance(self.bad) { self.r.pick(&[-0.25, 1.0 + f32::EPSILON, f32::NAN, f32::INFINITY, -1e-45]).to_bits() } else { self.position() };
        let velocity = self.float(|s| s.r.pick(&[1.0, 1.0, 0.7, 0.25, 0.0, -1.0]));
        self.records.push(start(note, position, velocity));
    }

    /// From 0 to 1, and often so that it comes to a whole number of samples.
    fn position(&mut self) -> u32 {
        let part = self.r.below(self.data + 1) as f32 / self.data.max(1) as f32;
        let any = self.r.below(1 << 24) as f32 / 16777216.0;
        let subnormal = f32::from_bits(self.r.below(64) as u32);
        self.r.pick(&[0.0, 0.0, 1.0, 0.5, part, part, part, any, -0.0, 1.0 - f32::EPSILON, subnormal]).to_bits()
    }

    fn stop(&mut self) {
        let note = self.note();
        self.stop_note(note);
    }

    fn stop_note(&mut self, note: (u8, u8)) {
        self.records.push(of_note(STOP, note));
    }

    fn speed(&mut self) {
        let note = self.note();
        let speed = self.float(pace);
        self.records.push(of_note(NOTE_SPEED, note).with_u32(FLOAT, speed));
    }

    fn put_on(&mut self) {
        let n = match self.r.below(6) {
            0 => self.r.below(300),
            1 => (1 << 24) - 3 + self.r.below(8),
            2 => self.r.below(1 << 40),
            3 => (1 << 48) - 1 - self.r.below(12),
            4 => u64::MAX,
            _ => self.r.below(1 << 26),
        };
        self.records.push(puts::put(puts::CLOCKS, n));
    }

    /// Most often no further than one past a limit.
    fn spoil(&mut self) {
        let far = self.r.bits();
        let by = self.r.pick(&[0, 0, 1, 1, 1, 2, u64::MAX, u64::MAX - 4, far]);
        let long = self.r.pick(&[0, 1, 2, 1 << 24, (1 << 24) + 1, far]);
        let x = self.float(|s| s.r.pick(&[0.0, -0.0, -1e-45, 0.99999994, 1.0, 1.5, 4194304.0, 4194304.5, f32::NAN, f32::INFINITY]));
        let counts: &[u64] = if self.count == 2 { &[0, 1, 2, 3, far] } else { &[0, 1] };
        let (number, start) = (self.r.pick(&[0, 7, 7, 8, 8, 255]), self.r.below(self.room + 2));
        let record = match self.r.below(19) {
            0 => puts::put(puts::CHANNELS, self.r.pick(counts)),
            1 => puts::put(puts::CAPACITY, self.r.pick(&[0, 1 << 22, 1 << 22, (1 << 22) + 1, far])),
            2 => puts::put(puts::DATA_LENGTH, by.min(5)),
            3 => puts::put(puts::WRITE_PLACE, by),
            4 => puts::put(puts::CLOCK, self.r.pick(&[0, 1, u64::MAX, (1u64 << 48).wrapping_neg(), far])),
            5 => puts::put_ramp(puts::PASSTHRU, by, long),
            6 => puts::put(puts::SINCE, by),
            7 => puts::put(puts::FINISHED_AT, by),
            8 => puts::put_ramp(puts::VOLUME, by, long),
            12 => puts::put(puts::SETTING, self.r.below(2)),
            13 => puts::put(puts::CHOSEN, number),
            14 => puts::put(puts::OF_PHRASE, number),
            15..=18 => return self.place(start),
            what => puts::put_float(puts::LENGTH + (what - 9) as u8, f32::from_bits(x)),
        };
        let (channel, voice) = (self.r.below(self.count) as u8, self.r.below(4) as u8);
        self.records.push(puts::of(channel, voice, record));
    }

    /// A phrase that ends at the capacity or past it, or is empty there, or begins where another may stand.
    fn place(&mut self, start: u64) {
        let (room, far) = (self.room, self.r.bits());
        let length = room - start.min(room);
        let any = self.r.below(room + 1);
        let (start, length) = self.r.pick(&[
            (start, length),
            (start, length + 1),
            (start, any),
            (start, any),
            (start, any.min(1)),
            (self.data, any.min(room - self.data.min(room))),
            (self.data, any.min(1)),
            (self.data.saturating_sub(1), 1),
            (room, 0),
            (room + 1, 0),
            (far, 0),
            (far, any),
            (u64::MAX, 1),
        ]);
        let (channel, k) = (self.r.below(self.count) as u8, self.r.below(8) as u8);
        self.records.push(puts::of(channel, k, puts::put_phrase(k, start, length)));
    }

    fn query(&mut self, kind: u8) {
        let mut room = self.r.pick(&[64, 34, 32, 40, 0xffff_ffff]);
        if self.chance(self.bad.max(25)) {
            room = self.r.pick(&[0, 0, 1, 2, 22, 23, 24, 31]);
        }
        self.ask(kind, room);
    }

    fn ask(&mut self, kind: u8, room: u32) {
        let mut channel = self.r.below(self.count) as u32;
        if self.chance(self.bad) {
            channel = self.r.pick(&[self.count as u32, 2, 0xffff_ffff]);
        }
        self.records.push(query(kind, channel, room));
    }

    /// Every kind of call about equally often.
    fn any(&mut self) {
        match self.r.below(20) {
            17 => self.choose(),
            18 => self.delete(),
            19 => self.gather(),
            0 => self.call(START_RECORDING),
            1 => self.call(STOP_RECORDING),
            2 => self.call(RESET),
            3 => self.single(),
            4 | 5 => self.frames(1),
            6 => self.speed(),
            7 => self.stop(),
            8 | 9 => self.start(),
            10 => self.settings(),
            11 => self.many(2),
            12 => self.run(2),
            _ => {
                let kind = FRAMES_PROCESSED + self.r.below(7) as u8;
                self.query(kind);
            }
        }
    }

    /// n frames in one record.
    fn many(&mut self, n: u64) {
        let (first, more, lent) = (self.float(level), self.float(|s| s.r.pick(&[0.0, 0.001, 0.37, -1e-6])), self.lent());
        let entries = if self.chance(self.bad) { self.count + 1 } else { self.count };
        self.records.push(frames(entries as u8, first, more, n as u32, lent));
        for _ in 0..n {
            self.stepped();
        }
    }

    fn event(&mut self) {
        match self.r.below(32) {
            0..=9 => self.start(),
            10..=16 => self.stop(),
            17..=18 => self.speed(),
            19..=22 => self.settings(),
            23 => self.call(START_RECORDING),
            24 => self.call(STOP_RECORDING),
            25..=27 => self.single(),
            28 if self.r.below(4) == 0 => self.call(RESET),
            _ => {
                let kind = FRAMES_PROCESSED + self.r.below(7) as u8;
                self.query(kind);
            }
        }
    }
}

/// A sample: few values, so that sums are exact now and then, both signs, and zeros.
fn level(s: &mut Song) -> f32 {
    match s.r.below(6) {
        0 => s.r.pick(&[0.0, -0.0]),
        1 => (s.r.below(1 << 24) as f32) / 8388608.0 - 1.0,
        _ => (s.r.below(33) as f32) / 16.0 - 1.0,
    }
}

fn pace(s: &mut Song) -> f32 {
    let any = (s.r.below(4000) as f32 - 2000.0) / 500.0;
    s.r.pick(&[1.0, 1.0, 1.0, -1.0, 0.5, 2.0, 0.0, -0.5, 0.1, -1.75, 3.0, any, any, any, 1e-3, 1e6, -1e30])
}
