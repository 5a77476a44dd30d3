//! Plays records on the Rust, with the refusals of document 01's table, and writes what the port's program writes.

use crate::inside;
use crate::listing::*;
use crate::params::{beyond_limits, float, params, KIND, WHOLE_BARS};
use crate::phrases::{infos, Phrases, PHRASES};
use crate::record::Record;
use crate::tally::{Census, Tally};
use crate::text::{bits, Text};
use crate::values::quiet;
use crate::wave;
use audio_sampler_lib::common_types::{InitParams, Note, Params};
use audio_sampler_lib::sampler::{Channel, Sampler, VoiceInfo};
use std::ops::Range;
use std::panic::{catch_unwind, AssertUnwindSafe};

pub const MOST_VOICES: usize = 32;
pub const MOST_SAMPLES: usize = 1 << 22;
pub const LAST_TIME: usize = 1 << 48;

/// Which of the port's calls are played: those by value, or those on a lent record, of which voice info fills a lent list.
#[derive(Clone, Copy, PartialEq)]
pub enum Calls {
    ByValue,
    Lent,
}

/// The length kind of the Rust's defaults.
const RATIO: u8 = 4;

pub struct Engine {
    pub sampler: Sampler,
    /// Of each channel.
    pub phrases: Vec<Phrases>,
    pub params: Params,
    /// Of the parameters, by its number in a record: the Rust's own don't tell whole bars from samples.
    length_kind: u8,
    calls: Calls,
    /// 0 where the set-up was refused: then every call is.
    pub count: usize,
    pub capacity: usize,
    /// The skip counts of document 01, which the Rust doesn't have: its recording grows without end.
    pub skipped: [u64; 2],
    /// The memory that the port is lent, of which the Rust has the recordings alone.
    pub memory: Vec<u32>,
    pub file: [u8; FILE],
}

/// What a record's line has after its kind and number.
pub enum Shown {
    Nothing,
    Record,
    /// The entries, and how many voices moved up.
    Heard([f32; 3], usize),
    /// The frames of a run that are done, and its entries.
    Run(usize, Vec<f32>),
    Recordings,
    Count(usize),
    Flag(bool),
    Offset(Option<usize>),
    ErrorText(String),
    Notes(Vec<u64>),
    Infos(Vec<VoiceInfo>),
    /// The extremes, and the list.
    Waveform([f32; 2], Vec<f32>),
    /// How many bytes were written; and the rate of a file that was read.
    Written(usize),
    Took(u32),
    Gathered,
}

/// The number of the first row whose test holds.
fn row(rows: &[(u8, bool)]) -> u8 {
    rows.iter().find(|r| r.1).map_or(0, |r| r.0)
}

/// Plays a listing. A panic of the Rust is written as a line, and ends it.
pub fn play(calls: Calls, records: &[Record], text: &mut Text, tally: &mut Tally) {
    let mut engine = Engine::new(calls);
    for record in records {
        if catch_unwind(AssertUnwindSafe(|| engine.record(record, text, tally))).is_err() {
            text.bytes.extend(b"panic\n");
            return;
        }
    }
}

impl Engine {
    pub fn new(calls: Calls) -> Self {
        let sampler = Sampler::new(0, &InitParams::default());
        let (params, memory, file) = (Params::default(), vec![0; MEMORY], [0; FILE]);
        Engine { sampler, phrases: Vec::new(), params, length_kind: RATIO, calls, count: 0, capacity: 0, skipped: [0; 2], memory, file }
    }

    fn record(&mut self, r: &Record, text: &mut Text, tally: &mut Tally) {
        let kind = r.u8_at(0);
        let before = Census::of(self);
        let (number, shown) = self.call(r);
        self.remember();
        let after = Census::of(self);
        tally.call(r, number, &before, &after, &self.params, self.length_kind);
        match &shown {
            Shown::Run(done, entries) => tally.run(number, entries.len() / self.count.max(1), *done, &before, &after),
            Shown::Heard(_, moved) => tally.moved(kind, *moved),
            _ => (),
        }
        tally.asked(r);
        text.put(2, kind as u64);
        text.put(2, number as u64);
        self.show(shown, text);
    }

    /// Makes a record's call.
    pub fn call(&mut self, r: &Record) -> (u8, Shown) {
        match r.u8_at(0) {
            SET_UP => (self.set_up(r), Shown::Record),
            PARAMETERS => (self.parameters(r), Shown::Nothing),
            START => (self.start(r), Shown::Record),
            STOP => (self.stop(r), Shown::Record),
            NOTE_SPEED => (self.note_speed(r), Shown::Record),
            START_RECORDING => (self.start_recording(), Shown::Record),
            STOP_RECORDING => (self.plain(|s, p| s.stop_recording(p)), Shown::Record),
            RESET => (self.reset(), Shown::Record),
            INTERPOLATION => (self.plain(|s, _| s.channels.iter_mut().for_each(|c| c.interpolates = r.u8_at(ON) != 0)), Shown::Record),
            SAMPLE => self.sample(r),
            FRAME => self.frame(r, [float(r, FLOAT), float(r, FLOAT + 4), float(r, FLOAT + 8)]),
            FRAMES => self.frames(r),
            RUN => self.run(r),
            PUT => {
                self.put(r);
                (0, Shown::Record)
            }
            RECORDINGS => (0, Shown::Recordings),
            WAVEFORM => self.waveform(r),
            PIECE => {
                self.piece(r);
                (0, Shown::Nothing)
            }
            WRITE => self.write(r),
            READ => self.read(r),
            CHOOSE => (self.choose(r.u8_at(PHRASE)), Shown::Record),
            DELETE => (self.delete(r.u8_at(PHRASE)), Shown::Record),
            GATHER => (self.gather(r), Shown::Gathered),
            _ => self.query(r),
        }
    }

    fn set_up(&mut self, r: &Record) -> u8 {
        let memory = (r.u32_at(SIZE) as usize).min(MEMORY);
        let count = r.u32_at(COUNT) as usize;
        let capacity = if count == 0 { 0 } else { (memory / count).min(MOST_SAMPLES) };
        let good = (count == 1 || count == 2) && capacity > 0;
        (self.count, self.capacity) = if good { (count, capacity) } else { (0, 0) };
        self.sampler = Sampler::new(self.count, &InitParams { auto_passthru: r.u8_at(AUTO) != 0 });
        self.phrases = vec![Phrases::new(); self.count];
        (self.params, self.length_kind) = (Params::default(), RATIO);
        self.skipped = [0; 2];
        self.memory.fill(0);
        self.file = [0; FILE];
        if good { 0 } else { 9 }
    }

    fn parameters(&mut self, r: &Record) -> u8 {
        (self.params, self.length_kind) = (params(r), r.u8_at(KIND).min(WHOLE_BARS));
        0
    }

    fn start(&mut self, r: &Record) -> u8 {
        let (note, position, velocity) = (note(r), float(r, FLOAT), float(r, SECOND));
        let full = |c: &Channel| !inside::recording(c).is_empty() && inside::voices(c).len() >= MOST_VOICES;
        let number = row(&[
            (9, self.broken()),
            (2, note.channel > 15),
            (3, !(0.0 <= position && position <= 1.0)),
            (4, beyond_limits(&self.params)),
            (5, self.sampler.channels.iter().any(full)),
        ]);
        if number == 0 {
            self.sampler.start_playing(position, note, velocity, &self.params);
            self.phrases.iter_mut().zip(&self.sampler.channels).for_each(|(p, c)| p.follow(c));
        }
        number
    }

    fn stop(&mut self, r: &Record) -> u8 {
        let note = note(r);
        let number = row(&[(9, self.broken()), (2, note.channel > 15), (4, beyond_limits(&self.params))]);
        if number == 0 {
            self.sampler.stop_playing(note, &self.params);
        }
        number
    }

    fn note_speed(&mut self, r: &Record) -> u8 {
        let note = note(r);
        let number = row(&[(9, self.broken()), (2, note.channel > 15)]);
        if number == 0 {
            self.sampler.set_note_speed(note, float(r, FLOAT));
        }
        number
    }

    fn plain(&mut self, call: impl Fn(&mut Sampler, &Params)) -> u8 {
        if self.broken() {
            return 9;
        }
        call(&mut self.sampler, &self.params);
        0
    }

    fn reset(&mut self) -> u8 {
        let number = self.plain(|s, _| s.reset());
        if number == 0 {
            self.skipped = [0; 2];
            self.phrases.fill(Phrases::new());
        }
        number
    }

    fn start_recording(&mut self) -> u8 {
        if !self.broken() {
            self.phrases.iter_mut().zip(&self.sampler.channels).for_each(|(p, c)| p.begin(c));
        }
        self.plain(|s, _| s.start_recording())
    }

    fn any(&self, test: impl Fn(&Phrases, &Channel) -> bool) -> bool {
        self.phrases.iter().zip(&self.sampler.channels).any(|(p, c)| test(p, c))
    }

    /// Request 11/12's rows, behind row 9. A choice of the phrase that is chosen is none that is new.
    fn choose(&mut self, k: u8) -> u8 {
        let new = |p: &Phrases, c: &Channel| inside::write_place(c).is_some() && p.chosen != k;
        let number = row(&[(9, self.broken()), (19, k >= PHRASES), (21, self.any(new))]);
        if number == 0 {
            self.phrases.iter_mut().zip(&mut self.sampler.channels).for_each(|(p, c)| p.choose(c, k));
        }
        number
    }

    fn delete(&mut self, k: u8) -> u8 {
        let number = row(&[(9, self.broken()), (19, k >= PHRASES), (20, self.any(|p, c| p.in_use(c, k)))]);
        if number == 0 {
            self.phrases.iter_mut().zip(&mut self.sampler.channels).for_each(|(p, c)| p.delete(c, k));
        }
        number
    }

    fn gather(&mut self, r: &Record) -> u8 {
        let number = row(&[(9, self.broken() || self.short(r)), (21, self.any_records())]);
        if number == 0 {
            self.phrases.iter_mut().zip(&self.sampler.channels).for_each(|(p, c)| p.gather(c));
        }
        number
    }

    fn sample(&mut self, r: &Record) -> (u8, Shown) {
        let channel = r.u32_at(CHANNEL) as usize;
        let number = self.step_number(r, channel < self.count, channel..channel + 1);
        let (mut heard, mut moved) = ([0.0; 3], 0);
        if number == 0 {
            heard[0] = float(r, FLOAT);
            moved = self.single(channel, &mut heard[0]);
        }
        (number, Shown::Heard(heard, moved))
    }

    fn frame(&mut self, r: &Record, heard: [f32; 3]) -> (u8, Shown) {
        let mut heard = heard.map(quiet);
        let entries = r.u8_at(ENTRIES).min(3) as usize;
        let number = self.step_number(r, entries <= self.count, 0..entries);
        let mut moved = 0;
        if number == 0 {
            moved = self.whole(&mut heard[..entries]);
        }
        (number, Shown::Heard(heard, moved))
    }

    fn frames(&mut self, r: &Record) -> (u8, Shown) {
        let mut last = (0, Shown::Heard([0.0; 3], 0));
        for i in 0..r.u32_at(TIMES) {
            let x = float(r, FLOAT) + i as f32 * float(r, SECOND);
            last = self.frame(r, [x, -x, x]);
        }
        last
    }

    /// Plays a run frame by frame, and looks at the clocks before each.
    fn run(&mut self, r: &Record) -> (u8, Shown) {
        let mut entries = inputs(r);
        let whole = |count: usize| count > 0 && entries.len() % count == 0;
        let number = row(&[(9, self.broken() || self.short(r)), (10, !whole(self.count)), (4, beyond_limits(&self.params))]);
        if number != 0 {
            return (number, Shown::Run(0, entries));
        }
        let (count, asked) = (self.count, entries.len() / self.count);
        let mut done = 0;
        while done < asked && self.sampler.channels.iter().take(count).all(|c| inside::clock(c) < LAST_TIME) {
            self.whole(&mut entries[done * count..(done + 1) * count]);
            done += 1;
        }
        (if done < asked { 6 } else { 0 }, Shown::Run(done, entries))
    }

    /// The lent memory is too short for the channels' parts.
    fn short(&self, r: &Record) -> bool {
        (r.u32_at(LENT) as usize).min(MEMORY) < self.count.saturating_mul(self.capacity)
    }

    fn step_number(&self, r: &Record, present: bool, stepped: Range<usize>) -> u8 {
        let mut channels = stepped.filter_map(|j| self.sampler.channels.get(j));
        row(&[
            (9, self.broken() || self.short(r)),
            (1, !present),
            (4, beyond_limits(&self.params)),
            (6, channels.any(|c| inside::clock(c) >= LAST_TIME)),
        ])
    }

    /// A frame, and how many voices it moves up. Where every voice is of its channel's chosen phrase it is the Rust's.
    fn whole(&mut self, frame: &mut [f32]) -> usize {
        if self.phrases[..frame.len()].iter().all(Phrases::plain) {
            let stepped = 0..frame.len();
            let mut entries: Vec<&mut f32> = frame.iter_mut().collect();
            return self.tidying(stepped, |s, p| s.process_frame(&mut entries, p));
        }
        frame.iter_mut().enumerate().map(|(j, x)| self.single(j, x)).sum()
    }

    /// A sample of one channel, in the same way.
    fn single(&mut self, j: usize, x: &mut f32) -> usize {
        if self.phrases[j].plain() {
            return self.tidying(j..j + 1, |s, p| *x = s.process_sample(j, *x, p));
        }
        let (p, c) = (&mut self.phrases[j], &mut self.sampler.channels[j]);
        if p.drops(c, self.capacity) {
            self.skipped[j] += 1;
        } else {
            inside::record(c, *x);
        }
        let (output, moved) = p.played(c, *x, &self.params);
        *x = output;
        moved
    }

    /// Steps channels, and counts the voices kept behind the first that leaves, on each.
    fn tidying(&mut self, stepped: Range<usize>, step: impl FnOnce(&mut Sampler, &Params)) -> usize {
        let marked: Vec<_> = self.sampler.channels[stepped.clone()].iter_mut().map(inside::mark).collect();
        self.dropping(stepped.clone(), step);
        self.phrases.iter_mut().zip(&self.sampler.channels).for_each(|(p, c)| p.follow(c));
        let channels = self.sampler.channels[stepped].iter_mut();
        channels.zip(marked).map(|(c, notes)| inside::kept_behind(c, &notes)).sum()
    }

    /// Steps channels. Where there is no room behind the data document 01 drops the sample: the Rust's recorder is made idle while it is processed.
    fn dropping(&mut self, stepped: Range<usize>, step: impl FnOnce(&mut Sampler, &Params)) {
        let drops = |j: &usize| self.phrases[*j].drops(&self.sampler.channels[*j], self.capacity);
        let dropped: Vec<(usize, Option<usize>)> = stepped.filter(drops).map(|j| (j, inside::write_place(&self.sampler.channels[j]))).collect();
        for (j, _) in &dropped {
            inside::put_write_place(&mut self.sampler.channels[*j], None);
        }
        step(&mut self.sampler, &self.params);
        for (j, place) in dropped {
            inside::put_write_place(&mut self.sampler.channels[j], place);
            self.skipped[j] += 1;
        }
    }

    /// The skip count and the state error count of a channel.
    fn counts(&self, j: usize) -> (u64, u64) {
        let text = self.sampler.print_error_info(j);
        let misused = text.rsplit(' ').next().and_then(|n| n.parse().ok());
        (self.skipped[j], misused.expect("the error text ends with the state error count"))
    }

    fn query(&self, r: &Record) -> (u8, Shown) {
        let (kind, channel, room) = (r.u8_at(0), r.u32_at(CHANNEL) as usize, r.u32_at(ROOM) as usize);
        let number = row(&[(9, self.broken()), (1, channel >= self.count), (4, kind == VOICE_INFO && beyond_limits(&self.params))]);
        if number != 0 {
            return (number, refused(kind));
        }
        let s = &self.sampler;
        let (size, most, shown) = match kind {
            FRAMES_PROCESSED => (0, 0, Shown::Count(s.get_frames_processed(channel))),
            DATA_LEN => (0, 0, Shown::Count(s.get_data_len(channel))),
            IS_RECORDING => (0, 0, Shown::Flag(s.is_recording(channel))),
            LAST_OFFSET => (0, 0, Shown::Offset(s.get_last_recorded_offsets()[channel])),
            ERROR_TEXT => {
                let text = s.print_error_info(channel).replacen("skip: 0", &format!("skip: {}", self.skipped[channel]), 1);
                (text.len(), TEXT, Shown::ErrorText(text))
            }
            ACTIVE_NOTES => {
                let notes: Vec<u64> = s.iter_active_notes(channel).map(Note::into_u64).collect();
                (notes.len(), NOTES, Shown::Notes(notes))
            }
            _ => {
                let infos = infos(s, &self.phrases, channel, &self.params);
                (infos.len(), usize::MAX, Shown::Infos(infos))
            }
        };
        if room.min(most) < size { (8, refused(kind)) } else { (0, shown) }
    }

    /// Rows 9, 11 and 8; the list is as it was where one holds.
    fn waveform(&mut self, r: &Record) -> (u8, Shown) {
        let (columns, room) = (r.u32_at(COLUMNS) as usize, (r.u32_at(ROOM) as usize).min(VALUES));
        let number = row(&[(9, self.broken() || self.short(r)), (11, columns > 4096), (8, room < columns)]);
        let mut list = vec![7.0; VALUES];
        if number != 0 {
            return (number, Shown::Waveform([0.0; 2], list));
        }
        // A recording that was read may have signaling NaNs, at which the Rust's minimum and maximum are wrong on Arm.
        let recording = inside::recording_mut(&mut self.sampler.channels[0]);
        let quieted = recording.iter().map(|x| quiet(*x)).collect();
        let kept = std::mem::replace(recording, quieted);
        let summary = self.sampler.get_waveform_summary(columns);
        *inside::recording_mut(&mut self.sampler.channels[0]) = kept;
        list[..columns].copy_from_slice(&summary.data);
        (0, Shown::Waveform([summary.min, summary.max], list))
    }

    /// Keeps what the recordings leave in the memory.
    fn remember(&mut self) {
        if self.broken() || self.count * self.capacity > MEMORY {
            return;
        }
        for ((part, c), p) in self.memory.chunks_mut(self.capacity).zip(&self.sampler.channels).zip(&self.phrases) {
            for k in 0..PHRASES {
                let words = part.iter_mut().skip(p.all[k as usize].start);
                words.zip(p.samples(c, k)).for_each(|(word, x)| *word = x.to_bits());
            }
        }
    }

    fn piece(&mut self, r: &Record) {
        let (count, place) = ((r.u8_at(BYTES) as usize).min(PIECE_BYTES), (r.u32_at(PLACE) as usize).min(FILE - PIECE_BYTES));
        self.file[place..].iter_mut().zip(&r.0[FIRST_BYTE..FIRST_BYTE + count]).for_each(|(byte, new)| *byte = *new);
    }

    fn any_records(&self) -> bool {
        self.sampler.channels.iter().any(|c| inside::write_place(c).is_some())
    }

    /// Request 10/12's rows in its order, behind row 9.
    fn write(&mut self, r: &Record) -> (u8, Shown) {
        let words: Vec<&[f32]> = self.sampler.channels.iter().map(inside::recording).collect();
        let samples = words.first().map_or(0, |w| w.len());
        let room = (r.u32_at(ROOM) as usize).min(FILE);
        let number = row(&[
            (9, self.broken() || self.short(r)),
            (15, self.any_records()),
            (16, words.iter().any(|w| w.len() != samples)),
            (8, room < 58 + 4 * words.len() * samples),
        ]);
        if number != 0 {
            return (number, Shown::Written(0));
        }
        let file = wave::written(r.u32_at(WAVE_RATE), self.count, samples, |j, i| words[j][i].to_bits());
        self.file[..file.len()].copy_from_slice(&file);
        (0, Shown::Written(file.len()))
    }

    /// The same. The recordings are then the file's, and nothing else changes.
    fn read(&mut self, r: &Record) -> (u8, Shown) {
        let said = u16::from_le_bytes([self.file[4], self.file[5]]) as usize + 8;
        let length = if r.u8_at(SAID) != 0 { said } else { r.u32_at(FILE_LENGTH) as usize };
        let file = &self.file[..length.min(FILE)];
        let judged = wave::read(file);
        let holds = |test: fn(&wave::Wave, &Self) -> bool| judged.as_ref().is_some_and(|w| test(w, self));
        let number = row(&[
            (9, self.broken() || self.short(r)),
            (15, self.any_records()),
            (17, judged.is_none()),
            (16, holds(|w, s| w.channels != s.count)),
            (18, holds(|w, s| !s.broken() && s.any(|p, c| w.samples > p.holds(c, s.capacity)))),
        ]);
        let Some(w) = judged.filter(|_| number == 0) else {
            return (number, Shown::Took(0));
        };
        let words: Vec<f32> = file[w.first..].chunks(4).take(w.channels * w.samples).map(|b| f32::from_bits(wave::four(b, 0))).collect();
        for (j, (c, p)) in self.sampler.channels.iter_mut().zip(&mut self.phrases).enumerate() {
            p.begin(c);
            *inside::recording_mut(c) = words.iter().skip(j).step_by(w.channels).copied().collect();
        }
        (0, Shown::Took(w.rate))
    }

    fn show(&self, shown: Shown, text: &mut Text) {
        match shown {
            Shown::Nothing => text.end(),
            Shown::Record => self.show_record(text),
            Shown::Heard(entries, moved) => {
                entries.iter().for_each(|x| text.float(*x));
                text.put(2, moved as u64);
                self.show_record(text);
            }
            Shown::Run(done, entries) => {
                text.put(8, done as u64);
                entries.iter().for_each(|x| text.float(*x));
                self.show_record(text);
            }
            Shown::Recordings => {
                text.end();
                for (j, (p, c)) in self.phrases.iter().zip(&self.sampler.channels).enumerate() {
                    (0..PHRASES).for_each(|k| text.recording(k, p.samples(c, k).len(), self.words(j, p.all[k as usize].start)));
                }
            }
            Shown::Count(n) => text.last(16, n as u64),
            Shown::Flag(b) => text.last(1, b as u64),
            Shown::Offset(place) => {
                text.put(1, place.is_some() as u64);
                text.last(16, place.unwrap_or(0) as u64);
            }
            Shown::ErrorText(words) => text.list(words.len(), words.bytes().map(|b| (2, b as u64)), (2, b'.' as u64), TEXT),
            Shown::Notes(notes) => text.list(notes.len(), notes.iter().map(|n| (16, *n)), (16, u64::MAX), NOTES),
            Shown::Infos(infos) => {
                let figures = infos.iter().flat_map(|i| [i.start, i.end, i.pos]).map(|x| (8, bits(x)));
                // By value the answer has no rest; a lent list held -1 everywhere.
                let size = 3 * if self.calls == Calls::Lent { INFOS } else { infos.len() };
                text.list(infos.len(), figures, (8, bits(-1.0)), size);
            }
            Shown::Waveform(extremes, list) => {
                extremes.iter().for_each(|x| text.float(*x));
                text.last(16, list.into_iter().map(bits).sum());
            }
            Shown::Written(count) => {
                text.put(16, count as u64);
                self.file.iter().for_each(|b| text.put(2, *b as u64));
                self.show_record(text);
            }
            Shown::Took(rate) => {
                text.put(8, rate as u64);
                text.put(8, self.mixed() as u64);
                self.show_record(text);
            }
            Shown::Gathered => {
                text.put(8, self.mixed() as u64);
                self.show_record(text);
            }
        }
    }

    /// The memory from a place of a channel's part on.
    fn words(&self, j: usize, start: usize) -> &[u32] {
        self.memory.get((j * self.capacity).wrapping_add(start)..).unwrap_or(&[])
    }

    /// A number that is made of the memory's words.
    fn mixed(&self) -> u32 {
        self.memory[..MIXED].iter().fold(0, |x, word| x.wrapping_mul(1664525).wrapping_add(*word))
    }

    fn show_record(&self, text: &mut Text) {
        text.put(1, self.count as u64 % 16);
        text.last(8, self.capacity as u64);
        for (j, (c, p)) in self.sampler.channels.iter().zip(&self.phrases).enumerate() {
            text.channel(c, p, self.counts(j));
        }
    }
}

fn note(r: &Record) -> Note {
    Note { note: r.u8_at(NOTE), channel: r.u8_at(NOTE_CHANNEL) }
}

/// What a refused query shows: no more than its number, and the lists as they were.
fn refused(kind: u8) -> Shown {
    match kind {
        FRAMES_PROCESSED | DATA_LEN => Shown::Count(0),
        IS_RECORDING => Shown::Flag(false),
        LAST_OFFSET => Shown::Offset(None),
        ERROR_TEXT => Shown::ErrorText(String::new()),
        ACTIVE_NOTES => Shown::Notes(Vec::new()),
        _ => Shown::Infos(Vec::new()),
    }
}
