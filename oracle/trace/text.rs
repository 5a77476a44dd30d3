//! Lines as the port's program writes them, and a count of the fields in them.

use crate::engine::MOST_VOICES;
use crate::inside;
use crate::phrases::Phrases;
use audio_sampler_lib::clip::{Clip, Mode};
use audio_sampler_lib::sampler::Channel;
use audio_sampler_lib::voice::Voice;
use audio_sampler_lib::volume::Volume;

#[derive(Default)]
pub struct Text {
    pub bytes: Vec<u8>,
    pub fields: u64,
}

/// The names of the fields in the lines of a channel, of a phrase and of a voice, for a reader.
pub const CHANNEL: [&str; 16] = [
    "clock", "chosen", "start", "data length", "recording", "write place", "skip count", "state error count", "pass-through on", "pass-through kind",
    "pass-through from time", "pass-through till time", "pass-through from", "pass-through till", "interpolates", "voices",
];
pub const PHRASE: [&str; 3] = ["phrase", "start", "length"];
pub const VOICE: [&str; 23] = [
    "finished_at", "last_sample_index", "since", "start", "clip speed", "length", "data_length", "shift", "mode", "volume kind",
    "volume from time", "volume till time", "volume from", "volume till", "loop_start_percent", "played", "last_sample_value", "speed", "note",
    "note's channel", "finished", "is_at_zero_crossing", "phrase",
];

impl Text {
    pub fn clear(&mut self) {
        self.bytes.clear();
        self.fields = 0;
    }

    pub fn tag(&mut self, letter: u8) {
        self.bytes.extend([letter, b' ']);
    }

    fn digits(&mut self, count: u32, n: u64, after: u8) {
        self.bytes.extend((0..count).rev().map(|d| b"0123456789ABCDEF"[(n >> (4 * d)) as usize % 16]));
        self.bytes.push(after);
        self.fields += 1;
    }

    pub fn put(&mut self, count: u32, n: u64) {
        self.digits(count, n, b' ');
    }

    pub fn float(&mut self, x: f32) {
        self.put(8, bits(x));
    }

    /// The last number of a line.
    pub fn last(&mut self, count: u32, n: u64) {
        self.digits(count, n, b'\n');
    }

    /// How many entries a list was given, and all of it: those, and then what stood there before.
    pub fn list(&mut self, given: usize, entries: impl Iterator<Item = (u32, u64)>, before: (u32, u64), size: usize) {
        self.put(2, given as u64);
        for (digits, n) in entries.chain(std::iter::repeat(before)).take(size) {
            self.put(digits, n);
        }
        self.end();
    }

    pub fn end(&mut self) {
        self.bytes.pop();
        self.bytes.push(b'\n');
    }

    fn volume(&mut self, v: &Volume) {
        let (kind, time, value) = match v {
            Volume::Static(x) => (0, 0..0, *x..0.0),
            Volume::Linear { time, value } => (1, time.clone(), value.clone()),
        };
        self.digits(1, kind, b':');
        self.digits(16, time.start as u64, b':');
        self.digits(16, time.end as u64, b':');
        self.digits(8, bits(value.start), b':');
        self.float(value.end);
    }

    fn clip(&mut self, c: &Clip) {
        self.put(16, c.since as u64);
        for x in [c.start, c.speed, c.length, c.data_length] {
            self.float(x);
        }
        // Zeros of either sign are alike.
        self.float(if c.shift == 0.0 { 0.0 } else { c.shift });
        self.put(1, (c.mode == Mode::PingPong) as u64);
    }

    fn voice(&mut self, v: &Voice, phrase: u8) {
        self.tag(b'V');
        self.put(16, v.finished_at as u64);
        self.put(16, v.last_sample_index as u64);
        self.clip(&v.clip2);
        self.volume(&v.volume);
        for x in [v.loop_start_percent, v.played, v.last_sample_value, v.speed] {
            self.float(x);
        }
        self.put(2, v.note.note as u64);
        self.put(2, v.note.channel as u64);
        self.put(1, v.finished as u64);
        self.put(1, v.is_at_zero_crossing as u64);
        self.last(2, phrase as u64);
    }

    /// A phrase that isn't chosen and has samples.
    fn phrase(&mut self, (k, start, length): (u8, usize, usize)) {
        self.tag(b'P');
        self.put(1, k as u64);
        self.put(16, start as u64);
        self.last(16, length as u64);
    }

    /// A channel with its skip count and its state error count, its phrases and its voices. An empty recording begins nowhere until it is recorded.
    pub fn channel(&mut self, c: &Channel, p: &Phrases, (skipped, misused): (u64, u64)) {
        let (on, volume) = inside::passthru(c);
        let place = inside::write_place(c);
        self.tag(b'C');
        self.put(16, inside::clock(c) as u64);
        let length = inside::recording(c).len();
        self.put(2, p.chosen as u64);
        self.put(16, if length > 0 || place.is_some() { p.start() as u64 } else { 0 });
        self.put(16, length as u64);
        self.put(1, place.is_some() as u64);
        self.put(16, place.unwrap_or(0) as u64);
        self.put(8, skipped);
        self.put(8, misused);
        self.put(1, on as u64);
        self.volume(volume);
        self.put(1, c.interpolates as u64);
        self.last(16, inside::voices(c).len() as u64);
        p.others().for_each(|phrase| self.phrase(phrase));
        for (v, k) in inside::voices(c).iter().zip(&p.voices).take(MOST_VOICES) {
            self.voice(v, *k);
        }
    }

    /// Every sample of a phrase that has some, as it stands in the memory. One of a broken record may reach past its end.
    pub fn recording(&mut self, k: u8, length: usize, words: &[u32]) {
        if length == 0 {
            return;
        }
        self.tag(b'M');
        self.put(1, k as u64);
        for word in words.iter().take(length) {
            self.put(8, *word as u64);
        }
        self.end();
    }
}

/// A float by its bits. One NaN counts as any other.
pub fn bits(x: f32) -> u64 {
    if x.is_nan() { 0x7fc0_0000 } else { x.to_bits() as u64 }
}
