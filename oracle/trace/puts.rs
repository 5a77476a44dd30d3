//! Records of kind 10, which is no call: one puts the clocks on, or a field of the record to its limit or past it, as crates/oracle_acts/src/puts.rt reads them.
//! And whether a record is broken, by document 01's list.

use crate::engine::{Engine, LAST_TIME, MOST_SAMPLES, MOST_VOICES};
use crate::inside;
use crate::listing::PUT;
use crate::phrases::{Phrase, Phrases};
use crate::record::Record;
use audio_sampler_lib::clip::Clip;
use audio_sampler_lib::sampler::Channel;
use audio_sampler_lib::voice::Voice;
use audio_sampler_lib::volume::Volume;

/// What is put.
pub const CLOCKS: u8 = 0;
pub const CHANNELS: u8 = 1;
pub const CAPACITY: u8 = 2;
pub const VOICES: u8 = 3;
pub const DATA_LENGTH: u8 = 4;
pub const WRITE_PLACE: u8 = 5;
pub const CLOCK: u8 = 6;
pub const PASSTHRU: u8 = 7;
pub const SINCE: u8 = 8;
pub const FINISHED_AT: u8 = 9;
pub const VOLUME: u8 = 10;
pub const LENGTH: u8 = 11;
pub const CLIP_DATA: u8 = 12;
pub const START_AT: u8 = 13;
/// 7/12's, of one channel.
pub const SETTING: u8 = 14;
/// 11/12's: the number that is chosen, a voice's phrase, and where a phrase is.
pub const CHOSEN: u8 = 15;
pub const OF_PHRASE: u8 = 16;
pub const PLACE: u8 = 17;

const NAMES: [&str; 18] = [
    "every clock on by", "the channel count to", "the capacity to", "the voice count to", "the data length past the capacity by",
    "the write place past the data length by", "the clock past 2^48 by", "a ramp of pass-through past the clock by", "since past the clock by",
    "finished_at past the clock by", "a ramp of the volume past the clock by", "the clip's length to", "the clip's data length to",
    "the clip's start to", "the setting of a channel to", "the number that is chosen to",
    "the voice's phrase to", "the phrase of the voice's number to begin at",
];

/// The places of the fields.
const WHAT: usize = 1;
const OF_CHANNEL: usize = 2;
const OF_VOICE: usize = 3;
const BY: usize = 8;
const FLOAT: usize = 12;
const LONG: usize = 16;

const LONGEST: usize = 1 << 24;

/// Puts a field of channel 0, or of its first voice.
pub fn put(what: u8, by: u64) -> Record {
    Record::new(PUT).with_u8(WHAT, what).with_u64(BY, by)
}

pub fn put_float(what: u8, x: f32) -> Record {
    Record::new(PUT).with_u8(WHAT, what).with_u32(FLOAT, x.to_bits())
}

pub fn put_ramp(what: u8, by: u64, long: u64) -> Record {
    put(what, by).with_u64(LONG, long)
}

/// A phrase of channel 0, of so many samples from a place on.
pub fn put_phrase(k: u8, start: u64, length: u64) -> Record {
    of(0, k, put_ramp(PLACE, start, length))
}

/// The same field of another channel, or of another voice.
pub fn of(channel: u8, voice: u8, r: Record) -> Record {
    r.with_u8(OF_CHANNEL, channel).with_u8(OF_VOICE, voice)
}

/// What a record puts.
pub fn name(r: &Record) -> &'static str {
    NAMES.get(r.u8_at(WHAT) as usize).unwrap_or(&"?")
}

pub fn describe(r: &Record) -> String {
    let what = r.u8_at(WHAT);
    let by = if (LENGTH..=START_AT).contains(&what) { format!("{:?}", r.f32_at(FLOAT)) } else { r.u64_at(BY).to_string() };
    format!("{} {by}, of channel {}, voice {}, a ramp or a phrase being {} long", name(r), r.u8_at(OF_CHANNEL), r.u8_at(OF_VOICE), r.u64_at(LONG))
}

impl Engine {
    pub fn put(&mut self, r: &Record) {
        let by = r.u64_at(BY) as usize;
        match r.u8_at(WHAT) {
            CLOCKS => self.sampler.channels.iter_mut().for_each(|c| put_on(c, by)),
            CHANNELS => {
                self.sampler.channels.truncate(by);
                self.phrases.truncate(by);
                self.count = by;
            }
            CAPACITY => self.capacity = by,
            _ => {
                let (capacity, j) = (self.capacity, (r.u8_at(OF_CHANNEL) != 0) as usize);
                let part = self.memory.get(j * capacity..).unwrap_or(&[]);
                if let Some((c, p)) = self.sampler.channels.iter_mut().zip(&mut self.phrases).nth(j) {
                    put_channel(c, p, capacity, part, r);
                }
            }
        }
    }

    /// Whether the record is broken, by document 01's list.
    pub fn broken(&self) -> bool {
        let sizes = (1..=2).contains(&self.count) && (1..=MOST_SAMPLES).contains(&self.capacity);
        !sizes || self.sampler.channels.iter().zip(&self.phrases).any(|(c, p)| broken_channel(c, self.capacity) || p.broken(c, self.capacity))
    }
}

fn put_on(c: &mut Channel, by: usize) {
    let now = inside::clock(c);
    if now < LAST_TIME {
        inside::put_clock(c, now.saturating_add(by).min(LAST_TIME));
    }
}

fn put_channel(c: &mut Channel, p: &mut Phrases, capacity: usize, part: &[u32], r: &Record) {
    let (by, now, length, voice) = (r.u64_at(BY) as usize, inside::clock(c), inside::recording(c).len(), r.u8_at(OF_VOICE));
    match r.u8_at(WHAT) {
        VOICES => {
            put_count(inside::voices_mut(c), by);
            let first = p.voices.first().copied();
            p.voices.resize(inside::voices(c).len(), first.unwrap_or(0));
        }
        DATA_LENGTH => *inside::recording_mut(c) = standing(part, p.start(), capacity + by),
        PLACE => {
            let samples = standing(part, by, r.u64_at(LONG) as usize);
            p.all[voice as usize] = Phrase { start: by, samples };
            if voice == p.chosen {
                *inside::recording_mut(c) = std::mem::take(&mut p.all[voice as usize].samples);
            }
        }
        CHOSEN => {
            let recording = std::mem::take(&mut p.all[p.chosen as usize]);
            p.chosen = by as u8;
            p.all[p.chosen as usize] = recording;
        }
        OF_PHRASE => {
            if let Some(k) = p.voices.get_mut(voice as usize) {
                *k = by as u8;
            }
        }
        WRITE_PLACE => inside::put_write_place(c, Some(length.wrapping_add(by))),
        CLOCK => inside::put_clock(c, LAST_TIME.wrapping_add(by)),
        PASSTHRU => inside::put_passthru(c, ramp(now, r)),
        SETTING => c.interpolates = by != 0,
        _ => {
            if let Some(v) = inside::voices_mut(c).get_mut(voice as usize) {
                put_voice(v, now, r);
            }
        }
    }
}

/// So many samples from a place on, as they stand in the memory.
fn standing(part: &[u32], start: usize, count: usize) -> Vec<f32> {
    let words = part.iter().skip(start).map(|w| f32::from_bits(*w));
    words.chain(std::iter::repeat(0.0)).take(count).collect()
}

/// Voices that are added are like the first.
fn put_count(voices: &mut Vec<Voice>, count: usize) {
    if let Some(first) = voices.first().cloned() {
        voices.resize(count, first);
    }
}

fn put_voice(v: &mut Voice, now: usize, r: &Record) {
    let (past, x) = (now.wrapping_add(r.u64_at(BY) as usize), r.f32_at(FLOAT));
    match r.u8_at(WHAT) {
        SINCE => v.clip2.since = past,
        FINISHED_AT => v.finished_at = past,
        VOLUME => v.volume = ramp(now, r),
        LENGTH => v.clip2.length = x,
        CLIP_DATA => v.clip2.data_length = x,
        _ => v.clip2.start = x,
    }
}

fn ramp(now: usize, r: &Record) -> Volume {
    let start = now.wrapping_add(r.u64_at(BY) as usize);
    Volume::Linear { time: start..start.wrapping_add(r.u64_at(LONG) as usize), value: 0.0..1.0 }
}

fn broken_channel(c: &Channel, capacity: usize) -> bool {
    let (now, length, voices) = (inside::clock(c), inside::recording(c).len(), inside::voices(c));
    voices.len() > MOST_VOICES
        || length > capacity
        || inside::write_place(c).is_some_and(|write| write > length)
        || now > LAST_TIME
        || broken_volume(inside::passthru(c).1, now)
        || voices.iter().any(|v| v.clip2.since > now || v.finished_at > now || broken_volume(&v.volume, now) || bad_clip(&v.clip2))
}

fn broken_volume(v: &Volume, now: usize) -> bool {
    match v {
        Volume::Static(_) => false,
        Volume::Linear { time, .. } => time.start > now || time.end <= time.start || time.end - time.start > LONGEST,
    }
}

fn bad_clip(c: &Clip) -> bool {
    let most = MOST_SAMPLES as f32;
    let length = |x: f32| 1.0 <= x && x <= most;
    !(length(c.length) && length(c.data_length) && 0.0 <= c.start && c.start <= most)
}
