//! Request 11/12's eight phrases of a channel, from its words, around the Rust's unchanged files: each is a Vec of its own, with the place where it begins. The
//! Rust's channel has the chosen one for its data, so that its calls work on it.

use crate::inside;
use audio_sampler_lib::common_types::Params;
use audio_sampler_lib::sampler::{Channel, Sampler, VoiceInfo};
use std::mem::{swap, take};

pub const PHRASES: u8 = 8;

#[derive(Clone, Default)]
pub struct Phrase {
    pub start: usize,
    pub samples: Vec<f32>,
}

/// What a channel has beside the Rust's.
#[derive(Clone)]
pub struct Phrases {
    /// By their numbers; the samples of the chosen one are the channel's data. Those from 8 on are there for broken records, which may choose them.
    pub all: Vec<Phrase>,
    pub chosen: u8,
    /// The phrase of each voice.
    pub voices: Vec<u8>,
}

impl Phrases {
    pub fn new() -> Self {
        Phrases { all: vec![Phrase::default(); 256], chosen: 0, voices: Vec::new() }
    }

    pub fn samples<'a>(&'a self, c: &'a Channel, k: u8) -> &'a [f32] {
        if k == self.chosen { inside::recording(c) } else { &self.all[k as usize].samples }
    }

    /// Where the chosen one begins.
    pub fn start(&self) -> usize {
        self.all[self.chosen as usize].start
    }

    /// The numbers of those that aren't chosen, where they begin and how many samples they have; empty ones aren't among them.
    pub fn others(&self) -> impl Iterator<Item = (u8, usize, usize)> + '_ {
        let of = |k: u8| (k, self.all[k as usize].start, self.all[k as usize].samples.len());
        (0..PHRASES).filter(|k| *k != self.chosen).map(of).filter(|p| p.2 > 0)
    }

    /// Where the others end, of which each lies within the memory.
    fn others_end(&self) -> usize {
        self.others().map(|(_, start, length)| start + length).max().unwrap_or(0)
    }

    /// Whether no other stands behind the chosen one.
    pub fn is_last(&self) -> bool {
        self.others().all(|(_, start, length)| start + length <= self.start())
    }

    /// How many samples the chosen one may hold without moving another.
    pub fn holds(&self, c: &Channel, capacity: usize) -> usize {
        if inside::recording(c).is_empty() {
            return capacity - self.others_end();
        }
        let next = self.others().map(|p| p.1).filter(|start| *start > self.start()).min();
        next.unwrap_or(capacity) - self.start()
    }

    /// Whether a sample that is recorded is dropped: behind the data there is room only if it is last.
    pub fn drops(&self, c: &Channel, capacity: usize) -> bool {
        let length = inside::recording(c).len();
        inside::write_place(c) == Some(length) && !(self.is_last() && self.start() + length < capacity)
    }

    /// An empty one begins behind the others where its recording starts, or as it is read.
    pub fn begin(&mut self, c: &Channel) {
        if inside::recording(c).is_empty() && inside::write_place(c).is_none() {
            self.all[self.chosen as usize].start = self.others_end();
        }
    }

    /// Voices that the channel has more than before are of the chosen phrase.
    pub fn follow(&mut self, c: &Channel) {
        self.voices.resize(inside::voices(c).len(), self.chosen);
    }

    pub fn choose(&mut self, c: &mut Channel, k: u8) {
        swap(inside::recording_mut(c), &mut self.all[self.chosen as usize].samples);
        self.chosen = k;
        swap(inside::recording_mut(c), &mut self.all[k as usize].samples);
    }

    pub fn delete(&mut self, c: &mut Channel, k: u8) {
        if k == self.chosen { inside::recording_mut(c).clear() } else { self.all[k as usize].samples.clear() }
    }

    /// Whether a voice has it, finished or not, or it is being recorded.
    pub fn in_use(&self, c: &Channel, k: u8) -> bool {
        self.voices.contains(&k) || (inside::write_place(c).is_some() && k == self.chosen)
    }

    /// Each that isn't empty comes to stand behind the one before it.
    pub fn gather(&mut self, c: &Channel) {
        let length = |k: u8| self.samples(c, k).len();
        let mut order: Vec<(usize, u8, usize)> = (0..PHRASES).map(|k| (self.all[k as usize].start, k, length(k))).filter(|p| p.2 > 0).collect();
        order.sort();
        let mut place = 0;
        for (_, k, length) in order {
            self.all[k as usize].start = place;
            place += length;
        }
    }

    /// Document 01's broken records, with this request's: "that number is below eight, phrases don't overlap, all lie within the channel's capacity". So is
    /// one in which no phrase is chosen. An empty phrase lies in the capacity if its start does, and overlaps nothing.
    pub fn broken(&self, c: &Channel, capacity: usize) -> bool {
        let place = |k: u8| (self.all[k as usize].start as u128, (self.all[k as usize].start as u128) + self.samples(c, k).len() as u128);
        let places: Vec<_> = (0..PHRASES).map(place).collect();
        let filled: Vec<_> = places.iter().filter(|p| p.0 < p.1).collect();
        let overlap = |i: usize| filled[..i].iter().any(|p| p.0 < filled[i].1 && filled[i].0 < p.1);
        self.chosen >= PHRASES
            || self.voices.iter().any(|k| *k >= PHRASES)
            || places.iter().any(|p| p.1 > capacity as u128)
            || (0..filled.len()).any(overlap)
    }

    /// How many there are that aren't empty, and where they begin in sum.
    pub fn filled(&self, c: &Channel) -> (usize, usize) {
        let filled = (0..PHRASES).filter(|k| !self.samples(c, *k).is_empty());
        filled.fold((0, 0), |(count, sum), k| (count + 1, sum + self.all[k as usize].start))
    }

    /// How many voices are of an empty one.
    pub fn resting(&self, c: &Channel) -> usize {
        self.voices.iter().filter(|k| self.samples(c, **k).is_empty()).count()
    }

    /// Whether there are voices of two or more.
    pub fn spread(&self) -> bool {
        self.voices.windows(2).any(|k| k[0] != k[1])
    }

    /// Whether every voice is of the chosen phrase: the Rust's own sample then plays them.
    pub fn plain(&self) -> bool {
        self.voices.iter().all(|k| *k == self.chosen)
    }

    /// A sample of the channel, but for what it records, and how many voices it moved up: each voice in turn on a channel that has that voice alone, and its
    /// phrase for a recording; and then the input, on the channel without a recording.
    pub fn played(&mut self, c: &mut Channel, input: f32, params: &Params) -> (f32, usize) {
        let voices = take(inside::voices_mut(c)).into_iter().zip(take(&mut self.voices));
        let (mut heard, mut moved, mut left) = (0.0, 0, false);
        for (voice, k) in voices {
            let mut alone = inside::alone(c, voice);
            *inside::recording_mut(&mut alone) = self.lend(c, k);
            // Of no phrase there is no turn.
            if !inside::recording(&alone).is_empty() {
                heard += alone.process_sample(0.0, params);
            }
            self.give_back(c, k, take(inside::recording_mut(&mut alone)));
            match inside::voices_mut(&mut alone).pop() {
                None => left = true,
                Some(voice) => {
                    inside::voices_mut(c).push(voice);
                    self.voices.push(k);
                    moved += left as usize;
                }
            }
        }
        let data = take(inside::recording_mut(c));
        let place = inside::write_place(c);
        inside::put_write_place(c, None);
        heard += c.process_sample(input, params);
        inside::put_write_place(c, place);
        *inside::recording_mut(c) = data;
        (params.volume * heard, moved)
    }

    fn lend(&mut self, c: &mut Channel, k: u8) -> Vec<f32> {
        take(if k == self.chosen { inside::recording_mut(c) } else { &mut self.all[k as usize].samples })
    }

    fn give_back(&mut self, c: &mut Channel, k: u8, samples: Vec<f32>) {
        *(if k == self.chosen { inside::recording_mut(c) } else { &mut self.all[k as usize].samples }) = samples;
    }
}

/// The info of each voice of a channel is the Rust's, with the voice's phrase for the recording of every channel.
pub fn infos(s: &Sampler, phrases: &[Phrases], channel: usize, params: &Params) -> Vec<VoiceInfo> {
    let of = |k: u8| {
        let mut lent = s.clone();
        for (c, p) in lent.channels.iter_mut().zip(phrases) {
            *inside::recording_mut(c) = p.samples(c, k).to_vec();
        }
        lent.get_voice_info(channel, params)
    };
    let all: Vec<Vec<VoiceInfo>> = (0..PHRASES).map(of).collect();
    phrases[channel].voices.iter().enumerate().map(|(i, k)| all[*k as usize][i].clone()).collect()
}
