//! A look into the engine, for the comparison: this module is compiled into the engine's crate, whose own files stay as they are but for 7/12's
//! setting, and so sees what the crate keeps to itself.

use crate::common_types::Note;
use crate::recorder::{Recorder, State};
use crate::sampler::Channel;
use crate::voice::Voice;
use crate::volume::Volume;

pub fn clock(c: &Channel) -> usize {
    c.now
}

pub fn put_clock(c: &mut Channel, now: usize) {
    c.now = now;
}

pub fn recording(c: &Channel) -> &[f32] {
    &c.data
}

pub fn recording_mut(c: &mut Channel) -> &mut Vec<f32> {
    &mut c.data
}

pub fn voices(c: &Channel) -> &[Voice] {
    &c.voices
}

pub fn voices_mut(c: &mut Channel) -> &mut Vec<Voice> {
    &mut c.voices
}

/// Gives each voice its place for a note, which a sample doesn't read, so that those that it keeps can be told. The notes are handed back.
pub fn mark(c: &mut Channel) -> Vec<Note> {
    let places = (0..).map(|n| Note { note: n, channel: 0 });
    c.voices.iter_mut().zip(places).map(|(v, place)| std::mem::replace(&mut v.note, place)).collect()
}

/// How many voices are kept behind the first that isn't, by the places that they were marked with. Each has its own note again.
pub fn kept_behind(c: &mut Channel, notes: &[Note]) -> usize {
    let kept: Vec<usize> = c.voices.iter().map(|v| v.note.note as usize).collect();
    for (v, place) in c.voices.iter_mut().zip(&kept) {
        v.note = notes[*place];
    }
    let first_gone = (0..notes.len()).find(|place| !kept.contains(place));
    first_gone.map_or(0, |gone| kept.iter().filter(|place| **place > gone).count())
}

pub fn passthru(c: &Channel) -> (bool, &Volume) {
    (c.passthru_on, &c.passthru_volume)
}

pub fn put_passthru(c: &mut Channel, volume: Volume) {
    c.passthru_volume = volume;
}

pub fn write_place(c: &Channel) -> Option<usize> {
    match c.recorder.state {
        State::Triggered { write } => Some(write),
        State::Idle => None,
    }
}

/// Makes the recorder stand at a write place, or be idle.
pub fn put_write_place(c: &mut Channel, place: Option<usize>) {
    c.recorder.state = match place {
        Some(write) => State::Triggered { write },
        None => State::Idle,
    };
}

/// The recorder's part of a sample.
pub fn record(c: &mut Channel, x: f32) {
    c.recorder.process_sample(x, &mut c.data);
}

/// A channel with one voice alone, at the time and with the setting of another, and without pass-through.
pub fn alone(c: &Channel, voice: Voice) -> Channel {
    Channel {
        data: Vec::new(),
        voices: vec![voice],
        now: c.now,
        passthru_on: false,
        passthru_volume: Volume::new(0.0),
        recorder: Recorder::new(),
        next_voice_id: 0,
        interpolates: c.interpolates,
    }
}
