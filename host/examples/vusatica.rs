//! vusatica.h for hosts in Rust, without unsafe code in the host. What C has to promise holds by itself here: fields are
//! private, so that only the library writes a record, parameters or a song; references are what they say; and a sampler
//! has its memory with it. A refused call is an `Err` with its number (docs/HOSTS.md). `Backed` is a sampler that the
//! plain engine plays.
#![allow(dead_code)]
use std::os::raw::{c_char, c_int};
use std::ptr::null_mut;

pub const VERSION: u32 = 2;

#[derive(Clone, Copy, Debug, PartialEq, Eq)]
pub struct Refused(pub i32);

fn done(number: c_int) -> Result<(), Refused> {
    if number == 0 { Ok(()) } else { Err(Refused(number)) }
}

#[repr(u8)]
#[derive(Clone, Copy, Debug, PartialEq, Eq)]
pub enum LengthKind { QuarterNotes = 0, Samples = 1, Seconds = 2, Bars = 3, Ratio = 4, WholeBars = 5 }

#[repr(u8)]
#[derive(Clone, Copy, Debug, PartialEq, Eq)]
pub enum LoopMode { PlayOnce = 0, Loop = 1, PingPong = 2 }

#[repr(u8)]
#[derive(Clone, Copy, Debug, PartialEq, Eq)]
pub enum NoteOff { Decay = 0, ZeroCrossing = 1, DecayAndZeroCrossing = 2 }

#[repr(C)]
#[derive(Clone, Copy, Debug)]
pub struct Settings {
    pub attack_samples: u64,
    pub decay_samples: u64,
    pub sample_rate: f32,
    pub tempo: f32,
    pub time_sig_numerator: u32,
    pub time_sig_denominator: u32,
    pub length: f32,
    pub speed: f32,
    pub reverse_speed: f32,
    pub volume: f32,
    pub length_kind: LengthKind,
    pub loop_mode: LoopMode,
    pub note_off: NoteOff,
    pub auto_passthru: bool,
}

impl Default for Settings {
    fn default() -> Self {
        Settings {
            attack_samples: 100,
            decay_samples: 100,
            sample_rate: 44100.0,
            tempo: 120.0,
            time_sig_numerator: 4,
            time_sig_denominator: 4,
            length: 1.0,
            speed: 1.0,
            reverse_speed: 1.0,
            volume: 1.0,
            length_kind: LengthKind::Ratio,
            loop_mode: LoopMode::Loop,
            note_off: NoteOff::DecayAndZeroCrossing,
            auto_passthru: true,
        }
    }
}

#[repr(C)]
#[derive(Clone, Copy, Debug, Default, PartialEq)]
pub struct Voice {
    pub start: f32,
    pub end: f32,
    pub position: f32,
}

#[repr(C)]
#[derive(Clone)]
struct Record([u64; 893]);

#[repr(C)]
#[derive(Clone)]
pub struct Params([u64; 8]);

extern "C" {
    fn vusatica_version() -> u32;
    fn vusatica_sampler_size() -> usize;
    fn vusatica_params_size() -> usize;
    fn vusatica_settings_size() -> usize;
    fn vusatica_backing_size() -> usize;
    fn vusatica_params_make(params: *mut Params, settings: *const Settings) -> c_int;
    fn vusatica_init(s: *mut Record, channels: usize, auto_passthru: c_int, memory: *const u32, samples: usize) -> c_int;
    fn vusatica_start(s: *mut Record, position: f32, note: u8, channel: u8, velocity: f32, params: *const Params) -> c_int;
    fn vusatica_stop(s: *mut Record, note: u8, channel: u8, params: *const Params) -> c_int;
    fn vusatica_note_speed(s: *mut Record, note: u8, channel: u8, speed: f32) -> c_int;
    fn vusatica_record(s: *mut Record) -> c_int;
    fn vusatica_record_stop(s: *mut Record) -> c_int;
    fn vusatica_reset(s: *mut Record) -> c_int;
    fn vusatica_interpolate(s: *mut Record, on: c_int) -> c_int;
    fn vusatica_frame(s: *mut Record, frame: *mut f32, entries: usize, params: *const Params, memory: *mut u32, samples: usize, moved: *mut c_int) -> c_int;
    fn vusatica_frames(s: *mut Record, run: *mut f32, entries: usize, params: *const Params, memory: *mut u32, samples: usize, frames: *mut usize) -> c_int;
    fn vusatica_sample(s: *mut Record, channel: usize, input: f32, params: *const Params, memory: *mut u32, samples: usize, output: *mut f32, moved: *mut c_int) -> c_int;
    fn vusatica_frames_processed(s: *const Record, channel: usize, count: *mut usize) -> c_int;
    fn vusatica_data_length(s: *const Record, channel: usize, count: *mut usize) -> c_int;
    fn vusatica_is_recording(s: *const Record, channel: usize, is: *mut c_int) -> c_int;
    fn vusatica_last_recorded_offset(s: *const Record, channel: usize, at: *mut usize, is: *mut c_int) -> c_int;
    fn vusatica_error_text(s: *const Record, channel: usize, text: *mut c_char, room: usize, count: *mut usize) -> c_int;
    fn vusatica_active_notes(s: *const Record, channel: usize, notes: *mut u64, room: usize, count: *mut usize) -> c_int;
    fn vusatica_voices(s: *const Record, channel: usize, params: *const Params, list: *mut Voice, room: usize, count: *mut usize) -> c_int;
    fn vusatica_waveform(s: *const Record, columns: usize, values: *mut f32, room: usize, memory: *const u32, samples: usize, smallest: *mut f32, largest: *mut f32) -> c_int;
    fn vusatica_write_wave(s: *const Record, rate: u32, memory: *const u32, samples: usize, file: *mut u8, room: usize, length: *mut usize) -> c_int;
    fn vusatica_read_wave(s: *mut Record, file: *const u8, length: usize, memory: *mut u32, samples: usize, rate: *mut u32) -> c_int;
    fn vusatica_choose(s: *mut Record, phrase: usize) -> c_int;
    fn vusatica_delete(s: *mut Record, phrase: usize) -> c_int;
    fn vusatica_gather(s: *mut Record, memory: *mut u32, samples: usize) -> c_int;
    fn vusatica_read_song(file: *const u8, length: usize, rate: u32, list: *mut u64, room: usize, count: *mut usize) -> c_int;
    fn vusatica_play_song(s: *mut Record, list: *const u64, entries: usize, next: *mut usize, frame: u64, params: *const Params) -> usize;
    fn vusatica_merge_song(file: *const u8, length: usize, spare: *mut u8, out: *mut u8, room: usize, written: *mut usize) -> c_int;
    fn vusatica_turn_wave(file: *const u8, length: usize, out: *mut u8, room: usize, written: *mut usize) -> c_int;
    fn vusatica_backing_init(k: *mut u64);
    fn vusatica_backed_start(s: *mut Record, k: *mut u64, position: f32, note: u8, channel: u8, velocity: f32, params: *const Params) -> c_int;
    fn vusatica_backed_stop(s: *mut Record, k: *mut u64, note: u8, channel: u8, params: *const Params) -> c_int;
    fn vusatica_backed_note_speed(s: *mut Record, k: *mut u64, note: u8, channel: u8, speed: f32) -> c_int;
    fn vusatica_backed_record(s: *mut Record, k: *mut u64) -> c_int;
    fn vusatica_backed_record_stop(s: *mut Record, k: *mut u64) -> c_int;
    fn vusatica_backed_reset(s: *mut Record, k: *mut u64) -> c_int;
    fn vusatica_backed_interpolate(s: *mut Record, k: *mut u64, on: c_int) -> c_int;
    fn vusatica_backed_frame(s: *mut Record, k: *mut u64, frame: *mut f32, entries: usize, params: *const Params, memory: *mut u32, samples: usize, moved: *mut c_int) -> c_int;
    fn vusatica_backed_frames(s: *mut Record, k: *mut u64, run: *mut f32, entries: usize, params: *const Params, memory: *mut u32, samples: usize, frames: *mut usize) -> c_int;
    fn vusatica_backed_sample(s: *mut Record, k: *mut u64, channel: usize, input: f32, params: *const Params, memory: *mut u32, samples: usize, output: *mut f32, moved: *mut c_int) -> c_int;
    fn vusatica_backed_choose(s: *mut Record, k: *mut u64, phrase: usize) -> c_int;
    fn vusatica_backed_delete(s: *mut Record, k: *mut u64, phrase: usize) -> c_int;
    fn vusatica_backed_gather(s: *mut Record, k: *mut u64, memory: *mut u32, samples: usize) -> c_int;
    fn vusatica_backed_read_wave(s: *mut Record, k: *mut u64, file: *const u8, length: usize, memory: *mut u32, samples: usize, rate: *mut u32) -> c_int;
}

impl Params {
    pub fn new(settings: &Settings) -> Result<Params, Refused> {
        let mut made = Params([0; 8]);
        done(unsafe { vusatica_params_make(&mut made, settings) }).map(|_| made)
    }
}

/// What a call writes that is asked with no room first, and answers how much there has to be (8).
fn written(call: impl Fn(&mut [u8], &mut usize) -> c_int) -> Result<Vec<u8>, Refused> {
    let mut length = 0;
    let number = call(&mut [], &mut length);
    if number != 8 {
        done(number)?;
    }
    let mut out = vec![0; length];
    done(call(&mut out, &mut length))?;
    out.truncate(length);
    Ok(out)
}

/// A song of format 1 as one of format 0, which `Song::read` takes.
pub fn merge_song(file: &[u8]) -> Result<Vec<u8>, Refused> {
    written(|out, length| {
        let mut spare = vec![0; out.len()];
        unsafe { vusatica_merge_song(file.as_ptr(), file.len(), spare.as_mut_ptr(), out.as_mut_ptr(), out.len(), length) }
    })
}

/// A WAVE file of whole numbers, or of floats of 64 bits, as one of 32-bit floats, which `Sampler::read_wave` takes.
pub fn turn_wave(file: &[u8]) -> Result<Vec<u8>, Refused> {
    written(|out, length| unsafe { vusatica_turn_wave(file.as_ptr(), file.len(), out.as_mut_ptr(), out.len(), length) })
}

/// A song that was read: its starts and stops, and how far it is played.
pub struct Song {
    list: Vec<u64>,
    next: usize,
}

impl Song {
    /// Read twice: into no list, which answers how many entries there are (8), then into one that holds them.
    pub fn read(file: &[u8], rate: u32) -> Result<Song, Refused> {
        let mut count = 0;
        let number = unsafe { vusatica_read_song(file.as_ptr(), file.len(), rate, null_mut(), 0, &mut count) };
        if number != 8 {
            done(number)?;
        }
        let mut list = vec![0; 2 * count];
        done(unsafe { vusatica_read_song(file.as_ptr(), file.len(), rate, list.as_mut_ptr(), list.len(), &mut count) })?;
        Ok(Song { list, next: 0 })
    }

    /// The frame of the next start or stop: where a block is to be cut.
    pub fn next_frame(&self) -> Option<u64> {
        self.list.get(2 * self.next).copied()
    }

    /// Velocity, 0 for a stop, note and channel of the next, three bytes of its second word.
    fn key(&self) -> [u8; 3] {
        let word = self.list[2 * self.next + 1];
        [(word >> 16) as u8, (word >> 8) as u8, word as u8]
    }
}

/// An engine with its memory. `clone` takes all of it.
#[derive(Clone)]
pub struct Sampler {
    record: Box<Record>,
    memory: Vec<u32>,
}

impl Sampler {
    pub fn new(channels: usize, auto_passthru: bool, samples: usize) -> Result<Sampler, Refused> {
        use std::mem::size_of;
        unsafe {
            assert_eq!((VERSION, size_of::<Record>()), (vusatica_version(), vusatica_sampler_size()));
            assert_eq!((size_of::<Params>(), size_of::<Settings>()), (vusatica_params_size(), vusatica_settings_size()));
        }
        let mut s = Sampler { record: Box::new(Record([0; 893])), memory: vec![0; samples] };
        done(unsafe { vusatica_init(&mut *s.record, channels, auto_passthru as c_int, s.memory.as_ptr(), samples) }).map(|_| s)
    }

    pub fn start(&mut self, position: f32, note: u8, channel: u8, velocity: f32, params: &Params) -> Result<(), Refused> {
        done(unsafe { vusatica_start(&mut *self.record, position, note, channel, velocity, params) })
    }

    pub fn stop(&mut self, note: u8, channel: u8, params: &Params) -> Result<(), Refused> {
        done(unsafe { vusatica_stop(&mut *self.record, note, channel, params) })
    }

    pub fn note_speed(&mut self, note: u8, channel: u8, speed: f32) -> Result<(), Refused> {
        done(unsafe { vusatica_note_speed(&mut *self.record, note, channel, speed) })
    }

    pub fn record(&mut self) -> Result<(), Refused> {
        done(unsafe { vusatica_record(&mut *self.record) })
    }

    pub fn record_stop(&mut self) -> Result<(), Refused> {
        done(unsafe { vusatica_record_stop(&mut *self.record) })
    }

    pub fn reset(&mut self) -> Result<(), Refused> {
        done(unsafe { vusatica_reset(&mut *self.record) })
    }

    pub fn interpolate(&mut self, on: bool) -> Result<(), Refused> {
        done(unsafe { vusatica_interpolate(&mut *self.record, on as c_int) })
    }

    pub fn frame(&mut self, frame: &mut [f32], params: &Params) -> Result<(), Refused> {
        let (memory, samples) = (self.memory.as_mut_ptr(), self.memory.len());
        done(unsafe { vusatica_frame(&mut *self.record, frame.as_mut_ptr(), frame.len(), params, memory, samples, null_mut()) })
    }

    /// How many frames are done, which stand whatever the answer is, and the answer.
    pub fn frames(&mut self, run: &mut [f32], params: &Params) -> (usize, Result<(), Refused>) {
        let (memory, samples) = (self.memory.as_mut_ptr(), self.memory.len());
        let mut frames = 0;
        let number = unsafe { vusatica_frames(&mut *self.record, run.as_mut_ptr(), run.len(), params, memory, samples, &mut frames) };
        (frames, done(number))
    }

    pub fn sample(&mut self, channel: usize, input: f32, params: &Params) -> Result<f32, Refused> {
        let (memory, samples) = (self.memory.as_mut_ptr(), self.memory.len());
        let mut output = 0.0;
        done(unsafe { vusatica_sample(&mut *self.record, channel, input, params, memory, samples, &mut output, null_mut()) }).map(|_| output)
    }

    pub fn frames_processed(&self, channel: usize) -> Result<usize, Refused> {
        let mut count = 0;
        done(unsafe { vusatica_frames_processed(&*self.record, channel, &mut count) }).map(|_| count)
    }

    pub fn data_length(&self, channel: usize) -> Result<usize, Refused> {
        let mut count = 0;
        done(unsafe { vusatica_data_length(&*self.record, channel, &mut count) }).map(|_| count)
    }

    pub fn is_recording(&self, channel: usize) -> Result<bool, Refused> {
        let mut is = 0;
        done(unsafe { vusatica_is_recording(&*self.record, channel, &mut is) }).map(|_| is != 0)
    }

    pub fn last_recorded_offset(&self, channel: usize) -> Result<Option<usize>, Refused> {
        let (mut at, mut is) = (0, 0);
        done(unsafe { vusatica_last_recorded_offset(&*self.record, channel, &mut at, &mut is) }).map(|_| if is != 0 { Some(at) } else { None })
    }

    /// How many bytes of the text were written.
    pub fn error_text(&self, channel: usize, text: &mut [u8]) -> Result<usize, Refused> {
        let mut count = 0;
        done(unsafe { vusatica_error_text(&*self.record, channel, text.as_mut_ptr() as *mut c_char, text.len(), &mut count) }).map(|_| count)
    }

    /// Each is 256 * note + channel; how many were written.
    pub fn active_notes(&self, channel: usize, notes: &mut [u64]) -> Result<usize, Refused> {
        let mut count = 0;
        done(unsafe { vusatica_active_notes(&*self.record, channel, notes.as_mut_ptr(), notes.len(), &mut count) }).map(|_| count)
    }

    pub fn voices(&self, channel: usize, params: &Params, list: &mut [Voice]) -> Result<usize, Refused> {
        let mut count = 0;
        done(unsafe { vusatica_voices(&*self.record, channel, params, list.as_mut_ptr(), list.len(), &mut count) }).map(|_| count)
    }

    /// The smallest and the largest value.
    pub fn waveform(&self, columns: usize, values: &mut [f32]) -> Result<(f32, f32), Refused> {
        let (memory, samples) = (self.memory.as_ptr(), self.memory.len());
        let (mut smallest, mut largest) = (0.0, 0.0);
        done(unsafe { vusatica_waveform(&*self.record, columns, values.as_mut_ptr(), values.len(), memory, samples, &mut smallest, &mut largest) })
            .map(|_| (smallest, largest))
    }

    /// How many bytes the file has.
    pub fn write_wave(&self, rate: u32, file: &mut [u8]) -> Result<usize, Refused> {
        let (memory, samples) = (self.memory.as_ptr(), self.memory.len());
        let mut length = 0;
        done(unsafe { vusatica_write_wave(&*self.record, rate, memory, samples, file.as_mut_ptr(), file.len(), &mut length) }).map(|_| length)
    }

    /// The file's rate.
    pub fn read_wave(&mut self, file: &[u8]) -> Result<u32, Refused> {
        let (memory, samples) = (self.memory.as_mut_ptr(), self.memory.len());
        let mut rate = 0;
        done(unsafe { vusatica_read_wave(&mut *self.record, file.as_ptr(), file.len(), memory, samples, &mut rate) }).map(|_| rate)
    }

    pub fn choose(&mut self, phrase: usize) -> Result<(), Refused> {
        done(unsafe { vusatica_choose(&mut *self.record, phrase) })
    }

    pub fn delete(&mut self, phrase: usize) -> Result<(), Refused> {
        done(unsafe { vusatica_delete(&mut *self.record, phrase) })
    }

    pub fn gather(&mut self) -> Result<(), Refused> {
        done(unsafe { vusatica_gather(&mut *self.record, self.memory.as_mut_ptr(), self.memory.len()) })
    }

    /// Makes the calls of the song that are due at this frame, and says how many were refused.
    pub fn play_song(&mut self, song: &mut Song, frame: u64, params: &Params) -> usize {
        unsafe { vusatica_play_song(&mut *self.record, song.list.as_ptr(), song.list.len() / 2, &mut song.next, frame, params) }
    }
}

/// A sampler that the plain engine plays, with the engine's backing: the same answers and the same sound, sooner for loops
/// at speed 1 of whole lengths. Questions are the sampler's own, and `clone` takes all of it.
#[derive(Clone)]
pub struct Backed {
    sampler: Sampler,
    backing: Vec<u64>,
}

impl std::ops::Deref for Backed {
    type Target = Sampler;

    fn deref(&self) -> &Sampler {
        &self.sampler
    }
}

impl Backed {
    /// The backing has as many bytes as the library says.
    pub fn new(sampler: Sampler) -> Backed {
        let mut backing = vec![0; unsafe { vusatica_backing_size() } / 8];
        unsafe { vusatica_backing_init(backing.as_mut_ptr()) };
        Backed { sampler, backing }
    }

    /// The sampler as it stands, for the first engine.
    pub fn into_sampler(self) -> Sampler {
        self.sampler
    }

    /// The two records.
    fn both(&mut self) -> (*mut Record, *mut u64) {
        (&mut *self.sampler.record, self.backing.as_mut_ptr())
    }

    fn memory(&mut self) -> (*mut u32, usize) {
        (self.sampler.memory.as_mut_ptr(), self.sampler.memory.len())
    }

    pub fn start(&mut self, position: f32, note: u8, channel: u8, velocity: f32, params: &Params) -> Result<(), Refused> {
        let (s, k) = self.both();
        done(unsafe { vusatica_backed_start(s, k, position, note, channel, velocity, params) })
    }

    pub fn stop(&mut self, note: u8, channel: u8, params: &Params) -> Result<(), Refused> {
        let (s, k) = self.both();
        done(unsafe { vusatica_backed_stop(s, k, note, channel, params) })
    }

    pub fn note_speed(&mut self, note: u8, channel: u8, speed: f32) -> Result<(), Refused> {
        let (s, k) = self.both();
        done(unsafe { vusatica_backed_note_speed(s, k, note, channel, speed) })
    }

    pub fn record(&mut self) -> Result<(), Refused> {
        let (s, k) = self.both();
        done(unsafe { vusatica_backed_record(s, k) })
    }

    pub fn record_stop(&mut self) -> Result<(), Refused> {
        let (s, k) = self.both();
        done(unsafe { vusatica_backed_record_stop(s, k) })
    }

    pub fn reset(&mut self) -> Result<(), Refused> {
        let (s, k) = self.both();
        done(unsafe { vusatica_backed_reset(s, k) })
    }

    pub fn interpolate(&mut self, on: bool) -> Result<(), Refused> {
        let (s, k) = self.both();
        done(unsafe { vusatica_backed_interpolate(s, k, on as c_int) })
    }

    pub fn frame(&mut self, frame: &mut [f32], params: &Params) -> Result<(), Refused> {
        let ((s, k), (memory, samples)) = (self.both(), self.memory());
        done(unsafe { vusatica_backed_frame(s, k, frame.as_mut_ptr(), frame.len(), params, memory, samples, null_mut()) })
    }

    /// How many frames are done, which stand whatever the answer is, and the answer.
    pub fn frames(&mut self, run: &mut [f32], params: &Params) -> (usize, Result<(), Refused>) {
        let ((s, k), (memory, samples)) = (self.both(), self.memory());
        let mut frames = 0;
        let number = unsafe { vusatica_backed_frames(s, k, run.as_mut_ptr(), run.len(), params, memory, samples, &mut frames) };
        (frames, done(number))
    }

    pub fn sample(&mut self, channel: usize, input: f32, params: &Params) -> Result<f32, Refused> {
        let ((s, k), (memory, samples)) = (self.both(), self.memory());
        let mut output = 0.0;
        done(unsafe { vusatica_backed_sample(s, k, channel, input, params, memory, samples, &mut output, null_mut()) }).map(|_| output)
    }

    pub fn choose(&mut self, phrase: usize) -> Result<(), Refused> {
        let (s, k) = self.both();
        done(unsafe { vusatica_backed_choose(s, k, phrase) })
    }

    pub fn delete(&mut self, phrase: usize) -> Result<(), Refused> {
        let (s, k) = self.both();
        done(unsafe { vusatica_backed_delete(s, k, phrase) })
    }

    pub fn gather(&mut self) -> Result<(), Refused> {
        let ((s, k), (memory, samples)) = (self.both(), self.memory());
        done(unsafe { vusatica_backed_gather(s, k, memory, samples) })
    }

    /// The file's rate.
    pub fn read_wave(&mut self, file: &[u8]) -> Result<u32, Refused> {
        let ((s, k), (memory, samples)) = (self.both(), self.memory());
        let mut rate = 0;
        done(unsafe { vusatica_backed_read_wave(s, k, file.as_ptr(), file.len(), memory, samples, &mut rate) }).map(|_| rate)
    }

    /// Makes the calls of the song that are due at this frame, and says how many were refused.
    pub fn play_song(&mut self, song: &mut Song, frame: u64, params: &Params) -> usize {
        let mut refused = 0;
        while matches!(song.next_frame(), Some(due) if due <= frame) {
            let [velocity, note, channel] = song.key();
            let made = if velocity > 0 { self.start(0.0, note, channel, velocity as f32 / 127.0, params) } else { self.stop(note, channel, params) };
            refused += made.is_err() as usize;
            song.next += 1;
        }
        refused
    }
}
