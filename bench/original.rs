//! The Rust's side: the same scenario, played on the original, in which 7/12's setting costs a test for each voice where it is off (oracle/model).

use crate::scenario::{input_at, Act, Scenario, BEAT, SIZE};
use audio_sampler_lib::common_types::{InitParams, Note, Params};
use audio_sampler_lib::inside;
use audio_sampler_lib::sampler::{Channel, Sampler};
use audio_sampler_lib::time_value::{TimeOrRatio, TimeValue};
use std::hint::black_box;

/// Puts a zero where a length of another kind would have its number. Optimized, the Rust works every kind out before it asks which one it is, from whatever
/// stands there, and a float too small to be normal costs more than the rest of a sample.
fn settle(p: &mut Params) {
    if let TimeOrRatio::Ratio(ratio) = p.loop_length {
        p.loop_length = TimeOrRatio::Time(TimeValue::samples(0.0));
        black_box(&mut *p).loop_length = TimeOrRatio::Ratio(ratio);
    }
}

fn note_of(i: u32) -> Note {
    Note::new((i % 128) as u8, 0)
}

fn start(s: &mut Sampler, i: u32, p: &Params) {
    s.start_playing(i as f32 / 32.0, note_of(i), 0.5, p);
}

fn process(s: &mut Sampler, frame: [f32; 2], p: &Params) -> [f32; 2] {
    let [mut left, mut right] = frame;
    s.process_frame(&mut [&mut left, &mut right], p);
    [left, right]
}

fn begun(scenario: &Scenario, p: &Params) -> Sampler {
    let mut s = Sampler::new(2, &InitParams::default());
    s.start_recording();
    for i in 0..SIZE / scenario.phrases {
        process(&mut s, [input_at(i % 256), input_at(i % 255)], p);
    }
    if !scenario.grows {
        s.stop_recording(p);
    }
    for c in &mut s.channels {
        inside::put_clock(c, scenario.clock as usize);
        c.interpolates = scenario.smooth;
    }
    (0..scenario.voices).for_each(|i| start(&mut s, i, p));
    (0..scenario.voices).filter(|&i| scenario.bends(i)).for_each(|i| s.set_note_speed(note_of(i), 0.7));
    (0..scenario.voices).filter(|&i| scenario.stops(i)).for_each(|i| s.stop_playing(note_of(i), p));
    s
}

fn summed(sum: u64, n: u64) -> u64 {
    (sum % (1 << 48)) * 257 + n
}

fn bits(output: f32) -> u64 {
    u64::from(if output.is_nan() { 0x7fc0_0000 } else { output.to_bits() })
}

fn with_outputs(sum: u64, outputs: [f32; 2]) -> u64 {
    summed(summed(sum, bits(outputs[0])), bits(outputs[1]))
}

/// Lets 16 keys go or starts them again: the even ones and the odd ones in turn.
fn change_keys(s: &mut Sampler, k: u32, p: &Params) {
    for i in 0..16 {
        let key = i * 2 + k / (BEAT * 2) % 2;
        if k % (BEAT * 2) == 0 {
            s.stop_playing(note_of(key), p);
        } else {
            start(s, key, p);
        }
    }
}

fn on_beat(s: &mut Sampler, scenario: &Scenario, k: u32, p: &Params) {
    if scenario.records && k % SIZE == 0 {
        s.stop_recording(p);
        s.start_recording();
    }
    if scenario.leaves {
        change_keys(s, k, p);
    }
}

fn play(scenario: &Scenario, s: &mut Sampler, p: &Params) -> u64 {
    let mut other = scenario.other_params();
    settle(&mut other);
    let inputs: Vec<f32> = (0..256).map(input_at).collect();
    let mut sum = 0;
    for k in 0..scenario.frames {
        if k % BEAT == 0 {
            on_beat(s, scenario, k, p);
        }
        let at = k as usize;
        let now = if k / scenario.run % 2 == 0 { p } else { &other };
        sum = with_outputs(sum, process(s, [inputs[at % 256], inputs[(at + 7) % 256]], now));
    }
    sum
}

/// One turn. A frame gives the bits of its outputs.
fn act(scenario: &Scenario, s: &mut Sampler, k: u32, p: &Params) -> u64 {
    let last = note_of(scenario.voices - 1);
    match scenario.act {
        Act::Nothing => (),
        Act::Frame => return with_outputs(0, process(s, [input_at(k % 256), input_at((k + 7) % 256)], p)),
        Act::Start => start(s, scenario.voices, p),
        Act::Stop => s.stop_playing(last, p),
        Act::NoteSpeed => s.set_note_speed(last, 0.5),
        Act::StartRecording => s.start_recording(),
        Act::StopRecording => s.stop_recording(p),
        Act::Reset => s.reset(),
    }
    0
}

/// What a call may have changed: lengths, clock, write place, and the last voice's speed and state, each times another number, so that one isn't taken for
/// another.
fn told(c: &Channel) -> u64 {
    let last = inside::voices(c).last().map_or(0, |v| u64::from(v.speed.to_bits()) + u64::from(v.finished) * 13);
    let write = inside::write_place(c).map_or(0, |at| at + 1);
    last + (inside::voices(c).len() * 3 + inside::recording(c).len() * 5 + inside::clock(c) * 7 + write * 11) as u64
}

fn put_back(c: &mut Channel, was: &Channel, voices: u32, now: usize) {
    let from = inside::voices(was).len() - voices as usize;
    // A turn lets voices go and samples by a shorter length, and neither has anything to drop: what stands up to the old length is still one of each.
    unsafe {
        inside::voices_mut(c).set_len(inside::voices(was).len());
        inside::recording_mut(c).set_len(inside::recording(was).len());
    }
    inside::voices_mut(c)[from..].clone_from_slice(&inside::voices(was)[from..]);
    inside::put_clock(c, now);
    inside::put_passthru(c, inside::passthru(was).1.clone());
    inside::put_write_place(c, inside::write_place(was));
}

/// Turns of which each begins on the same record. What `black_box` is handed must be there in memory: no call is left out because it is undone.
fn turns(scenario: &Scenario, s: &mut Sampler, p: &Params) -> u64 {
    let was = s.clone();
    let mut sum = 0;
    for k in 0..scenario.frames {
        let heard = act(scenario, black_box(&mut *s), k, p);
        let channels = &mut black_box(&mut *s).channels;
        sum = summed(sum, heard + channels.iter().map(told).sum::<u64>());
        let now = (scenario.clock + u64::from(k) + 1) as usize;
        channels.iter_mut().zip(&was.channels).for_each(|(c, was)| put_back(c, was, scenario.put_back, now));
    }
    sum
}

/// A sum over the bits of every output, or over what each call changed.
#[inline(never)]
pub fn played(scenario: &Scenario) -> u64 {
    let mut p = scenario.params();
    settle(&mut p);
    let mut s = begun(scenario, &p);
    if scenario.put_back > 0 {
        turns(scenario, &mut s, &p)
    } else {
        play(scenario, &mut s, &p)
    }
}
