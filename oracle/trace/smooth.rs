//! Request 7/12's interpolating voice, from its words. This module is compiled into the engine's crate, whose sampler.rs asks it what a voice takes
//! of the recording (oracle/model).

use crate::clip::Clip;

/// The sample at the index, or with the setting on what lies between it and that at the next index. With the setting off this costs the Rust a test.
#[inline(always)]
pub fn taken(on: bool, data: &[f32], index: usize, clip: &Clip, now: usize) -> f32 {
    if on { between(data, index, clip, now) } else { data[index] }
}

/// a + (b - a) * fraction, b being the sample at the next index.
#[inline(never)]
fn between(data: &[f32], index: usize, clip: &Clip, now: usize) -> f32 {
    let (a, b) = (data[index], data[next_index(clip, now)]);
    let offset = clip.offset(now);
    a + (b - a) * (offset - offset.floor())
}

/// That of document 01's x with 1 added, taken off for negative speed. A clip that stands at it puts it through the Rust's own loop or ping-pong
/// rule, clamp and offset.
pub fn next_index(clip: &Clip, now: usize) -> usize {
    let (r, one) = if clip.speed < 0.0 { (1.0, -1.0) } else { (0.0, 1.0) };
    let x = clip.shift + (clip.elapsed(now) as f32 + r) * clip.speed;
    let there = Clip { shift: x + one, speed: 0.0, since: now, ..*clip };
    there.offset(now).floor() as usize
}
