//! Listings with request 7/12's setting on whose outputs are worked out from its words by hand: the Rust's side is held to them, and then the port.

use crate::engine::{Calls, Engine, Shown};
use crate::listing::*;
use crate::params;
use crate::record::Record;

/// A voice at level 1 from a position on, over a recording of one channel.
struct Vector {
    recording: &'static [f32],
    mode: u8,
    length: f32,
    speed: f32,
    position: f32,
    outputs: &'static [f32],
}

const LOOP: u8 = 1;
const PING_PONG: u8 = 2;
const MEMORY: u32 = 8;
const STAIRS: &[f32] = &[0.0, 1.0, 2.0, 3.0, 4.0, 5.0, 6.0, 7.0];

const VECTORS: [Vector; 7] = [
    // At a quarter of the speed, to the end of the loop and over it: in its last sample there is nothing to go toward.
    Vector {
        recording: STAIRS,
        mode: LOOP,
        length: 8.0,
        speed: 0.25,
        position: 0.0,
        outputs: &[
            0.0, 0.25, 0.5, 0.75, 1.0, 1.25, 1.5, 1.75, 2.0, 2.25, 2.5, 2.75, 3.0, 3.25, 3.5, 3.75, 4.0, 4.25, 4.5, 4.75, 5.0, 5.25, 5.5, 5.75, 6.0,
            6.25, 6.5, 6.75, 7.0, 7.0, 7.0, 7.0, 0.0, 0.25,
        ],
    },
    // Backwards the fraction falls while the next index lies below: a saw-tooth.
    Vector { recording: STAIRS, mode: LOOP, length: 8.0, speed: -0.25, position: 0.0, outputs: &[7.0, 7.0, 7.0, 7.0, 5.25, 5.5, 5.75, 6.0, 4.25, 4.5] },
    // So it is on ping-pong's way back.
    Vector {
        recording: STAIRS,
        mode: PING_PONG,
        length: 4.0,
        speed: 0.25,
        position: 0.0,
        outputs: &[0.0, 0.25, 0.5, 0.75, 1.0, 1.25, 1.5, 1.75, 2.0, 2.25, 2.5, 2.75, 3.0, 3.0, 3.0, 3.0, 3.0, 1.25, 1.5, 1.75, 2.0, 0.25],
    },
    // A loop that ends between two samples: from its clamped end the next index is its beginning.
    Vector { recording: STAIRS, mode: LOOP, length: 4.5, speed: 1.0, position: 0.0, outputs: &[0.0, 1.0, 2.0, 3.0, 1.5, 0.5, 1.5, 2.5] },
    // At speed 0 it stands between two samples, and in a loop of one sample on it.
    Vector { recording: STAIRS, mode: LOOP, length: 8.0, speed: 0.0, position: 0.3125, outputs: &[2.5, 2.5, 2.5] },
    Vector { recording: STAIRS, mode: LOOP, length: 1.0, speed: 0.25, position: 0.625, outputs: &[5.0, 5.0, 5.0] },
    // An offset of -0 has the fraction +0, and so a recorded -0 becomes +0: in `last_sample_value`, as the sum of the voices loses the sign.
    Vector { recording: &[-0.0], mode: LOOP, length: 1.0, speed: -0.5, position: -0.0, outputs: &[0.0, 0.0, 0.0] },
];

/// All of them, one behind the other, each twice: a reset keeps the setting.
pub fn listing() -> Vec<Record> {
    VECTORS.iter().flat_map(|v| [vec![set_up(1, false, MEMORY), interpolation(true)], v.played(), vec![Record::new(RESET)], v.played()].concat()).collect()
}

/// Fails where the Rust's side gives something else than was worked out.
pub fn held() -> Result<(), String> {
    let mut engine = Engine::new(Calls::ByValue);
    let outputs: Vec<f32> = listing().iter().filter_map(|r| heard(engine.call(r).1)).collect();
    let expected: Vec<f32> = VECTORS.iter().flat_map(|v| [v.heard(), v.heard()].concat()).collect();
    let bits = |xs: &[f32]| xs.iter().map(|x| x.to_bits()).collect::<Vec<_>>();
    if bits(&outputs) == bits(&expected) { Ok(()) } else { Err(format!("the Rust's side interpolates otherwise than by hand: {outputs:?}, not {expected:?}")) }
}

fn heard(shown: Shown) -> Option<f32> {
    match shown {
        Shown::Heard(entries, _) => Some(entries[0]),
        _ => None,
    }
}

impl Vector {
    fn played(&self) -> Vec<Record> {
        let of = |x: f32| frame(1, [x.to_bits(), 0, 0], MEMORY);
        let mut l = vec![self.settings(), Record::new(START_RECORDING)];
        l.extend(self.recording.iter().map(|x| of(*x)));
        l.extend([Record::new(STOP_RECORDING), start((60, 0), self.position.to_bits(), 1.0f32.to_bits())]);
        l.extend(self.outputs.iter().map(|_| of(0.0)));
        l
    }

    /// What the frames of `played` give: nothing while it records.
    fn heard(&self) -> Vec<f32> {
        [vec![0.0; self.recording.len()], self.outputs.into()].concat()
    }

    fn settings(&self) -> Record {
        Record::new(PARAMETERS)
            .with_u8(params::KIND, 1)
            .with_u8(params::MODE, self.mode)
            .with_u32(params::VALUE, self.length.to_bits())
            .with_u32(params::VOLUME, 1.0f32.to_bits())
            .with_u32(params::SPEED, self.speed.to_bits())
            .with_u32(params::REVERSE, 1.0f32.to_bits())
    }
}
