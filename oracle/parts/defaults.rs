//! Part 3: the constants and the defaults of the crates common_types and volume. It has no arguments.

use crate::levels;
use crate::part::{bits, Function, Line, Part};
use crate::record::Record;
use crate::settings;
use audio_sampler_lib::common_types::{EnumIndex, InitParams, LoopMode, NoteOffBehaviour, Params, Transport, DEFAULT_AUTO_PASSTHRU};
use audio_sampler_lib::volume::Volume;

pub const PART: Part = Part {
    name: "defaults",
    functions: &[
        Function { name: "LoopMode::LENGTH", args: &[] },
        Function { name: "NoteOffBehaviour::LENGTH", args: &[] },
        Function { name: "DEFAULT_AUTO_PASSTHRU", args: &[] },
        Function { name: "InitParams::default", args: &[] },
        Function { name: "Transport::default", args: &[] },
        Function { name: "Params::default", args: &[] },
        Function { name: "Params::default, loop length", args: &[] },
        Function { name: "Params::default, transport", args: &[] },
        Function { name: "Volume::default", args: &[] },
    ],
    edges: || vec![Record::new(3)],
    random: &[],
    answer,
    met: &[],
};

fn answer(_: &Record, line: &mut Line) {
    line.word(&[(1, LoopMode::LENGTH as u64)]);
    line.word(&[(1, NoteOffBehaviour::LENGTH as u64)]);
    line.flag(DEFAULT_AUTO_PASSTHRU);
    line.flag(InitParams::default().auto_passthru);
    put_transport(&Transport::default(), line);
    let p = Params::default();
    line.word(&[
        (16, p.attack_samples as u64),
        (16, p.decay_samples as u64),
        bits(p.speed),
        bits(p.reverse_speed),
        bits(p.volume),
        (1, p.loop_mode.to_index() as u64),
        (1, p.note_off_behavior.to_index() as u64),
        (1, p.auto_passthru as u64),
    ]);
    line.word(&settings::length(&p.loop_length));
    put_transport(&p.transport, line);
    line.word(&levels::numbers(&Volume::default()));
}

fn put_transport(t: &Transport, line: &mut Line) {
    line.word(&[bits(t.sample_rate), bits(t.tempo), (8, t.time_sig_numerator as u64), (8, t.time_sig_denominator as u64)]);
}
