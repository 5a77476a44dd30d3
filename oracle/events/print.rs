//! What document 01 has `events` print on an input, played on the Rust.

use crate::decode::{Header, Input, SAMPLES};
use crate::engine::{Calls, Engine, Shown};
use crate::inside;
use crate::listing::set_up;
use crate::params::{beyond_limits, params};
use crate::record::Record;
use std::fmt::Write;
use std::panic::{catch_unwind, AssertUnwindSafe};

/// A panic of the Rust is printed as a line, which no port prints.
pub fn expected(bytes: &[u8]) -> String {
    let mut text = String::new();
    if catch_unwind(AssertUnwindSafe(|| play(bytes, &mut text))).is_err() {
        text.push_str("panic\n");
    }
    text
}

fn play(bytes: &[u8], text: &mut String) {
    let mut input = Input::new(bytes);
    let Some(header) = input.header() else { return text.push_str("X 0\n") };
    let mut engine = opened(&header);
    while !input.is_over() {
        let Some(event) = input.event(&header) else {
            return writeln!(text, "X {}", input.offset).unwrap();
        };
        match event.kind {
            0 => answer(text, 0, parameters(&mut engine, &event.record)),
            6 => frame(&mut engine, &event.record, header.channels, text),
            kind => answer(text, kind, engine.call(&event.record).0),
        }
    }
}

fn opened(header: &Header) -> Engine {
    let mut engine = Engine::new(Calls::ByValue);
    let channels = header.channels as u32;
    engine.call(&set_up(channels, header.auto_passthru, channels * SAMPLES));
    engine
}

/// Row 4 leaves the old ones.
fn parameters(engine: &mut Engine, record: &Record) -> u8 {
    if beyond_limits(&params(record)) { 4 } else { engine.call(record).0 }
}

fn frame(engine: &mut Engine, record: &Record, channels: u8, text: &mut String) {
    let clock = inside::clock(&engine.sampler.channels[0]);
    let (number, shown) = engine.call(record);
    let Shown::Heard(outputs, _) = shown else { unreachable!("a frame is heard") };
    if number != 0 {
        return answer(text, 6, number);
    }
    write!(text, "F {clock}").unwrap();
    for x in &outputs[..channels as usize] {
        text.push_str(&if x.is_nan() { " NAN".into() } else { format!(" {:08X}", x.to_bits()) });
    }
    writeln!(text, " {}", inside::voices(&engine.sampler.channels[0]).len()).unwrap();
}

fn answer(text: &mut String, kind: u8, number: u8) {
    writeln!(text, "E {kind} {number}").unwrap();
}
