//! A host as small as it can be: the calls of examples/first.hex, each answer tested, and the lines that ./play prints of
//! them. Two samples are recorded and played in a loop while a key is held.
//!
//!     rustc -O -L target/host -l static=vusatica -l m host/examples/first.rs -o first
mod vusatica;
use vusatica::{NoteOff, Params, Refused, Sampler, Settings, Voice};

fn called(kind: u32, answer: Result<(), Refused>) -> Result<(), Refused> {
    answer?;
    println!("E {} 0", kind);
    Ok(())
}

fn frame(s: &mut Sampler, input: f32, params: &Params) -> Result<(), Refused> {
    let time = s.frames_processed(0)?;
    let mut entry = [input];
    s.frame(&mut entry, params)?;
    let voices = s.voices(0, params, &mut [Voice::default(); 32])?;
    println!("F {} {:08X} {}", time, entry[0].to_bits(), voices);
    Ok(())
}

fn main() -> Result<(), Refused> {
    let settings = Settings { attack_samples: 0, decay_samples: 0, auto_passthru: false, note_off: NoteOff::Decay, ..Settings::default() };
    let mut s = Sampler::new(1, false, 4096)?;
    let params = Params::new(&settings)?;
    called(0, Ok(()))?;
    called(4, s.record())?;
    frame(&mut s, 0.5, &params)?;
    frame(&mut s, 0.25, &params)?;
    called(5, s.record_stop())?;
    called(1, s.start(0.0, 60, 0, 1.0, &params))?;
    for _ in 0..3 {
        frame(&mut s, 0.0, &params)?;
    }
    called(2, s.stop(60, 0, &params))?;
    frame(&mut s, 0.0, &params)
}
