//! Every call of host/examples/vusatica.rs: that each reaches the library's call of its name with its arguments in their places.
//! What the calls do is tried in C (calls.c). It prints nothing, and panics where something isn't as expected.
#[path = "../examples/vusatica.rs"]
mod vusatica;
use vusatica::{merge_song, turn_wave, Backed, LengthKind, LoopMode, NoteOff, Params, Refused, Sampler, Settings, Song, Voice};

const RAMP: [f32; 8] = [0.125, 0.25, 0.375, 0.5, 0.625, 0.75, 0.875, 1.0];

fn settings() -> Settings {
    Settings { attack_samples: 0, decay_samples: 0, auto_passthru: false, note_off: NoteOff::Decay, ..Settings::default() }
}

fn recorded(params: &Params) -> Sampler {
    let mut s = Sampler::new(1, false, 64).unwrap();
    s.record().unwrap();
    let mut run = RAMP;
    assert_eq!(s.frames(&mut run, params), (8, Ok(())));
    assert_eq!(s.last_recorded_offset(0), Ok(Some(8)));
    assert_eq!(s.is_recording(0), Ok(true));
    s.record_stop().unwrap();
    assert_eq!(s.is_recording(0), Ok(false));
    s
}

fn heard(s: &mut Sampler, params: &Params) -> f32 {
    let mut frame = [0.0];
    s.frame(&mut frame, params).unwrap();
    frame[0]
}

fn keys(params: &Params) {
    let mut s = recorded(params);
    assert_eq!((s.frames_processed(0), s.data_length(0)), (Ok(8), Ok(8)));
    assert_eq!(s.frames_processed(1), Err(Refused(1)));
    assert_eq!(s.start(0.5, 60, 16, 1.0, params), Err(Refused(2)));
    s.start(0.5, 60, 3, 0.5, params).unwrap();
    assert_eq!(heard(&mut s, params), 0.625 * 0.5);
    assert_eq!(s.sample(0, 0.0, params), Ok(0.75 * 0.5));
    let (mut notes, mut list) = ([0; 32], [Voice::default(); 32]);
    assert_eq!((s.active_notes(0, &mut notes), notes[0]), (Ok(1), 60 * 256 + 3));
    assert_eq!((s.voices(0, params, &mut list), list[0].position), (Ok(1), 0.625));
    assert_eq!(s.voices(0, params, &mut []), Err(Refused(8)));
    s.note_speed(60, 3, 0.0).unwrap();
    let still = heard(&mut s, params);
    assert_eq!(heard(&mut s, params), still);
    s.stop(60, 3, params).unwrap();
    assert_eq!(heard(&mut s, params), 0.0);
    let mut copy = s.clone();
    s.reset().unwrap();
    assert_eq!((s.data_length(0), copy.data_length(0)), (Ok(0), Ok(8)));
    copy.interpolate(true).unwrap();
    let slow = Params::new(&Settings { speed: 0.5, loop_mode: LoopMode::PingPong, length_kind: LengthKind::Samples, length: 8.0, ..settings() }).unwrap();
    copy.start(0.0, 1, 0, 1.0, &slow).unwrap();
    assert_eq!([heard(&mut copy, &slow), heard(&mut copy, &slow), heard(&mut copy, &slow)], [0.125, 0.1875, 0.25]);
}

fn recordings(params: &Params) {
    let mut s = recorded(params);
    let (mut text, mut values, mut file) = ([0; 64], [0.0; 8], [0; 256]);
    let length = s.error_text(0, &mut text).unwrap();
    assert!(text[..length].starts_with(b"skip: 0"));
    assert_eq!(s.waveform(8, &mut values), Ok((0.0, 1.0)));
    assert_eq!(s.waveform(9, &mut values), Err(Refused(8)));
    let length = s.write_wave(48000, &mut file).unwrap();
    assert_eq!(length, 58 + 32);
    s.choose(1).unwrap();
    assert_eq!(s.data_length(0), Ok(0));
    assert_eq!(s.read_wave(&file[..length]), Ok(48000));
    assert_eq!(s.data_length(0), Ok(8));
    assert_eq!(s.delete(8), Err(Refused(19)));
    s.delete(0).unwrap();
    s.gather().unwrap();
    s.start(0.0, 60, 0, 1.0, params).unwrap();
    assert_eq!(heard(&mut s, params), 0.125);
}

fn songs(params: &Params) {
    let file = b"MThd\0\0\0\x06\0\0\0\x01\0\x60MTrk\0\0\0\x0b\0\x90\x3c\x7f\x60\x3c\0\0\xff\x2f\0";
    let mut song = Song::read(file, 44100).unwrap();
    assert_eq!(Song::read(&file[..20], 44100).err(), Some(Refused(12)));
    let mut s = recorded(params);
    assert_eq!(song.next_frame(), Some(0));
    assert_eq!(s.play_song(&mut song, 0, params), 0);
    assert_eq!(heard(&mut s, params), 0.125);
    assert_eq!(song.next_frame(), Some(22050));
    assert_eq!(s.play_song(&mut song, 22050, params), 0);
    assert_eq!((song.next_frame(), heard(&mut s, params)), (None, 0.0));
}

/// The plain engine's calls, each beside the first engine's.
fn backed(params: &Params) {
    let mut s = recorded(params);
    let mut b = Backed::new(Sampler::new(1, false, 64).unwrap());
    b.record().unwrap();
    assert_eq!(b.frames(&mut RAMP.clone(), params), (8, Ok(())));
    b.record_stop().unwrap();
    assert_eq!((b.data_length(0), b.is_recording(0)), (Ok(8), Ok(false)));
    assert_eq!(b.start(0.5, 60, 16, 1.0, params), Err(Refused(2)));
    b.start(0.5, 60, 3, 0.5, params).unwrap();
    s.start(0.5, 60, 3, 0.5, params).unwrap();
    let mut alike = |b: &mut Backed| {
        let (mut run, mut frame, mut expected) = ([0.0; 13], [0.0], [0.0; 15]);
        assert_eq!((b.frames(&mut run, params), b.frame(&mut frame, params)), ((13, Ok(())), Ok(())));
        let last = b.sample(0, 0.0, params).unwrap();
        assert_eq!(s.frames(&mut expected, params), (15, Ok(())));
        assert_eq!([&run[..], &frame, &[last]].concat(), expected);
        expected[0]
    };
    assert_eq!(alike(&mut b), 0.625 * 0.5);
    assert_eq!(alike(&mut b.clone()), 0.5 * 0.5);
    b.note_speed(60, 3, 0.0).unwrap();
    let (mut one, mut two) = ([0.0], [0.0]);
    b.frame(&mut one, params).unwrap();
    b.frame(&mut two, params).unwrap();
    assert_eq!(one, two);
    b.stop(60, 3, params).unwrap();
    b.frame(&mut one, params).unwrap();
    assert_eq!(one, [0.0]);
    b.interpolate(true).unwrap();
    let mut file = [0; 256];
    let length = b.write_wave(48000, &mut file).unwrap();
    b.choose(1).unwrap();
    assert_eq!((b.data_length(0), b.read_wave(&file[..length]), b.data_length(0)), (Ok(0), Ok(48000), Ok(8)));
    assert_eq!(b.delete(8), Err(Refused(19)));
    b.delete(0).unwrap();
    b.gather().unwrap();
    let mut first = b.clone().into_sampler();
    first.start(0.0, 60, 0, 1.0, params).unwrap();
    assert_eq!(heard(&mut first, params), 0.125);
    b.reset().unwrap();
    assert_eq!(b.data_length(0), Ok(0));
}

fn backed_songs(params: &Params) {
    let file = b"MThd\0\0\0\x06\0\0\0\x01\0\x60MTrk\0\0\0\x0b\0\x90\x3c\x40\x60\x3c\0\0\xff\x2f\0";
    let (mut s, mut song, mut again) = (recorded(params), Song::read(file, 44100).unwrap(), Song::read(file, 44100).unwrap());
    let mut b = Backed::new(s.clone());
    for frame in [0, 1, 22049, 22050] {
        assert_eq!((s.play_song(&mut song, frame, params), b.play_song(&mut again, frame, params)), (0, 0));
        assert_eq!(song.next_frame(), again.next_frame());
        let mut output = [0.0];
        b.frame(&mut output, params).unwrap();
        assert_eq!(heard(&mut s, params).to_bits(), output[0].to_bits());
    }
}

fn turned() {
    let song = b"MThd\0\0\0\x06\0\x01\0\x02\0\x60MTrk\0\0\0\x0b\0\x90\x3c\x7f\x60\x3c\0\0\xff\x2f\0MTrk\0\0\0\x08\x30\x91\x40\x7f\0\xff\x2f\0";
    assert_eq!(Song::read(song, 44100).err(), Some(Refused(13)));
    assert_eq!(Song::read(&merge_song(song).unwrap(), 44100).unwrap().next_frame(), Some(0));
    assert_eq!(merge_song(&song[..20]), Err(Refused(12)));
    let wave = b"RIFF\x28\0\0\0WAVEfmt \x10\0\0\0\x01\0\x01\0\x44\xac\0\0\x88\x58\x01\0\x02\0\x10\0data\x04\0\0\0\0\x40\0\xe0";
    let mut s = Sampler::new(1, false, 64).unwrap();
    assert_eq!(s.read_wave(wave), Err(Refused(17)));
    let floats = turn_wave(wave).unwrap();
    assert_eq!(floats[58..], [0.5f32.to_le_bytes(), (-0.25f32).to_le_bytes()].concat());
    assert_eq!(s.read_wave(&floats), Ok(44100));
    assert_eq!(turn_wave(&wave[..40]), Err(Refused(17)));
}

fn main() {
    let params = Params::new(&settings()).unwrap();
    assert_eq!(Sampler::new(3, false, 64).err(), Some(Refused(9)));
    keys(&params);
    recordings(&params);
    songs(&params);
    turned();
    backed(&params);
    backed_songs(&params);
}
