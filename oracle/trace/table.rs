//! A fixed listing: the edges that document 01 names, and each refusal of each call, with the recordings printed around them.

use crate::listing::*;
use crate::params;
use crate::puts::*;
use crate::record::Record;
use crate::vectors;
use crate::wave;

const KEY: (u8, u8) = (60, 0);
/// Two channels of 8 samples.
const LENT_MEMORY: u32 = 16;
const MOST_VOICES: usize = 32;

pub fn listing() -> Vec<Record> {
    let refused = [refused_set_ups(), rows(), full(), tidied(), clock_end(), emptied(), broken(), broken_sizes(), judged()].concat();
    let phrases = [phrases_refused(), phrases_recorded(), phrases_gathered(), phrases_read(), phrases_of_voices(), broken_phrases()].concat();
    [refused, waveforms(), runs(), runs_refused(), runs_at_the_end(), setting(), waves(), waves_refused(), phrases, vectors::listing()].concat()
}

/// Row 9: after each refused set-up every call is refused.
fn refused_set_ups() -> Vec<Record> {
    let refused = [set_up(0, false, LENT_MEMORY), set_up(3, false, LENT_MEMORY), set_up(2, false, 1)];
    refused.into_iter().flat_map(|r| [vec![r], each_call(KEY, 0, LENT_MEMORY)].concat()).collect()
}

/// Rows 1 to 4, 8 and 9, of each call that has them. One voice sounds, so that a list can be too short.
fn rows() -> Vec<Record> {
    let mut l = begun();
    l.extend([settings(4194304.0, 0), press(0.0), plain(RECORDINGS)]);
    l.extend([settings(4194304.5, 0), press(0.0)]);
    l.extend([1.0, 47.0, 48.0, f32::from_bits(0x423e37c6), f32::from_bits(0x423e37c7)].into_iter().flat_map(|x| [bars(x, 4), press(0.0), query(VOICE_INFO, 0, 32)]));
    l.extend([0.0, 1.0, -1.0].into_iter().flat_map(|x| [bars(x, 0), press(0.0), query(VOICE_INFO, 0, 32)]));
    l.extend([settings(4.0, (1 << 24) + 1), press(0.0), of_note(STOP, KEY), sound(0), whole_frame(2, LENT_MEMORY), query(VOICE_INFO, 0, 32)]);
    l.extend([settings(4.0, 0), press(-0.25), press(1.0000001), press(f32::NAN)]);
    l.extend([of_note(START, (60, 16)), of_note(STOP, (60, 16)), of_note(NOTE_SPEED, (60, 16))]);
    l.extend([sound(2), whole_frame(3, LENT_MEMORY)]);
    l.extend((FRAMES_PROCESSED..=VOICE_INFO).map(|kind| query(kind, 2, 64)));
    l.extend((ERROR_TEXT..=VOICE_INFO).map(|kind| query(kind, 0, 0)));
    l.extend([sample(0, level(0.5), LENT_MEMORY - 1), whole_frame(2, LENT_MEMORY - 1), plain(RECORDINGS)]);
    l.extend(each_call(KEY, 1, LENT_MEMORY));
    l
}

/// Row 5: the last start that there is a place for, and one more; a voice too many; and last an emptied recording, of which row 5 is not.
fn full() -> Vec<Record> {
    let mut l = begun();
    l.extend((0..=MOST_VOICES).map(|_| press(0.0)));
    l.extend([put(VOICES, 32), query(DATA_LEN, 0, 0), put(VOICES, 33), query(DATA_LEN, 0, 0), of_note(STOP, KEY), sound(0), put(VOICES, 32)]);
    l.extend([plain(RECORDINGS), of_note(STOP, KEY), whole_frame(2, LENT_MEMORY), press(0.0)]);
    l.extend([press(0.0), plain(START_RECORDING), plain(STOP_RECORDING), press(0.0), query(ACTIVE_NOTES, 0, 64)]);
    l
}

/// 32 voices of as many keys, of which the first is let go, the last, and every second from the first and from the second: the samples and the
/// frames count those that move up.
fn tidied() -> Vec<Record> {
    let all: Vec<u8> = (0..MOST_VOICES as u8).collect();
    let seconds = |from: usize| all.iter().copied().skip(from).step_by(2).collect::<Vec<_>>();
    let mut l = Vec::new();
    for let_go in [vec![0], vec![31], seconds(0), seconds(1), all.clone()] {
        l.extend(begun());
        l.push(settings(4.0, 0));
        l.extend(all.iter().map(|n| of_note(START, (*n, 0))));
        l.extend(let_go.iter().map(|n| of_note(STOP, (*n, 0))));
        l.extend([whole_frame(1, LENT_MEMORY), sound(1), whole_frame(2, LENT_MEMORY)]);
        l.extend([of_note(STOP, (2, 0)), whole_frame(2, LENT_MEMORY)]);
    }
    l
}

/// Row 6.
fn clock_end() -> Vec<Record> {
    let mut l = begun();
    l.push(put(CLOCKS, u64::MAX));
    l.extend([sound(0), whole_frame(2, LENT_MEMORY), whole_frame(0, LENT_MEMORY), plain(RECORDINGS)]);
    l
}

/// Start and stop of recording with no sample between them.
fn emptied() -> Vec<Record> {
    let mut l = begun();
    l.extend([plain(START_RECORDING), plain(STOP_RECORDING), query(DATA_LEN, 0, 0), query(DATA_LEN, 1, 0), plain(RECORDINGS)]);
    l
}

/// Document 01's list of broken records: each field of a channel at its limit, where calls are done, and past it, where they are refused with 9.
fn broken() -> Vec<Record> {
    // The data length is judged while nothing records, and while it does.
    let mut pairs: Vec<_> = [DATA_LENGTH, WRITE_PLACE, DATA_LENGTH, SINCE, FINISHED_AT].map(|what| (put(what, 0), put(what, 1))).into();
    for what in [PASSTHRU, VOLUME] {
        let ramps = [[0, 1, 1, 1], [0, 1, 0, 0], [0, 1 << 24, 0, (1 << 24) + 1]];
        pairs.extend(ramps.map(|[by, long, past, longer]| (put_ramp(what, by, long), put_ramp(what, past, longer))));
    }
    for what in [LENGTH, CLIP_DATA] {
        let lengths = [(1.0, 0.99999994), (4194304.0, 4194304.5), (1.0, f32::NAN)];
        pairs.extend(lengths.map(|(x, past)| (put_float(what, x), put_float(what, past))));
    }
    let starts = [(0.0, -1e-45), (4194304.0, 4194304.5), (-0.0, f32::NAN)];
    pairs.extend(starts.map(|(x, past)| (put_float(START_AT, x), put_float(START_AT, past))));
    // A voice that decays.
    pairs.push((of(0, 1, put(FINISHED_AT, 0)), of(0, 1, put(FINISHED_AT, 1))));
    let mut l = sounding(1);
    l.extend(pairs.into_iter().flat_map(|(limit, past)| [limit_and_past(1, limit, past), vec![limit]].concat()));
    l.push(put(FINISHED_AT, 1));
    l.extend(each_call(KEY, 0, LENT_MEMORY));
    let last_channel = [sounding(2), limit_and_past(2, of(1, 0, put(SINCE, 0)), of(1, 0, put(SINCE, 1)))].concat();
    let clock = [sounding(1), vec![put(CLOCKS, u64::MAX)], limit_and_past(1, put(CLOCK, 0), put(CLOCK, 1))].concat();
    [l, last_channel, clock].concat()
}

/// Calls at the limit, which leave the voices as they are, and past it.
fn limit_and_past(entries: u8, limit: Record, past: Record) -> Vec<Record> {
    let accepted = [query(DATA_LEN, 0, 0), of_note(STOP, (1, 1)), whole_frame(entries, LENT_MEMORY)];
    let refused = [query(DATA_LEN, 0, 0), press(0.0), sound(0), whole_frame(entries, LENT_MEMORY)];
    [vec![limit], accepted.into(), vec![past], refused.into()].concat()
}

/// What set-up can't give: a capacity, and a channel count.
fn broken_sizes() -> Vec<Record> {
    let sizes = [(1, CAPACITY, 1 << 22, (1 << 22) + 1), (1, CAPACITY, 3, 2), (2, CHANNELS, 2, 3), (2, CHANNELS, 1, 0)];
    let of_size = |(channels, what, limit, past)| [sounding(channels), limit_and_past(1, put(what, limit), put(what, past))].concat();
    let mut l = sizes.map(of_size).concat();
    l.extend([set_up(1, false, LENT_MEMORY), put(CAPACITY, 1), query(DATA_LEN, 0, 0), put(CAPACITY, 0), query(DATA_LEN, 0, 0), plain(RESET)]);
    l
}

/// Only voices below the count are judged, and only channels.
fn judged() -> Vec<Record> {
    let past = [put(SINCE, 1), put(FINISHED_AT, 1), put_ramp(VOLUME, 0, 0), put_float(LENGTH, 0.0)];
    let mut l = sounding(1);
    l.extend(past.map(|r| of(0, 2, r)));
    l.extend([of(1, 0, put(CLOCK, 1)), of(1, 0, put_ramp(PASSTHRU, 1, 1)), of(1, 0, put(DATA_LENGTH, 1)), of(1, 0, put(VOICES, 33))]);
    l.extend([query(DATA_LEN, 0, 0), whole_frame(1, LENT_MEMORY), press(0.0), plain(RESET)]);
    l
}

/// Recordings in columns, at lengths and numbers of columns at which a cut falls short: 0, 1, 31 and 4,096 samples, while recording too; a list
/// that just fits, a longer one and one that is short; too little memory; and hostile floats.
fn waveforms() -> Vec<Record> {
    const MEMORY: u32 = 8192;
    let columns = |lent| [0, 1, 7, 41, 46, 4096, 4097].into_iter().flat_map(move |n: u32| [n, n + 3, n.max(1) - 1].map(|room| waveform(n, room, lent)));
    let mut l = vec![set_up(2, false, MEMORY), settings(4.0, 0), plain(START_RECORDING)];
    for times in [0, 1, 30, 4065] {
        l.push(frames(2, level(-0.75), level(0.001), times, MEMORY));
        l.extend(columns(MEMORY));
    }
    l.push(plain(STOP_RECORDING));
    l.extend(columns(MEMORY - 1));
    l.extend([set_up(1, false, MEMORY), settings(4.0, 0), plain(START_RECORDING)]);
    let hostile = [f32::NAN, f32::INFINITY, 1e30, 1e-30, 1e-45, f32::NEG_INFINITY, -0.0, f32::MAX, 3.0];
    l.extend(hostile.map(|x| sample(0, level(x), MEMORY)));
    l.extend((0..20).map(|n| waveform(n, n, MEMORY)));
    l
}

/// Runs of no frame to 1,000, with starts and stops between them, and a recording that reaches its capacity within one.
fn runs() -> Vec<Record> {
    let mut l = begun();
    l.extend([press(0.0), run(1, 0, LENT_MEMORY), run(2, 2, LENT_MEMORY), press(0.5), run(3, 4, LENT_MEMORY), of_note(STOP, KEY)]);
    l.extend([run(4, 128, LENT_MEMORY), plain(START_RECORDING), run(5, 8, LENT_MEMORY), run(6, 24, LENT_MEMORY), plain(STOP_RECORDING)]);
    l.extend([plain(RECORDINGS), press(0.25), run(7, 2000, LENT_MEMORY), plain(RESET), run(8, 4, LENT_MEMORY)]);
    l.extend([set_up(1, true, LENT_MEMORY), plain(START_RECORDING), run(9, 3, LENT_MEMORY), plain(STOP_RECORDING), press(0.0), run(10, 5, LENT_MEMORY)]);
    l
}

/// 9, then 10, then 4, then 6: each with the rows behind it.
fn runs_refused() -> Vec<Record> {
    let mut l = begun();
    l.extend([press(0.0), run(1, 3, LENT_MEMORY), run(1, 3, LENT_MEMORY - 1), run(1, 4, LENT_MEMORY - 1)]);
    l.extend([settings(4.0, (1 << 24) + 1), run(1, 3, LENT_MEMORY), run(1, 4, LENT_MEMORY), run(1, 0, LENT_MEMORY), run(1, 0, LENT_MEMORY - 1)]);
    l.extend([put(CLOCKS, u64::MAX), run(1, 4, LENT_MEMORY), settings(4.0, 0), run(1, 4, LENT_MEMORY), run(1, 3, LENT_MEMORY)]);
    l.extend([run(1, 0, LENT_MEMORY), put(CHANNELS, 0), run(1, 4, LENT_MEMORY), run(1, 3, LENT_MEMORY)]);
    l
}

/// The clock ends within a run: 2^48 - 3 on both channels, then 2^48 - 3 and 2^48 - 1.
fn runs_at_the_end() -> Vec<Record> {
    let before_end = |channel: u8, n: u64| of(channel, 0, put(CLOCK, n.wrapping_neg()));
    let mut l = begun();
    l.extend([press(0.0), before_end(0, 3), before_end(1, 3), run(1, 10, LENT_MEMORY), run(2, 2, LENT_MEMORY)]);
    l.extend(begun());
    l.extend([press(0.0), before_end(0, 3), before_end(1, 1), run(3, 10, LENT_MEMORY), sound(0), run(4, 4, LENT_MEMORY)]);
    l.extend(begun());
    l.extend([before_end(0, 1), before_end(1, 3), run(5, 6, LENT_MEMORY), plain(RECORDINGS)]);
    l.extend(begun());
    l.extend([before_end(0, 3), before_end(1, 3), run(6, 6, LENT_MEMORY), run(7, 0, LENT_MEMORY)]);
    l
}

/// 7/12's setting put on and off under voices in ping-pong and in a loop, by every call that plays; of one channel alone; kept by a reset, and not by
/// a set-up.
fn setting() -> Vec<Record> {
    let slow = |mode: u8| settings(2.5, 0).with_u8(params::MODE, mode).with_u32(params::SPEED, level(0.375));
    let mut l = begun();
    l.extend([slow(2), press(0.25), press(0.5)]);
    for on in [true, true, false, true] {
        l.extend([interpolation(on), whole_frame(2, LENT_MEMORY), sound(1), run(1, 6, LENT_MEMORY), slow(1), whole_frame(2, LENT_MEMORY), slow(2)]);
    }
    l.extend([of(1, 0, put(SETTING, 0)), whole_frame(2, LENT_MEMORY), run(2, 4, LENT_MEMORY), of(0, 0, put(SETTING, 0)), of(1, 0, put(SETTING, 1))]);
    l.extend([whole_frame(2, LENT_MEMORY), plain(RESET), whole_frame(2, LENT_MEMORY), interpolation(true), plain(RESET)]);
    l.extend(begun());
    l
}

/// 10/12's files: a recording written and read back under voices; one of NaNs of each kind; the longest that there is room for, one without samples,
/// and each written again; files with chunks of odd sizes, and without `fact`; and a file that is read after a reset.
fn waves() -> Vec<Record> {
    let mut l = begun();
    l.extend([press(0.25), whole_frame(2, LENT_MEMORY), whole(), read_said(LENT_MEMORY), whole_frame(2, LENT_MEMORY), plain(RECORDINGS)]);
    for samples in [3, 8, 0, 5] {
        l.extend(file_read(&made(2, samples), LENT_MEMORY));
        l.extend([whole_frame(2, LENT_MEMORY), sound(1), run(1, 6, LENT_MEMORY), press(0.5), query(DATA_LEN, 1, 0), query(LAST_OFFSET, 0, 0)]);
        l.extend([whole(), plain(RECORDINGS), waveform(3, 3, LENT_MEMORY)]);
    }
    let file = made(2, 2);
    let (format, data) = (&file[12..38], &file[50..]);
    let other = [&b"LIST"[..], &[3, 0, 0, 0, 1, 2, 3, 0]].concat();
    for chunks in [[format, data].concat(), [&other, format, &other, data, &other].concat(), [format, data, &file[38..50]].concat()] {
        let head = [b"RIFF", &(4 + chunks.len() as u32).to_le_bytes()[..], b"WAVE"].concat();
        l.extend(file_read(&[head, chunks].concat(), LENT_MEMORY));
    }
    l.extend([whole_frame(2, LENT_MEMORY), plain(RESET), read_said(LENT_MEMORY), press(0.0), whole_frame(2, LENT_MEMORY)]);
    l.extend([plain(START_RECORDING), whole_frame(2, LENT_MEMORY), plain(STOP_RECORDING), whole()]);
    l
}

/// Rows 9, 15, 16 and 8 of a write, 9, 15, 17, 16 and 18 of a read, each with the rows behind it.
fn waves_refused() -> Vec<Record> {
    let mut l = begun();
    l.extend([write(1, 89, LENT_MEMORY), write(1, 90, LENT_MEMORY), write(1, 91, LENT_MEMORY), write(1, 90, LENT_MEMORY - 1), write(1, 0, LENT_MEMORY)]);
    let refused = [made(2, 9), made(1, 4), made(3, 9), made(2, 4)[..89].to_vec(), [made(2, 4), vec![0]].concat(), vec![]];
    let reads: Vec<Record> = refused.iter().flat_map(|file| file_read(file, LENT_MEMORY)).collect();
    l.extend(reads.clone());
    l.extend(file_read(&made(2, 9), LENT_MEMORY - 1));
    l.push(plain(START_RECORDING));
    l.extend(reads);
    l.extend([whole(), write(1, 0, LENT_MEMORY), write(1, 0, LENT_MEMORY - 1), sound(1), plain(STOP_RECORDING), whole(), write(1, 0, LENT_MEMORY)]);
    l.extend(file_read(&made(2, 4), LENT_MEMORY));
    l.extend([whole(), put(CHANNELS, 0), whole(), read_said(LENT_MEMORY), plain(RECORDINGS)]);
    l
}

/// Rows 9, 19 and 21 of a choice, 9, 19 and 20 of a delete, 9 and 21 of a gather, each with the rows behind it: while nothing records; while it does; while voices
/// sound, or only decay; while only the second channel has a voice, or records; and on a broken record.
fn phrases_refused() -> Vec<Record> {
    let calls = [choose(1), choose(7), choose(8), choose(255), choose(0), delete(7), delete(8), delete(255), delete(0), gather(LENT_MEMORY - 1), gather(LENT_MEMORY)];
    let mut l = [begun(), calls.into(), begun(), vec![plain(START_RECORDING)], calls.into()].concat();
    l.extend([choose(0), plain(STOP_RECORDING), choose(1), query(DATA_LEN, 0, 0)]);
    l.extend(begun());
    l.extend([settings(4.0, 0).with_u64(params::DECAY, 2), press(0.0), choose(3), delete(0), of_note(STOP, KEY), delete(0), whole_frame(2, LENT_MEMORY)]);
    l.extend([delete(0), whole_frame(2, LENT_MEMORY), delete(0), whole_frame(2, LENT_MEMORY), delete(0), plain(RECORDINGS)]);
    l.extend(begun());
    l.extend([choose(2), plain(START_RECORDING), sound(1), plain(STOP_RECORDING), press(0.0), delete(2), choose(0), delete(2), gather(LENT_MEMORY)]);
    l.extend(begun());
    l.extend([of(1, 0, put(WRITE_PLACE, 0)), choose(1), choose(0), delete(0), delete(1), gather(LENT_MEMORY), put(CHANNELS, 1), choose(1)]);
    l.extend([put(CHANNELS, 0), choose(8), choose(1), delete(8), delete(1), gather(LENT_MEMORY)]);
    l
}

/// Three phrases in eight places. The second is recorded over, which replaces its samples and drops those beyond; with the third deleted meanwhile it grows. A
/// recording where there is no room, one without samples, and a delete of the chosen phrase.
fn phrases_recorded() -> Vec<Record> {
    let mut l = three();
    l.extend([choose(1), plain(START_RECORDING)]);
    l.extend((0..4).map(|_| whole_frame(2, LENT_MEMORY)));
    l.extend([plain(RECORDINGS), query(ERROR_TEXT, 0, 64), query(LAST_OFFSET, 0, 0), delete(2), run(1, 4, LENT_MEMORY), plain(RECORDINGS)]);
    l.extend([run(2, 6, LENT_MEMORY), plain(START_RECORDING), plain(STOP_RECORDING), plain(RECORDINGS), query(DATA_LEN, 1, 0)]);
    l.extend([choose(5), plain(START_RECORDING), sound(0), whole_frame(2, LENT_MEMORY), plain(STOP_RECORDING), query(ERROR_TEXT, 0, 64)]);
    l.extend([choose(1), plain(START_RECORDING), plain(STOP_RECORDING), press(0.0), plain(START_RECORDING), whole_frame(2, LENT_MEMORY), plain(RECORDINGS)]);
    l.extend([plain(STOP_RECORDING), delete(1), query(DATA_LEN, 0, 0), press(0.0), choose(0), delete(0), plain(START_RECORDING), whole_frame(2, LENT_MEMORY)]);
    l.extend([plain(RECORDINGS), plain(RESET), choose(1), query(DATA_LEN, 0, 0), choose(0), query(DATA_LEN, 0, 0)]);
    l
}

/// The first of three deleted or cut, and the others gathered, whose places are in the order of their numbers and against it, under their voices; what is free
/// then is recorded.
fn phrases_gathered() -> Vec<Record> {
    let mut l = Vec::new();
    for numbers in [[0, 1, 2], [7, 4, 0], [3, 6, 5]] {
        l.extend(with_phrases(numbers));
        l.extend([press(0.25), choose(numbers[1]), press(0.5), whole_frame(2, LENT_MEMORY), gather(LENT_MEMORY), whole_frame(2, LENT_MEMORY)]);
        l.extend([delete(numbers[0]), gather(LENT_MEMORY), plain(RECORDINGS), whole_frame(2, LENT_MEMORY), query(VOICE_INFO, 0, 32), query(VOICE_INFO, 1, 32)]);
        l.extend([waveform(3, 3, LENT_MEMORY), whole(), choose(1), plain(START_RECORDING), run(3, 12, LENT_MEMORY), plain(STOP_RECORDING), plain(RECORDINGS)]);
        l.extend([choose(numbers[1]), plain(START_RECORDING), sound(0), plain(STOP_RECORDING), gather(LENT_MEMORY), sound(0), plain(RECORDINGS)]);
    }
    l
}

/// Files of each length read into a phrase that is last, one that isn't, and an empty one, with row 18 one sample further; and one read over the phrases of a
/// channel that differ from those of the other.
fn phrases_read() -> Vec<Record> {
    let mut l = Vec::new();
    for (chosen, most) in [(0, 3), (1, 2), (2, 3), (6, 2)] {
        l.extend(three());
        l.extend([choose(chosen), press(0.0)]);
        for samples in [most + 1, most, 1] {
            l.extend(file_read(&made(2, samples), LENT_MEMORY));
            l.extend([whole_frame(2, LENT_MEMORY), plain(RECORDINGS), query(DATA_LEN, 0, 0)]);
        }
        l.extend([whole(), waveform(2, 2, LENT_MEMORY)]);
    }
    l.extend(three());
    l.extend([choose(4), plain(START_RECORDING), sound(1), plain(STOP_RECORDING), choose(5)]);
    l.extend([2, 1, 0].into_iter().flat_map(|samples| file_read(&made(2, samples), LENT_MEMORY)));
    l.push(plain(RECORDINGS));
    l
}

/// Voices of three phrases by every call that plays, of which one is emptied, and then has samples again; 32 of two phrases, with row 5 by the chosen one.
fn phrases_of_voices() -> Vec<Record> {
    let mut l = three();
    for (k, mode) in [(0, 1), (1, 2), (2, 1)] {
        l.extend([settings(2.5, 0).with_u8(params::MODE, mode), choose(k), press(0.25), press(0.75)]);
    }
    let played = [whole_frame(2, LENT_MEMORY), sound(1), run(1, 6, LENT_MEMORY), query(VOICE_INFO, 1, 32)];
    l.extend(played);
    l.extend([choose(1), plain(START_RECORDING), plain(STOP_RECORDING)]);
    l.extend(played);
    l.extend([plain(START_RECORDING), sound(0), plain(STOP_RECORDING)]);
    l.extend(played);
    l.extend([of_note(STOP, KEY), of_note(STOP, KEY), whole_frame(2, LENT_MEMORY), choose(3), press(0.0), choose(0)]);
    l.extend([0, 2].into_iter().flat_map(|k| [vec![choose(k)], vec![press(0.0); MOST_VOICES / 2]].concat()));
    l.extend([choose(1), press(0.0), choose(6), press(0.0), query(ACTIVE_NOTES, 0, 64)]);
    l.extend(played);
    l
}

/// Request 11/12's broken records: each place of a phrase at its limit and past it, beside the recording and beside another; the number that is chosen, and that of
/// a voice's phrase.
fn broken_phrases() -> Vec<Record> {
    let beside = [(3, 2, 2, 2), (3, 13, 1, 1), (3, 13, 3, 14), (12, 4, 12, 5), (15, 1, 16, 1), (16, 0, 17, 0), (1, 0, 1, 1), (16, 0, u64::MAX, 1), (16, 0, u64::MAX, 0)];
    let mut pairs: Vec<_> = beside.map(|(start, length, past, longer)| (put_phrase(3, start, length), put_phrase(3, past, longer))).into();
    let places = [(12, 1, 11, 1), (7, 1, 7, 2), (7, 1, 8, 4), (12, 4, 9, 1), (3, 5, 7, 6), (9, 0, 9, 1)];
    pairs.push((put_phrase(5, 8, 4), put_phrase(5, 2, 4)));
    pairs.extend(places.map(|(start, length, past, longer)| (put_phrase(6, start, length), put_phrase(6, past, longer))));
    pairs.extend([(put(OF_PHRASE, 7), put(OF_PHRASE, 8)), (of(0, 1, put(OF_PHRASE, 7)), of(0, 1, put(OF_PHRASE, 8))), (put(OF_PHRASE, 0), put(OF_PHRASE, 255))]);
    let recordings = [(13, 3, 14, 3), (0, 8, 0, 9), (16, 0, 17, 0), (5, 0, 5, 4)];
    let recording = recordings.map(|(start, length, past, longer)| (put_phrase(0, start, length), put_phrase(0, past, longer)));
    let chosen = [(put(CHOSEN, 7), put(CHOSEN, 8)), (put(CHOSEN, 0), put(CHOSEN, 255))];
    let of_pair = |(limit, past): (Record, Record)| [limit_and_past(1, limit, past), vec![limit]].concat();
    let mut l = sounding(1);
    l.extend(pairs.into_iter().flat_map(of_pair));
    l.extend(sounding(1));
    l.push(put_phrase(5, 8, 4));
    l.extend(recording.into_iter().flat_map(of_pair));
    l.extend(sounding(1));
    l.extend(chosen.into_iter().flat_map(of_pair));
    // A voice that isn't below the count, and a channel that isn't in use.
    l.extend([of(0, 2, put(OF_PHRASE, 8)), of(1, 3, put_phrase(3, 17, 1)), of(1, 0, put(CHOSEN, 8)), whole_frame(1, LENT_MEMORY)]);
    l.extend([put_phrase(3, 2, 2), put_phrase(4, 3, 2)]);
    l.extend(each_call(KEY, 0, LENT_MEMORY));
    l.extend(sounding(2));
    l.extend([(of(1, 3, put_phrase(3, 3, 5)), of(1, 3, put_phrase(3, 2, 5))), (of(1, 0, put(CHOSEN, 7)), of(1, 0, put(CHOSEN, 8)))].into_iter().flat_map(of_pair));
    l
}

/// Two channels of eight samples with three phrases, of 3, 2 and 1 samples.
fn with_phrases(numbers: [u8; 3]) -> Vec<Record> {
    let mut l = vec![set_up(2, false, LENT_MEMORY), settings(4.0, 0)];
    for (k, length) in numbers.into_iter().zip([3, 2, 1]) {
        l.extend([choose(k), plain(START_RECORDING), run(k as u32, 2 * length, LENT_MEMORY), plain(STOP_RECORDING)]);
    }
    l
}

fn three() -> Vec<Record> {
    with_phrases([0, 1, 2])
}

fn whole() -> Record {
    write(44_100, FILE as u32, LENT_MEMORY)
}

/// A file with a NaN of either kind and sign among its words.
fn made(channels: usize, samples: usize) -> Vec<u8> {
    let words = [0x3f00_0000, 0x7f80_0001, 0xffc0_1234, 0x8000_0000, 0xbe80_0000, 0xffff_ffff, 0x0000_0001];
    wave::written(48_000, channels, samples, |j, i| words[(i * channels + j) % words.len()])
}

/// A voice that sounds and one that decays.
fn sounding(channels: u32) -> Vec<Record> {
    let mut l = vec![set_up(channels, false, LENT_MEMORY), settings(4.0, 0).with_u64(params::DECAY, 1 << 24), plain(START_RECORDING)];
    l.extend((0..3).map(|_| whole_frame(channels as u8, LENT_MEMORY)));
    l.extend([plain(STOP_RECORDING), press(0.0), start((61, 0), level(0.0), level(1.0)), of_note(STOP, (61, 0))]);
    l.push(whole_frame(channels as u8, LENT_MEMORY));
    l
}

/// Two channels with four samples recorded on each.
fn begun() -> Vec<Record> {
    let mut l = vec![set_up(2, false, LENT_MEMORY), settings(4.0, 0), plain(START_RECORDING)];
    l.extend((0..4).map(|_| whole_frame(2, LENT_MEMORY)));
    l.push(plain(STOP_RECORDING));
    l
}

/// Every call after set-up once; the reset comes last.
fn each_call(note: (u8, u8), channel: u32, lent: u32) -> Vec<Record> {
    let mut l = vec![start(note, level(0.0), level(1.0)), of_note(NOTE_SPEED, note).with_u32(FLOAT, level(0.5))];
    l.extend([plain(START_RECORDING), sample(channel, level(0.5), lent), whole_frame(1, lent), run(1, 2, lent), plain(STOP_RECORDING)]);
    l.extend((FRAMES_PROCESSED..=VOICE_INFO).map(|kind| query(kind, channel, 64)));
    l.extend([interpolation(true), waveform(3, 3, lent), write(44_100, 90, lent), read_said(lent), of_note(STOP, note)]);
    l.extend([choose(1), delete(2), gather(lent), plain(RESET)]);
    l
}

fn plain(kind: u8) -> Record {
    Record::new(kind)
}

fn press(position: f32) -> Record {
    start(KEY, level(position), level(1.0))
}

fn sound(channel: u32) -> Record {
    sample(channel, level(0.5), LENT_MEMORY)
}

fn whole_frame(entries: u8, lent: u32) -> Record {
    frame(entries, [level(0.5), level(-0.25), level(1.0)], lent)
}

fn level(x: f32) -> u32 {
    x.to_bits()
}

/// A loop of so many whole bars, of 4 by the denominator, at 120 and 44100.
fn bars(count: f32, denominator: u32) -> Record {
    settings(count, 0)
        .with_u8(params::KIND, params::WHOLE_BARS)
        .with_u32(params::RATE, level(44100.0))
        .with_u32(params::TEMPO, level(120.0))
        .with_u32(params::NUMERATOR, 4)
        .with_u32(params::DENOMINATOR, denominator)
}

/// A loop of so many samples, and that attack.
fn settings(samples: f32, attack: u64) -> Record {
    Record::new(PARAMETERS)
        .with_u8(params::KIND, 1)
        .with_u8(params::MODE, 1)
        .with_u32(params::VALUE, level(samples))
        .with_u32(params::VOLUME, level(1.0))
        .with_u32(params::SPEED, level(1.0))
        .with_u32(params::REVERSE, level(1.0))
        .with_u64(params::ATTACK, attack)
}
