# Makes of oracle/lent.rt.txt the program that plays the listings by the calls of the crate `plain_sampler`, with the second record lent beside the first.
s/^\(\/\/ libraries:.*\) lent_sampler /\1 lent_sampler plain_sampler /
s/^use oracle_show::replies;/use plain_sampler::Backing;\n&/
s/^    let mut run = Run::new(.*/&\n    let mut k = Backing::new();/
s/play(&rt, /&\&mut k, /
s/^    rt: &impl Print,$/&\n    k: \&mut Backing,/
s/^fn play(rt: &impl Print, /&k: \&mut Backing, /
s/answer(rt, /&k, /
s/^fn \(change\|sample\|frame\|frames\|ran\)(run: &mut Run, /fn \1(k: \&mut Backing, run: \&mut Run, /
s/\([ (]\)\(change\|sample\|frame\|frames\|ran\)(run, /\1\2(k, run, /g
s/lent_sampler::\(start_playing\|stop_playing\|set_note_speed\|start_recording\|stop_recording\|set_interpolation\|choose_phrase\|delete_phrase\|reset\|process_sample\|process_frame\|process_frames\)(s/plain_sampler::\1(s, k/
s/lent_sampler::set_interpolation(&mut run.sampler/plain_sampler::set_interpolation(\&mut run.sampler, k/
