/* The C side of the library. Each call of vusatica.h hands its pointers to the proved function of the same work, as
 * the kit's compiler passes them: a slice is a pointer to its place and length, a record is a pointer, and a result
 * that is a record comes first, as the place that it is written to. host/module holds the functions to these shapes
 * and sizes.
 *
 * It is compiled part by part, a call each, with what the call reaches of the engine (host/parts): in one object what
 * the calls share would stand apart, and a frame and a key would take more stack. A program links the calls that it
 * makes. */
#pragma GCC visibility push(default)
#include "vusatica.h"
#pragma GCC visibility pop

typedef struct { const void *at; size_t count; } slice;
typedef struct { uint64_t words[892]; } record;
typedef struct { record s; uint8_t number; } answer;
typedef struct { vusatica_params params; uint8_t number; } made;
typedef struct { uint8_t number, moved; } frame_done;
typedef struct { size_t frames; uint8_t number; } ran;
typedef struct { float output; uint8_t number, moved; } sampled;
typedef struct { size_t count; uint8_t number; } counted;
typedef struct { size_t at; uint8_t number, found; } offset;
typedef struct { float smallest, largest; uint8_t number; } summary;
typedef struct { uint32_t rate; uint8_t number; } rate_read;
typedef struct { size_t next, refused; } played;

#include "sizes.h" /* host/module's: these and vusatica.h's are of the sizes that the functions take */
_Static_assert(sizeof(vusatica_sampler) == sizeof(answer), "set-up writes an answer where the record is to stand");

/* An empty slice has a place too: one that isn't NULL. */
static inline slice of(const void *at, size_t count) {
    slice s = { count == 0 ? (const void *)8 : at, count };
    return s;
}

static inline int told(size_t *to, counted c) {
    if (to) *to = c.count;
    return c.number;
}

uint32_t host_vusatica_version(void);
void host_params_made(made *, const vusatica_settings *);
void host_set_up(vusatica_sampler *, size_t, _Bool, const slice *);
uint8_t host_start_playing(vusatica_sampler *, float, uint8_t, uint8_t, float, const vusatica_params *);
uint8_t host_stop_playing(vusatica_sampler *, uint8_t, uint8_t, const vusatica_params *);
uint8_t host_set_note_speed(vusatica_sampler *, uint8_t, uint8_t, float);
uint8_t host_start_recording(vusatica_sampler *);
uint8_t host_stop_recording(vusatica_sampler *);
uint8_t host_reset(vusatica_sampler *);
uint8_t host_set_interpolation(vusatica_sampler *, _Bool);
uint8_t host_choose_phrase(vusatica_sampler *, size_t);
uint8_t host_delete_phrase(vusatica_sampler *, size_t);
void host_process_frame(frame_done *, vusatica_sampler *, const slice *, const vusatica_params *, const slice *);
void host_process_frames(ran *, vusatica_sampler *, const slice *, const vusatica_params *, const slice *);
void host_frames_processed(counted *, const vusatica_sampler *, size_t);
void host_data_length(counted *, const vusatica_sampler *, size_t);
void host_is_recording(counted *, const vusatica_sampler *, size_t);
void host_last_recorded_offset(offset *, const vusatica_sampler *, size_t);
void host_error_text(counted *, const vusatica_sampler *, size_t, const slice *);
void host_active_notes(counted *, const vusatica_sampler *, size_t, const slice *);
void host_voices(counted *, const vusatica_sampler *, size_t, const vusatica_params *, const slice *);
void host_waveform(summary *, const vusatica_sampler *, size_t, const slice *, const slice *);
void host_read_song(counted *, const slice *, uint32_t, const slice *);
void host_merge_song(counted *, const slice *, const slice *, const slice *);
void host_turn_wave(counted *, const slice *, const slice *);
void host_play_song(played *, vusatica_sampler *, const slice *, size_t, uint64_t, const vusatica_params *);
void host_write_wave(counted *, const vusatica_sampler *, uint32_t, const slice *, const slice *);
void host_read_wave(rate_read *, vusatica_sampler *, const slice *, const slice *);
uint8_t host_gather(vusatica_sampler *, const slice *);
void host_process_sample(sampled *, vusatica_sampler *, size_t, float, const vusatica_params *, const slice *);
void backed_new(vusatica_backing *);
uint8_t backed_start_playing(vusatica_sampler *, vusatica_backing *, float, uint8_t, uint8_t, float,
                             const vusatica_params *);
uint8_t backed_stop_playing(vusatica_sampler *, vusatica_backing *, uint8_t, uint8_t, const vusatica_params *);
uint8_t backed_set_note_speed(vusatica_sampler *, vusatica_backing *, uint8_t, uint8_t, float);
uint8_t backed_start_recording(vusatica_sampler *, vusatica_backing *);
uint8_t backed_stop_recording(vusatica_sampler *, vusatica_backing *);
uint8_t backed_reset(vusatica_sampler *, vusatica_backing *);
uint8_t backed_set_interpolation(vusatica_sampler *, vusatica_backing *, _Bool);
uint8_t backed_choose_phrase(vusatica_sampler *, vusatica_backing *, size_t);
uint8_t backed_delete_phrase(vusatica_sampler *, vusatica_backing *, size_t);
void backed_process_frame(frame_done *, vusatica_sampler *, vusatica_backing *, const slice *, const vusatica_params *,
                          const slice *);
void backed_process_frames(ran *, vusatica_sampler *, vusatica_backing *, const slice *, const vusatica_params *,
                           const slice *);
void backed_process_sample(sampled *, vusatica_sampler *, vusatica_backing *, size_t, float, const vusatica_params *,
                           const slice *);

#ifdef PART_about
uint32_t vusatica_version(void) { return host_vusatica_version(); }
size_t vusatica_sampler_size(void) { return sizeof(vusatica_sampler); }
size_t vusatica_params_size(void) { return sizeof(vusatica_params); }
size_t vusatica_settings_size(void) { return sizeof(vusatica_settings); }
size_t vusatica_backing_size(void) { return sizeof(vusatica_backing); }
#endif

#ifdef PART_params_make
int vusatica_params_make(vusatica_params *params, const vusatica_settings *settings) {
    made m;
    host_params_made(&m, settings);
    if (m.number == 0) *params = m.params;
    return m.number;
}
#endif

#ifdef PART_init
int vusatica_init(vusatica_sampler *s, size_t channels, int auto_passthru, const uint32_t *memory, size_t samples) {
    slice m = of(memory, samples);
    host_set_up(s, channels, auto_passthru != 0, &m);
    return ((const unsigned char *)s)[offsetof(answer, number)];
}
#endif

#ifdef PART_start
int vusatica_start(vusatica_sampler *s, float position, uint8_t note, uint8_t channel, float velocity,
                   const vusatica_params *params) {
    return host_start_playing(s, position, note, channel, velocity, params);
}
#endif

#ifdef PART_stop
int vusatica_stop(vusatica_sampler *s, uint8_t note, uint8_t channel, const vusatica_params *params) {
    return host_stop_playing(s, note, channel, params);
}
#endif

#ifdef PART_note_speed
int vusatica_note_speed(vusatica_sampler *s, uint8_t note, uint8_t channel, float speed) {
    return host_set_note_speed(s, note, channel, speed);
}
#endif

#ifdef PART_record
int vusatica_record(vusatica_sampler *s) { return host_start_recording(s); }
#endif

#ifdef PART_record_stop
int vusatica_record_stop(vusatica_sampler *s) { return host_stop_recording(s); }
#endif

#ifdef PART_reset
int vusatica_reset(vusatica_sampler *s) { return host_reset(s); }
#endif

#ifdef PART_interpolate
int vusatica_interpolate(vusatica_sampler *s, int on) { return host_set_interpolation(s, on != 0); }
#endif

#ifdef PART_frame
int vusatica_frame(vusatica_sampler *s, float *frame, size_t entries, const vusatica_params *params, uint32_t *memory,
                   size_t samples, int *moved) {
    slice f = of(frame, entries), m = of(memory, samples);
    frame_done done;
    host_process_frame(&done, s, &f, params, &m);
    if (moved) *moved = done.moved;
    return done.number;
}
#endif

#ifdef PART_frames
int vusatica_frames(vusatica_sampler *s, float *run, size_t entries, const vusatica_params *params, uint32_t *memory,
                    size_t samples, size_t *frames) {
    slice f = of(run, entries), m = of(memory, samples);
    ran done;
    host_process_frames(&done, s, &f, params, &m);
    if (frames) *frames = done.frames;
    return done.number;
}
#endif

#ifdef PART_sample
int vusatica_sample(vusatica_sampler *s, size_t channel, float input, const vusatica_params *params, uint32_t *memory,
                    size_t samples, float *output, int *moved) {
    slice m = of(memory, samples);
    sampled done;
    host_process_sample(&done, s, channel, input, params, &m);
    if (output) *output = done.output;
    if (moved) *moved = done.moved;
    return done.number;
}
#endif

#ifdef PART_frames_processed
int vusatica_frames_processed(const vusatica_sampler *s, size_t channel, size_t *count) {
    counted c;
    host_frames_processed(&c, s, channel);
    return told(count, c);
}
#endif

#ifdef PART_data_length
int vusatica_data_length(const vusatica_sampler *s, size_t channel, size_t *count) {
    counted c;
    host_data_length(&c, s, channel);
    return told(count, c);
}
#endif

#ifdef PART_is_recording
int vusatica_is_recording(const vusatica_sampler *s, size_t channel, int *is) {
    counted c;
    host_is_recording(&c, s, channel);
    if (is) *is = (int)c.count;
    return c.number;
}
#endif

#ifdef PART_last_recorded_offset
int vusatica_last_recorded_offset(const vusatica_sampler *s, size_t channel, size_t *at, int *is) {
    offset o;
    host_last_recorded_offset(&o, s, channel);
    if (at) *at = o.at;
    if (is) *is = o.found;
    return o.number;
}
#endif

#ifdef PART_error_text
int vusatica_error_text(const vusatica_sampler *s, size_t channel, char *text, size_t room, size_t *count) {
    slice t = of(text, room);
    counted c;
    host_error_text(&c, s, channel, &t);
    return told(count, c);
}
#endif

#ifdef PART_active_notes
int vusatica_active_notes(const vusatica_sampler *s, size_t channel, uint64_t *notes, size_t room, size_t *count) {
    slice n = of(notes, room);
    counted c;
    host_active_notes(&c, s, channel, &n);
    return told(count, c);
}
#endif

#ifdef PART_voices
int vusatica_voices(const vusatica_sampler *s, size_t channel, const vusatica_params *params, vusatica_voice *list,
                    size_t room, size_t *count) {
    slice l = of(list, room);
    counted c;
    host_voices(&c, s, channel, params, &l);
    return told(count, c);
}
#endif

#ifdef PART_waveform
int vusatica_waveform(const vusatica_sampler *s, size_t columns, float *values, size_t room, const uint32_t *memory,
                      size_t samples, float *smallest, float *largest) {
    slice v = of(values, room), m = of(memory, samples);
    summary w;
    host_waveform(&w, s, columns, &v, &m);
    if (smallest) *smallest = w.smallest;
    if (largest) *largest = w.largest;
    return w.number;
}
#endif

#ifdef PART_write_wave
int vusatica_write_wave(const vusatica_sampler *s, uint32_t rate, const uint32_t *memory, size_t samples, uint8_t *file,
                        size_t room, size_t *length) {
    slice m = of(memory, samples), f = of(file, room);
    counted c;
    host_write_wave(&c, s, rate, &m, &f);
    return told(length, c);
}
#endif

#ifdef PART_read_wave
int vusatica_read_wave(vusatica_sampler *s, const uint8_t *file, size_t length, uint32_t *memory, size_t samples,
                       uint32_t *rate) {
    slice f = of(file, length), m = of(memory, samples);
    rate_read r;
    host_read_wave(&r, s, &f, &m);
    if (rate) *rate = r.rate;
    return r.number;
}
#endif

#ifdef PART_choose
int vusatica_choose(vusatica_sampler *s, size_t phrase) { return host_choose_phrase(s, phrase); }
#endif

#ifdef PART_delete
int vusatica_delete(vusatica_sampler *s, size_t phrase) { return host_delete_phrase(s, phrase); }
#endif

#ifdef PART_gather
int vusatica_gather(vusatica_sampler *s, uint32_t *memory, size_t samples) {
    slice m = of(memory, samples);
    return host_gather(s, &m);
}
#endif

#ifdef PART_read_song
int vusatica_read_song(const uint8_t *file, size_t length, uint32_t rate, uint64_t *list, size_t room, size_t *count) {
    slice f = of(file, length), l = of(list, room);
    counted c;
    host_read_song(&c, &f, rate, &l);
    return told(count, c);
}
#endif

#ifdef PART_play_song
size_t vusatica_play_song(vusatica_sampler *s, const uint64_t *list, size_t entries, size_t *next, uint64_t frame,
                          const vusatica_params *params) {
    slice l = of(list, 2 * entries);
    played p;
    host_play_song(&p, s, &l, *next, frame, params);
    *next = p.next;
    return p.refused;
}
#endif

#ifdef PART_merge_song
int vusatica_merge_song(const uint8_t *file, size_t length, uint8_t *spare, uint8_t *out, size_t room,
                        size_t *written) {
    slice f = of(file, length), s = of(spare, room), o = of(out, room);
    counted c;
    host_merge_song(&c, &f, &s, &o);
    return told(written, c);
}
#endif

#ifdef PART_turn_wave
int vusatica_turn_wave(const uint8_t *file, size_t length, uint8_t *out, size_t room, size_t *written) {
    slice f = of(file, length), o = of(out, room);
    counted c;
    host_turn_wave(&c, &f, &o);
    return told(written, c);
}
#endif

#ifdef PART_backing_init
void vusatica_backing_init(vusatica_backing *k) { backed_new(k); }
#endif

#ifdef PART_backed_start
int vusatica_backed_start(vusatica_sampler *s, vusatica_backing *k, float position, uint8_t note, uint8_t channel,
                          float velocity, const vusatica_params *params) {
    return backed_start_playing(s, k, position, note, channel, velocity, params);
}
#endif

#ifdef PART_backed_stop
int vusatica_backed_stop(vusatica_sampler *s, vusatica_backing *k, uint8_t note, uint8_t channel,
                         const vusatica_params *params) {
    return backed_stop_playing(s, k, note, channel, params);
}
#endif

#ifdef PART_backed_note_speed
int vusatica_backed_note_speed(vusatica_sampler *s, vusatica_backing *k, uint8_t note, uint8_t channel, float speed) {
    return backed_set_note_speed(s, k, note, channel, speed);
}
#endif

#ifdef PART_backed_record
int vusatica_backed_record(vusatica_sampler *s, vusatica_backing *k) { return backed_start_recording(s, k); }
#endif

#ifdef PART_backed_record_stop
int vusatica_backed_record_stop(vusatica_sampler *s, vusatica_backing *k) { return backed_stop_recording(s, k); }
#endif

#ifdef PART_backed_reset
int vusatica_backed_reset(vusatica_sampler *s, vusatica_backing *k) { return backed_reset(s, k); }
#endif

#ifdef PART_backed_interpolate
int vusatica_backed_interpolate(vusatica_sampler *s, vusatica_backing *k, int on) {
    return backed_set_interpolation(s, k, on != 0);
}
#endif

#ifdef PART_backed_frame
int vusatica_backed_frame(vusatica_sampler *s, vusatica_backing *k, float *frame, size_t entries,
                          const vusatica_params *params, uint32_t *memory, size_t samples, int *moved) {
    slice f = of(frame, entries), m = of(memory, samples);
    frame_done done;
    backed_process_frame(&done, s, k, &f, params, &m);
    if (moved) *moved = done.moved;
    return done.number;
}
#endif

#ifdef PART_backed_frames
int vusatica_backed_frames(vusatica_sampler *s, vusatica_backing *k, float *run, size_t entries,
                           const vusatica_params *params, uint32_t *memory, size_t samples, size_t *frames) {
    slice f = of(run, entries), m = of(memory, samples);
    ran done;
    backed_process_frames(&done, s, k, &f, params, &m);
    if (frames) *frames = done.frames;
    return done.number;
}
#endif

#ifdef PART_backed_sample
int vusatica_backed_sample(vusatica_sampler *s, vusatica_backing *k, size_t channel, float input,
                           const vusatica_params *params, uint32_t *memory, size_t samples, float *output,
                           int *moved) {
    slice m = of(memory, samples);
    sampled done;
    backed_process_sample(&done, s, k, channel, input, params, &m);
    if (output) *output = done.output;
    if (moved) *moved = done.moved;
    return done.number;
}
#endif

#ifdef PART_backed_choose
int vusatica_backed_choose(vusatica_sampler *s, vusatica_backing *k, size_t phrase) {
    return backed_choose_phrase(s, k, phrase);
}
#endif

#ifdef PART_backed_delete
int vusatica_backed_delete(vusatica_sampler *s, vusatica_backing *k, size_t phrase) {
    return backed_delete_phrase(s, k, phrase);
}
#endif

/* A gather and a read leave positions alone: they are the sampler's own. */
#ifdef PART_backed_gather
int vusatica_backed_gather(vusatica_sampler *s, vusatica_backing *k, uint32_t *memory, size_t samples) {
    slice m = of(memory, samples);
    (void)k;
    return host_gather(s, &m);
}
#endif

#ifdef PART_backed_read_wave
int vusatica_backed_read_wave(vusatica_sampler *s, vusatica_backing *k, const uint8_t *file, size_t length,
                              uint32_t *memory, size_t samples, uint32_t *rate) {
    slice f = of(file, length), m = of(memory, samples);
    rate_read r;
    (void)k;
    host_read_wave(&r, s, &f, &m);
    if (rate) *rate = r.rate;
    return r.number;
}
#endif
