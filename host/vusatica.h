/* vusatica.h: the sound engine of a two-channel stage sampler, for hosts in C, C++ and Rust. Its page is
 * docs/HOSTS.md.
 *
 * Each call answers a number: 0 for done, or why it is refused. A refused call changes nothing, neither the record nor
 * what is lent with it, but for a run of frames that reaches the clock's end (6): the frames that it counts stand; and
 * for the lists of a merge. No call allocates, locks, keeps a pointer or makes a system call, and each ends. Any thread
 * may call, one call at a time on a record. A pointer for an answer may be NULL where the answer isn't wanted; a
 * refused call answers 0 there.
 *
 * What a host promises, and what comes of it where it doesn't:
 *  1. Only the library writes records and parameters; a copy of one, whole, is as good. Else: 9, or any sound; no
 *     more.
 *  2. A pointer leads to as many elements as its count says, aligned for their type, and one that is written through
 *     to nothing that another argument reaches; with a count of 0 it may be NULL. Else: what C says of such an access.
 *  3. The memory of set-up, or a copy of it, comes with each call that asks for it. Else: 9 if it is shorter, another
 *     sound.
 *  4. The processor rounds to nearest and flushes no small float to zero, as a C program starts. Else: other outputs,
 *     of which nothing is proved. */
#ifndef VUSATICA_H
#define VUSATICA_H

#include <stddef.h>
#include <stdint.h>

#ifdef __cplusplus
extern "C" {
#endif

/* Rises with each change of a call or a type here: a host tests vusatica_version() == VUSATICA_VERSION as it starts. */
#define VUSATICA_VERSION 2u

typedef enum vusatica_number {
    VUSATICA_DONE = 0,
    VUSATICA_NO_CHANNEL = 1,        /* no such channel, or a frame of more entries than there are channels */
    VUSATICA_BAD_NOTE = 2,          /* a note's channel above 15 */
    VUSATICA_BAD_POSITION = 3,      /* a start position that isn't in 0 to 1 */
    VUSATICA_BEYOND_LIMITS = 4,     /* attack, decay or loop length above its limit */
    VUSATICA_FULL = 5,              /* a channel with a recording has 32 voices */
    VUSATICA_CLOCK_END = 6,         /* a clock stands at 2^48 */
    VUSATICA_BAD_SETTING = 7,       /* a setting that names nothing */
    VUSATICA_SHORT_LIST = 8,        /* the lent list is shorter than the answer */
    VUSATICA_BROKEN = 9,            /* a broken record, or too little memory */
    VUSATICA_BAD_RUN = 10,          /* a run that isn't of whole frames */
    VUSATICA_TOO_MANY_COLUMNS = 11, /* above 4,096 */
    VUSATICA_BAD_SONG = 12,         /* a file that breaks the Standard MIDI File 1.0 document */
    VUSATICA_OTHER_FORMAT = 13,     /* a song of another format than 0, or with SMPTE times */
    VUSATICA_LATE_SONG = 14,        /* a start or stop after frame 2^48 */
    VUSATICA_RECORDING = 15,        /* a WAVE file is written or read while recording */
    VUSATICA_OTHER_CHANNELS = 16,   /* recordings of two lengths, or a WAVE file of another channel count */
    VUSATICA_BAD_WAVE = 17,         /* no WAVE file of 32-bit floats, or sizes in it disagree */
    VUSATICA_NO_ROOM = 18,          /* a WAVE file of more samples than the chosen phrase may hold */
    VUSATICA_NO_PHRASE = 19,        /* a phrase number of 8 or more */
    VUSATICA_PHRASE_IN_USE = 20,    /* a delete of a phrase that a voice plays or that is being recorded */
    VUSATICA_PHRASE_RECORDING = 21, /* a gather, or another choice of phrase, while recording */
    VUSATICA_BAD_RATE = 22          /* a song's rate that isn't in 1 to 192,000 */
} vusatica_number;

enum vusatica_length_kind {
    VUSATICA_QUARTER_NOTES = 0,
    VUSATICA_SAMPLES = 1,
    VUSATICA_SECONDS = 2,
    VUSATICA_BARS = 3,              /* each of numerator / denominator quarter notes */
    VUSATICA_RATIO = 4,             /* a part of the recording, at most 1 */
    VUSATICA_WHOLE_BARS = 5         /* each of numerator * 4 / denominator quarter notes */
};
enum vusatica_loop_mode { VUSATICA_PLAY_ONCE = 0, VUSATICA_LOOP = 1, VUSATICA_PING_PONG = 2 };
enum vusatica_note_off { VUSATICA_DECAY = 0, VUSATICA_ZERO_CROSSING = 1, VUSATICA_DECAY_AND_ZERO_CROSSING = 2 };

/* docs/LISTING.md, kind 0, says what each does. */
typedef struct vusatica_settings {
    uint64_t attack_samples;        /* at most 16,777,216 */
    uint64_t decay_samples;         /* at most 16,777,216 */
    float sample_rate;
    float tempo;                    /* quarter notes a minute */
    uint32_t time_sig_numerator;
    uint32_t time_sig_denominator;
    float length;                   /* of the loop, in what length_kind names: at most 4,194,304 samples */
    float speed;                    /* negative plays backwards */
    float reverse_speed;            /* speed is multiplied by it */
    float volume;
    uint8_t length_kind;            /* enum vusatica_length_kind */
    uint8_t loop_mode;              /* enum vusatica_loop_mode */
    uint8_t note_off;               /* enum vusatica_note_off */
    uint8_t auto_passthru;          /* 0 or 1 */
} vusatica_settings;

#define VUSATICA_DEFAULT_SETTINGS                                                                      \
    { 100, 100, 44100.0f, 120.0f, 4, 4, 1.0f, 1.0f, 1.0f, 1.0f, VUSATICA_RATIO, VUSATICA_LOOP,          \
      VUSATICA_DECAY_AND_ZERO_CROSSING, 1 }

/* An engine's record, and parameters: to be held, copied and lent, not to be looked into. */
typedef struct vusatica_sampler { uint64_t opaque[893]; } vusatica_sampler;
typedef struct vusatica_params { uint64_t opaque[8]; } vusatica_params;

/* What the plain engine has beside a sampler. */
typedef struct vusatica_backing { uint64_t opaque[262]; } vusatica_backing;

/* The loop of a voice and its place, as parts of its recording. */
typedef struct vusatica_voice { float start, end, position; } vusatica_voice;

uint32_t vusatica_version(void);
size_t vusatica_sampler_size(void);
size_t vusatica_params_size(void);
size_t vusatica_settings_size(void);
size_t vusatica_backing_size(void);

/* Parameters of settings. 7, and the parameters are as they were; limits are judged by the calls that take them (4). */
int vusatica_params_make(vusatica_params *params, const vusatica_settings *settings);

/* Set-up for 1 or 2 channels, each with an equal part of the memory, at most 2^22 samples. 9, and so does each call on
 * this record until it is set up. */
int vusatica_init(vusatica_sampler *s, size_t channels, int auto_passthru, const uint32_t *memory, size_t samples);

/* Keys, recorder, reset, and 7/12's setting: a key that is started before a frame sounds in that frame. Start: 9 2 3 4
 * 5. Stop: 9 2 4. Note speed: 9 2. The others: 9. */
int vusatica_start(vusatica_sampler *s, float position, uint8_t note, uint8_t channel, float velocity,
                   const vusatica_params *params);
int vusatica_stop(vusatica_sampler *s, uint8_t note, uint8_t channel, const vusatica_params *params);
int vusatica_note_speed(vusatica_sampler *s, uint8_t note, uint8_t channel, float speed);
int vusatica_record(vusatica_sampler *s);
int vusatica_record_stop(vusatica_sampler *s);
int vusatica_reset(vusatica_sampler *s);
int vusatica_interpolate(vusatica_sampler *s, int on);

/* A frame: an entry for each channel, which becomes its output. *moved: how many voices moved up as others left, at
 * most 62. 9 1 4 6. */
int vusatica_frame(vusatica_sampler *s, float *frame, size_t entries, const vusatica_params *params, uint32_t *memory,
                   size_t samples, int *moved);

/* A run of frames, frame after frame. *frames: how many are done. 9 10 4 6. */
int vusatica_frames(vusatica_sampler *s, float *run, size_t entries, const vusatica_params *params, uint32_t *memory,
                    size_t samples, size_t *frames);

/* A sample of one channel. 9 1 4 6. */
int vusatica_sample(vusatica_sampler *s, size_t channel, float input, const vusatica_params *params, uint32_t *memory,
                    size_t samples, float *output, int *moved);

/* Questions. 9, of a channel 1, and what stands behind. *is: 1 or 0. */
int vusatica_frames_processed(const vusatica_sampler *s, size_t channel, size_t *count);
int vusatica_data_length(const vusatica_sampler *s, size_t channel, size_t *count);
int vusatica_is_recording(const vusatica_sampler *s, size_t channel, int *is);
int vusatica_last_recorded_offset(const vusatica_sampler *s, size_t channel, size_t *at, int *is);
int vusatica_error_text(const vusatica_sampler *s, size_t channel, char *text, size_t room, size_t *count);       /* 8 */
int vusatica_active_notes(const vusatica_sampler *s, size_t channel, uint64_t *notes, size_t room,
                          size_t *count);                                         /* each 256 * note + channel; 8 */
int vusatica_voices(const vusatica_sampler *s, size_t channel, const vusatica_params *params, vusatica_voice *list,
                    size_t room, size_t *count);                                                                /* 4 8 */

/* The waveform of channel 0's recording, a value a column. 9 11 8. */
int vusatica_waveform(const vusatica_sampler *s, size_t columns, float *values, size_t room, const uint32_t *memory,
                      size_t samples, float *smallest, float *largest);

/* The recordings as a WAVE file, and a WAVE file's as the recordings. Write: 9 15 16 8. Read: 9 15 17 16 18. */
int vusatica_write_wave(const vusatica_sampler *s, uint32_t rate, const uint32_t *memory, size_t samples, uint8_t *file,
                        size_t room, size_t *length);
int vusatica_read_wave(vusatica_sampler *s, const uint8_t *file, size_t length, uint32_t *memory, size_t samples,
                       uint32_t *rate);

/* Phrases, eight a channel: the chosen one is recorded, read, written and started. A gather puts all free room behind
 * them. Choose: 9 19 21. Delete: 9 19 20. Gather: 9 21. */
int vusatica_choose(vusatica_sampler *s, size_t phrase);
int vusatica_delete(vusatica_sampler *s, size_t phrase);
int vusatica_gather(vusatica_sampler *s, uint32_t *memory, size_t samples);

/* The starts and stops of a Standard MIDI File of format 0, for so many frames a second: two words an entry, of which
 * the first is its frame, in a list of `room` words. *count: the entries. 22, then 12 13 14, then 8 with as many as
 * there are. */
int vusatica_read_song(const uint8_t *file, size_t length, uint32_t rate, uint64_t *list, size_t room, size_t *count);

/* Makes the calls of the list, of so many entries, that are due at this frame, from entry *next on, which begins at 0:
 * to be called before the frame is played. It answers how many calls were refused. */
size_t vusatica_play_song(vusatica_sampler *s, const uint64_t *list, size_t entries, size_t *next, uint64_t frame,
                          const vusatica_params *params);

/* Files of other forms, as those that the calls above read, in the first *written bytes of `out`. A song of format 1 as
 * one of format 0, the events of all its tracks by tick and then by track; `spare` and `out` have `room` bytes each, and
 * are overwritten whatever is answered. 12 13, then 8 with a room that is enough, of a file below 2^31 bytes. A WAVE
 * file of whole numbers of 16, 24 or 32 bits or floats of 32 or 64, under a `fmt ` of 16, 18 or 40 bytes, as one of
 * 32-bit floats. 17, then 8 with the room that it takes. */
int vusatica_merge_song(const uint8_t *file, size_t length, uint8_t *spare, uint8_t *out, size_t room,
                        size_t *written);
int vusatica_turn_wave(const uint8_t *file, size_t length, uint8_t *out, size_t room, size_t *written);

/* The plain engine, for backing tracks (9/12): each call that plays or changes, again, with a backing behind the sampler.
 * It answers and leaves of the sampler, the memory and the frame what the call above does, whatever the backing holds,
 * and keeps in the backing where its plain voices stand: loops at speed 1 of whole lengths. So both kinds of calls may be
 * mixed on one sampler, and a backing that is set up anew in between costs speed alone. */
void vusatica_backing_init(vusatica_backing *k);
int vusatica_backed_start(vusatica_sampler *s, vusatica_backing *k, float position, uint8_t note, uint8_t channel,
                          float velocity, const vusatica_params *params);
int vusatica_backed_stop(vusatica_sampler *s, vusatica_backing *k, uint8_t note, uint8_t channel,
                         const vusatica_params *params);
int vusatica_backed_note_speed(vusatica_sampler *s, vusatica_backing *k, uint8_t note, uint8_t channel, float speed);
int vusatica_backed_record(vusatica_sampler *s, vusatica_backing *k);
int vusatica_backed_record_stop(vusatica_sampler *s, vusatica_backing *k);
int vusatica_backed_reset(vusatica_sampler *s, vusatica_backing *k);
int vusatica_backed_interpolate(vusatica_sampler *s, vusatica_backing *k, int on);
int vusatica_backed_frame(vusatica_sampler *s, vusatica_backing *k, float *frame, size_t entries,
                          const vusatica_params *params, uint32_t *memory, size_t samples, int *moved);
int vusatica_backed_frames(vusatica_sampler *s, vusatica_backing *k, float *run, size_t entries,
                           const vusatica_params *params, uint32_t *memory, size_t samples, size_t *frames);
int vusatica_backed_sample(vusatica_sampler *s, vusatica_backing *k, size_t channel, float input,
                           const vusatica_params *params, uint32_t *memory, size_t samples, float *output, int *moved);
int vusatica_backed_choose(vusatica_sampler *s, vusatica_backing *k, size_t phrase);
int vusatica_backed_delete(vusatica_sampler *s, vusatica_backing *k, size_t phrase);
int vusatica_backed_gather(vusatica_sampler *s, vusatica_backing *k, uint32_t *memory, size_t samples);
int vusatica_backed_read_wave(vusatica_sampler *s, vusatica_backing *k, const uint8_t *file, size_t length,
                              uint32_t *memory, size_t samples, uint32_t *rate);

#ifdef __cplusplus
}
#endif

#if defined(__cplusplus) && __cplusplus >= 201103L
static_assert(sizeof(size_t) == 8 && sizeof(vusatica_settings) == 56 && sizeof(vusatica_voice) == 12,
              "vusatica: 64-bit machines");
#elif defined(__STDC_VERSION__) && __STDC_VERSION__ >= 201112L
_Static_assert(sizeof(size_t) == 8 && sizeof(vusatica_settings) == 56 && sizeof(vusatica_voice) == 12,
               "vusatica: 64-bit machines");
#endif

#endif
