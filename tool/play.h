/* play.h: the parts of the tool that stand on the library. */
#ifndef PLAY_H
#define PLAY_H

#include "tool.h"
#include "vusatica.h"

/* ---- engine.c: a sampler with its memory and its parameters, by the calls of the first engine or of the plain one */

typedef struct {
    vusatica_sampler sampler;
    vusatica_backing backing; /* the plain engine's */
    int plain;                /* whether it plays */
    uint32_t *memory;
    size_t samples, channels, chosen;
    vusatica_settings settings;
    vusatica_params params;
} engine;

/* Set up with room for so many samples a channel, at most 2^22. */
void engine_made(engine *e, size_t channels, int auto_passthru, size_t capacity);
/* Parameters of the settings: 0, 4 or 7, and with another than 0 the old ones stand. */
int engine_set(engine *e, const vusatica_settings *settings);
/* Plays a run of frames in place. */
void engine_run(engine *e, float *run, size_t frames);
/* The setting of --smooth, a phrase's choice, and a note's speed. */
void engine_smooth(engine *e, int on);
void engine_choose(engine *e, size_t phrase);
void engine_speed(engine *e, uint8_t note, uint8_t channel, float speed);
size_t engine_voices(const engine *e);
uint64_t engine_clock(const engine *e);
/* The chosen phrase as a WAVE file. */
bytes engine_recording(const engine *e, uint32_t rate);
/* The samples of a channel of such a file, as bits. */
const uint8_t *recorded(bytes file, size_t *samples);

/* ---- listing.c: plays an event listing without a word */

void listing_played(engine *e, bytes file);

/* ---- turn.c: files of other forms, turned into those that the library reads. 0, or the number of the refusal */

/* A song of format 1, its tracks merged, as one of format 0. */
int song_turned(bytes *file);
/* A WAVE file of other numbers, or with another head, as one of 32-bit floats. */
int wave_turned(bytes *file, const char *what);

/* ---- take.c: what a song is played on */

/* Reads take or phrases, and the settings that the job asks for. Answers the rate of the song. */
uint32_t take_loaded(engine *e, const job *j);
/* What FILE of --waveform leaves. */
void file_loaded(engine *e, const char *path);

/* ---- song.c: starts and stops */

typedef struct { uint64_t *list; size_t count; } song;

song song_of(const char *path, uint32_t rate, int show);
typedef struct { uint64_t frame; uint8_t note, channel, velocity; } cue;
cue cue_at(const song *s, size_t entry);
/* Makes the call of an entry, which is due at this frame: how many are refused, 0 or 1. */
size_t cue_called(const song *s, size_t entry, engine *e, uint64_t frame);

/* ---- player.c: a song on an engine, its calls made before their frames */

typedef struct lag lag;

typedef struct {
    engine *engine;
    song song;
    size_t next;
    uint64_t frame, frames; /* of the song: the next one, and how many there are */
    size_t block, phrases;  /* calls are made where the frame is a multiple of block; 0 phrases: all on one */
    int pitch;
    size_t refused, astray; /* calls that were refused; starts on a channel that has no phrase */
    lag *lag;               /* NULL: not measured */
} player;

player player_of(engine *e, song s, const job *j);
/* The speed of a note where another key has the recorded pitch. */
float speed_of(int note, int pitch);
/* Plays the next frames, at most so many, into a run, each channel's entries beside the other's: how many. 0 at the
 * end. */
size_t player_run(player *p, float *run, size_t most);
void player_told(const player *p);

/* ---- lines.c, sound.c, cues.c, waveform.c, bench.c: what is printed and written */

uint32_t bits_of(float value);
/* NAN, or 8 digits. */
void value_shown(float value);
void lines_printed(player *p);
/* Plays all of it, to a WAVE file; to none where it has no name. */
void sound_played(player *p, const char *name, uint32_t rate);
void cues_printed(const song *s);
void waveform_printed(const engine *e, size_t columns, int bars);
void bench_printed(const job *j);

/* ---- progress.c: how far a long song is, on standard error */

typedef struct { double began, told; uint64_t frames; uint32_t rate; } progress;

double seconds_now(void);
progress progress_begun(uint64_t frames, uint32_t rate);
void progress_told(progress *g, uint64_t frame);

/* ---- wav.c: the head of a WAVE file, 58 bytes, and its words */

void wav_head(out *o, uint32_t rate, size_t channels, uint64_t frames);
void wav_words(out *o, const float *values, size_t count);

/* ---- lag.c: how long after its frame each key is heard */

enum { NEVER = -1 };

typedef struct {
    uint64_t due;   /* the frame that the file gives */
    uint8_t note, channel;
    int64_t heard;  /* the first frame in which it is heard, or NEVER */
    int64_t silent; /* frames at its beginning that have no sound of their own */
    int64_t quiet;  /* frames behind these that are too quiet to change the sum */
    int64_t late;   /* heard - due - silent - quiet */
} key;

lag *lag_begun(const player *p, int smooth);
/* Around the call of a start: copies of the record before it and after. */
void lag_before(lag *l, const player *p);
void lag_after(lag *l, const player *p, cue c);
/* Frames of the song as they sounded, for the picture. */
void lag_heard(lag *l, uint64_t frame, const float *run, size_t frames);
void lag_told(const lag *l, const player *p, const char *picture, uint32_t rate);

/* ---- picture.c: the lags, and the sound around the first keys */

enum { SHOWN = 4, BEFORE = 12 };

/* A stretch of the sound of channel 0, around a key. */
typedef struct { key key; uint64_t from; size_t frames; float *sound; } view;

typedef struct {
    const key *keys;
    size_t count;
    const view *views;
    size_t view_count, block;
    uint32_t rate;
    int64_t most;
} lag_picture;

void picture_written(const char *name, const lag_picture *p);

#endif
