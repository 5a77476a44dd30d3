/* How long after its frame each key is heard, measured from outside. Around the call of each start the record is
 * copied, and the next frames are played on the copies, with that start and without it: the first frame in which the
 * outputs differ is the one in which the key is heard. Frames that have nothing to hear are not counted: silence at the
 * beginning of the recording, the level 0 at which an attack begins, and a sound too quiet to change the sum. */
#include <math.h>
#include <string.h>
#include "play.h"

/* So many frames behind a key's first sound are looked at. */
enum { WINDOW = 1024 };

struct lag {
    engine solo; /* the same recordings, and no voice */
    bytes recordings[8];
    uint32_t *memory; /* a copy, which the copies of the record are lent */
    engine before;
    int smooth;
    int64_t sounds[8][128]; /* the first sound of each phrase and note, and 2 more: 0 where it isn't known yet */
    key *keys;
    size_t count, space;
    view views[SHOWN];
    size_t view_count;
};

static void solo_made(lag *l, const player *p) {
    engine copy = *p->engine;
    engine_made(&l->solo, copy.channels, 0, copy.samples / copy.channels);
    engine_set(&l->solo, &copy.settings);
    l->solo.plain = copy.plain;
    engine_smooth(&l->solo, l->smooth);
    for (size_t i = 0; i == 0 || i < p->phrases; i++) {
        uint32_t rate;
        engine_choose(&copy, i);
        engine_choose(&l->solo, i);
        l->recordings[i] = engine_recording(&copy, 1);
        bytes file = l->recordings[i];
        int number = vusatica_read_wave(&l->solo.sampler, file.at, file.length, l->solo.memory, l->solo.samples, &rate);
        if (number != 0) wave_refused(file, "the recording", number);
    }
}

/* Stretches of sound around the first keys of different frames. */
static void views_made(lag *l, const player *p) {
    for (size_t i = 0; i < p->song.count && l->view_count < SHOWN; i++) {
        cue c = cue_at(&p->song, i);
        view *v = &l->views[l->view_count];
        if (c.velocity == 0 || (l->view_count > 0 && v[-1].key.due == c.frame)) continue;
        v->key.due = c.frame;
        v->key.heard = NEVER;
        v->from = c.frame < BEFORE ? 0 : c.frame - BEFORE;
        v->frames = 2 * BEFORE + 15 + (p->block < 1000 ? p->block : 1000);
        v->sound = room(v->frames, sizeof *v->sound);
        l->view_count++;
    }
}

lag *lag_begun(const player *p, int smooth) {
    lag *l = room(1, sizeof *l);
    l->smooth = smooth;
    solo_made(l, p);
    l->memory = room(p->engine->samples, sizeof *l->memory);
    memcpy(l->memory, p->engine->memory, p->engine->samples * sizeof *l->memory);
    views_made(l, p);
    return l;
}

/* A copy of the engine, on the copy of the memory. */
static engine copied(const lag *l, const player *p) {
    engine e = *p->engine;
    e.memory = l->memory;
    return e;
}

void lag_before(lag *l, const player *p) { l->before = copied(l, p); }

/* Whether the recording has a sound at a place between samples, on any channel. */
static int sounds_at(const lag *l, bytes recording, size_t channels, float place) {
    size_t samples, i = (size_t)place;
    const uint8_t *words = recorded(recording, &samples);
    for (size_t j = 0; j < channels; j++) {
        /* but for the sign of a zero */
        if (low4(words + 4 * (i * channels + j)) << 1 != 0) return 1;
        if (l->smooth && place > (float)i && i + 1 < samples && low4(words + 4 * ((i + 1) * channels + j)) << 1 != 0)
            return 1;
    }
    return 0;
}

static size_t phrase_of(const player *p, cue c) { return p->phrases > 0 ? c.channel : 0; }

/* The first frame of a voice that has a sound of its own, by the recording: NEVER where there is none. */
static int64_t first_looked_for(const lag *l, const player *p, cue c) {
    const vusatica_settings *s = &p->engine->settings;
    bytes recording = l->recordings[phrase_of(p, c)];
    float speed = s->speed * s->reverse_speed * (p->pitch >= 0 ? speed_of(c.note, p->pitch) : 1.0f);
    size_t samples;
    recorded(recording, &samples);
    for (int64_t k = s->attack_samples > 0; speed > 0 && (float)k * speed < (float)samples; k++)
        if (sounds_at(l, recording, p->engine->channels, (float)k * speed)) return k;
    return NEVER;
}

static int64_t first_sound(lag *l, const player *p, cue c) {
    int64_t *known = &l->sounds[phrase_of(p, c)][c.note];
    if (*known == 0) *known = first_looked_for(l, p, c) + 2;
    return *known - 2;
}

/* A key alone. */
static engine alone_of(const lag *l, const player *p, cue c) {
    engine alone = l->solo;
    engine_choose(&alone, phrase_of(p, c));
    cue_called(&p->song, p->next - 1, &alone, p->frame);
    if (p->pitch >= 0) engine_speed(&alone, c.note, c.channel, speed_of(c.note, p->pitch));
    return alone;
}

static void sounded(engine *e, float *frame) {
    frame[0] = frame[1] = 0;
    engine_run(e, frame, 1);
}

/* Frames behind a start: the first in which it is heard, the first in which it sounds where it is alone, and the
 * first of these that changes the sum. */
typedef struct { int64_t heard, alone, summed; } firsts;

static void first_seen(firsts *f, int64_t k, size_t channels, const float *with, const float *without,
    const float *alone) {
    for (size_t j = 0; j < channels; j++) {
        if (f->heard == NEVER && bits_of(with[j]) != bits_of(without[j])) f->heard = k;
        if (f->alone == NEVER && alone[j] != 0) f->alone = k;
        if (f->summed == NEVER && alone[j] != 0 && bits_of(without[j] + alone[j]) != bits_of(without[j])) f->summed = k;
    }
}

static firsts firsts_of(lag *l, const player *p, cue c, int64_t first) {
    engine with = copied(l, p), without = l->before, alone = alone_of(l, p, c);
    firsts f = { NEVER, NEVER, NEVER };
    for (int64_t k = 0; k < first + WINDOW && (f.heard == NEVER || f.summed == NEVER); k++) {
        float w[2], o[2], a[2];
        sounded(&with, w);
        sounded(&without, o);
        sounded(&alone, a);
        first_seen(&f, k, p->engine->channels, w, o, a);
    }
    return f;
}

static key measured(lag *l, const player *p, cue c) {
    key k = { c.frame, c.note, c.channel, NEVER, 0, 0, 0 };
    int64_t first = first_sound(l, p, c);
    firsts f = firsts_of(l, p, c, first == NEVER ? 0 : first);
    if (f.heard == NEVER || f.alone == NEVER) return k;
    /* Backwards the recording doesn't say where the sound begins: the key alone does. */
    k.silent = first == NEVER ? f.alone : first;
    k.quiet = f.summed == NEVER || f.summed > f.heard ? f.heard - f.alone : f.summed - f.alone;
    k.heard = (int64_t)p->frame + f.heard;
    k.late = k.heard - (int64_t)c.frame - k.silent - k.quiet;
    return k;
}

void lag_after(lag *l, const player *p, cue c) {
    key k = measured(l, p, c);
    if (l->count == l->space) {
        l->space = 2 * l->space + 64;
        l->keys = room_grown(l->keys, l->count, l->space, sizeof *l->keys);
    }
    l->keys[l->count++] = k;
    for (size_t i = 0; i < l->view_count; i++)
        if (l->views[i].key.due == c.frame && l->views[i].key.heard == NEVER) l->views[i].key = k;
}

void lag_heard(lag *l, uint64_t frame, const float *run, size_t frames) {
    for (size_t i = 0; i < l->view_count; i++)
        for (size_t k = 0; k < l->views[i].frames; k++) {
            uint64_t at = l->views[i].from + k;
            if (at >= frame && at - frame < frames) l->views[i].sound[k] = run[(at - frame) * l->solo.channels];
        }
}

static void silence_told(const lag *l, const player *p) {
    int64_t silent = 0;
    size_t never = 0, quiet = 0;
    for (size_t i = 0; i < l->count; i++) {
        if (l->keys[i].silent > silent) silent = l->keys[i].silent;
        quiet += l->keys[i].quiet > 0;
        never += l->keys[i].heard == NEVER;
    }
    int is_attack = p->engine->settings.attack_samples > 0;
    const char *why = is_attack ? "an attack starts at level 0" : "the recording begins with silence";
    if (silent > 0)
        say("%s, and lags are counted from the first sound: up to %lld samples behind a start", why, (long long)silent);
    if (quiet > 0) say("%zu keys begin too quietly to change the sum: their lag is counted from where they do", quiet);
    if (never > 0) say("%zu keys are never heard", never);
}

void lag_told(const lag *l, const player *p, const char *picture, uint32_t rate) {
    lag_picture drawn = { l->keys, l->count, l->views, l->view_count, p->block, rate, 0 };
    for (size_t i = 0; i < l->count; i++)
        if (l->keys[i].heard != NEVER && l->keys[i].late > drawn.most) drawn.most = l->keys[i].late;
    picture_written(picture, &drawn);
    printf("%zu keys, lag %lld samples at most\n", l->count, (long long)drawn.most);
    out_shown();
    silence_told(l, p);
}
