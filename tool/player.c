/* A song on an engine. Each run of frames is cut at the next call, so that no key is late; with --block N on purpose
 * only at multiples of N. */
#include <math.h>
#include <string.h>
#include "play.h"

/* The frame before which a call is made. */
static uint64_t call_at(const player *p, size_t entry) {
    return (p->song.list[2 * entry] + p->block - 1) / p->block * p->block;
}

/* To the last start or stop, and for a decay after it. */
static uint64_t frames_of(const player *p) {
    size_t count = p->song.count;
    return count == 0 ? 0 : call_at(p, count - 1) + p->engine->settings.decay_samples + 1;
}

player player_of(engine *e, song s, const job *j) {
    player p;
    memset(&p, 0, sizeof p);
    p.engine = e, p.song = s, p.block = j->block, p.phrases = j->phrase_count, p.pitch = j->pitch;
    p.frames = frames_of(&p);
    return p;
}

float speed_of(int note, int pitch) { return (float)pow(2.0, (note - pitch) / 12.0); }

/* Whether the phrase of a start's channel is chosen. */
static int is_chosen(player *p, cue c) {
    if (p->phrases == 0) return 1;
    if (c.channel >= p->phrases) return 0;
    if (p->engine->chosen != c.channel) engine_choose(p->engine, c.channel);
    return 1;
}

/* Makes the next call of the list. */
static void called(player *p) {
    size_t entry = p->next++;
    cue c = cue_at(&p->song, entry);
    if (c.velocity > 0 && !is_chosen(p, c)) {
        p->astray++;
        return;
    }
    if (p->lag != NULL && c.velocity > 0) lag_before(p->lag, p);
    size_t refused = cue_called(&p->song, entry, p->engine, p->frame);
    p->refused += refused;
    if (c.velocity == 0 || refused > 0) return;
    if (p->pitch >= 0) engine_speed(p->engine, c.note, c.channel, speed_of(c.note, p->pitch));
    if (p->lag != NULL) lag_after(p->lag, p, c);
}

/* That of the next call; the song's end, where there is none. */
static uint64_t next_call(const player *p) { return p->next < p->song.count ? call_at(p, p->next) : p->frames; }

size_t player_run(player *p, float *run, size_t most) {
    size_t entries = p->engine->channels;
    while (p->next < p->song.count && next_call(p) <= p->frame) called(p);
    uint64_t left = next_call(p) - p->frame;
    size_t frames = left < most ? (size_t)left : most;
    if (frames == 0) return 0;
    memset(run, 0, frames * entries * sizeof *run);
    engine_run(p->engine, run, frames);
    if (p->lag != NULL) lag_heard(p->lag, p->frame, run, frames);
    p->frame += frames;
    return frames;
}

void player_told(const player *p) {
    if (p->refused > 0) say("%zu starts were refused: %s (5)", p->refused, words_of(5));
    if (p->astray > 0) say("%zu starts are on MIDI channels that have no phrase: they were not played", p->astray);
}
