/* Where a song breaks the Standard MIDI File document, for a person: the library answers a number alone. The reader
 * walks as `smf` does, and of format 1 as `song_merge`; it is believed only where it comes to the library's number, and
 * oracle/compare songs holds it to a third reader. */
#include <string.h>
#include "tool.h"

#define LAST_FRAME ((uint64_t)1 << 48)

/* A place in a file up to an end, and the first fault that was met. */
typedef struct { const uint8_t *at; size_t place, end; fault found; } walk;

static void broken(walk *w, int number, const char *words, size_t at) {
    if (w->found.number != 0) return;
    w->found.number = number;
    w->found.words = words;
    w->found.at = at;
}

static int is_broken(const walk *w) { return w->found.number != 0; }

/* The place of the next n bytes, or a fault where one is missing. */
static const uint8_t *next(walk *w, size_t n) {
    static const uint8_t zeros[4];
    if (is_broken(w)) return zeros;
    if (w->end < w->place || w->end - w->place < n) {
        broken(w, 12, "a byte is missing", w->place < w->end ? w->end : w->place);
        return zeros;
    }
    w->place += n;
    return w->at + w->place - n;
}

static uint32_t quantity(walk *w) {
    uint32_t value = 0;
    for (int used = 0; used < 4; used++) {
        uint32_t byte = next(w, 1)[0];
        value = value * 128 + byte % 128;
        if (byte < 128) return value;
    }
    broken(w, 12, "a time or length of over 4 bytes", w->place - 1);
    return 0;
}

static uint32_t datum(walk *w) {
    uint32_t byte = next(w, 1)[0];
    if (byte >= 128) broken(w, 12, "a data byte from 80 up", w->place - 1);
    return byte;
}

typedef struct { uint32_t format, tracks, division; } heading;

static heading header(walk *w) {
    heading h;
    if (memcmp(next(w, 4), "MThd", 4) != 0) broken(w, 12, "no MThd at the start", 3);
    uint32_t size = high4(next(w, 4));
    if (size < 6) broken(w, 12, "a header shorter than 6 bytes", 7);
    h.format = high2(next(w, 2));
    if (h.format > 1) broken(w, 13, "not format 0 or 1", 9);
    h.tracks = high2(next(w, 2));
    if (h.format == 0 && h.tracks != 1) broken(w, 12, "not one track", 11);
    if (h.tracks == 0) broken(w, 12, "no track", 11);
    h.division = high2(next(w, 2));
    if (h.division >= 0x8000) broken(w, 13, "an SMPTE division", 13);
    if (h.division == 0) broken(w, 12, "a division of 0", 13);
    if (!is_broken(w)) next(w, size - 6);
    return h;
}

/* The length of the next track, whose first byte is then due; none at the end of the file. */
static int track(walk *w, int seen, uint32_t *size) {
    while (!is_broken(w) && w->place < w->end) {
        const uint8_t *type = next(w, 4);
        if (is_broken(w)) return 0;
        if (memcmp(type, "MThd", 4) == 0) broken(w, 12, "a second MThd", w->place - 1);
        int is_track = memcmp(type, "MTrk", 4) == 0;
        if (is_track && seen) broken(w, 12, "an MTrk more than the header counts", w->place - 1);
        *size = high4(next(w, 4));
        if (is_track) return 1;
        next(w, *size);
    }
    return 0;
}

/* One event behind its time. */
typedef struct { int is_note, is_tempo, is_end; uint32_t tempo; } event;

static event meta(walk *w, int is_meta) {
    event e = { 0, 0, 0, 0 };
    uint32_t type = is_meta ? next(w, 1)[0] : 0;
    if (type >= 128) broken(w, 12, "a meta type from 80 up", w->place - 1);
    uint32_t size = quantity(w);
    e.is_tempo = is_meta && type == 0x51, e.is_end = is_meta && type == 0x2F;
    if (e.is_tempo && size < 3 && !is_broken(w)) broken(w, 12, "a tempo shorter than 3 bytes", w->place - 1);
    const uint8_t *body = next(w, size);
    if (e.is_tempo && !is_broken(w)) e.tempo = high4(body - 1) & 0xFFFFFF;
    return e;
}

static event behind_time(walk *w, uint32_t *running) {
    event e = { 0, 0, 0, 0 };
    uint32_t status = next(w, 1)[0];
    if (is_broken(w)) return e;
    if (status == 0xFF || status == 0xF0 || status == 0xF7) {
        *running = 0;
        return meta(w, status == 0xFF);
    }
    if (status > 0xF0) broken(w, 12, "a status that no file has", w->place - 1);
    if (status < 128 && *running == 0) broken(w, 12, "no running status", w->place - 1);
    if (status < 128) w->place--;
    else *running = status;
    datum(w);
    if ((*running & 0xE0) != 0xC0) datum(w);
    e.is_note = *running < 0xA0;
    return e;
}

/* The events of a track, with the frame of each note: whole frames, and what is over in parts of which `unit` make
 * one. */
static void events(walk *w, uint32_t rate, uint32_t division) {
    uint64_t unit = (uint64_t)division * 1000000, frames = 0, rest = 0;
    uint32_t running = 0, tempo = 500000;
    while (!is_broken(w)) {
        if (w->place >= w->end) {
            broken(w, 12, "no End of Track", w->end);
            return;
        }
        uint64_t sum = (uint64_t)quantity(w) * tempo;
        event e = behind_time(w, &running);
        if (e.is_end || is_broken(w)) return;
        uint64_t part = sum % unit * rate + rest;
        if (frames <= LAST_FRAME) frames += sum / unit * rate + part / unit, rest = part % unit;
        if (e.is_note && frames > LAST_FRAME) broken(w, 14, "a frame above 2^48", w->place - 1);
        if (e.is_tempo) tempo = e.tempo;
    }
}

/* The events of the next track, and that they end where it does. */
static void track_walked(walk *w, size_t length, uint32_t rate, uint32_t division) {
    uint32_t size = 0;
    if (!track(w, 0, &size)) {
        broken(w, 12, "an MTrk fewer than the header counts", length);
        return;
    }
    if (is_broken(w)) return;
    size_t full = w->place + size;
    if (full < w->end) w->end = full;
    events(w, rate, division);
    if (w->place < w->end) broken(w, 12, "a byte behind End of Track", w->place);
    if (full > length) broken(w, 12, "a byte is missing", length);
    w->end = length;
}

fault song_fault(bytes file, uint32_t rate) {
    walk w = { file.at, 0, file.length, { 0, NULL, 0 } };
    heading h = header(&w);
    uint32_t size = 0;
    /* In format 1 a tempo is that of all tracks: the frames of one aren't known. */
    if (h.format == 1) rate = 0;
    for (uint32_t i = 0; i < h.tracks && !is_broken(&w); i++) track_walked(&w, file.length, rate, h.division);
    track(&w, 1, &size);
    return w.found;
}
