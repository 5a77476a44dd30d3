/* Plays an event listing (docs/LISTING.md) without a word, by the calls that its records stand for. A bad header or
 * record ends the program, with its line and its reason, which are those of `events`. */
#include <stdarg.h>
#include <stdlib.h>
#include <string.h>
#include "play.h"

/* As many samples as `events` has room for. Here there is room for all that a listing records. */
#define LISTING_ROOM 4096

static void bad(size_t at, const char *format, ...) {
    va_list values;
    va_start(values, format);
    printf("X %zu\n", at);
    out_shown();
    fprintf(stderr, "play: the listing is bad at byte %zu: ", at);
    vfprintf(stderr, format, values);
    fputc('\n', stderr);
    va_end(values);
    exit(REFUSED);
}

static void header_judged(bytes file) {
    if (file.length == 0) bad(0, "the input is empty");
    if (file.length < 3) bad(0, "the header is cut short: it has 3 bytes");
    if (file.at[0] != 1 && file.at[0] != 2) bad(0, "version %d, where there are 1 and 2", file.at[0]);
    if (file.at[1] != 1 && file.at[1] != 2) bad(0, "%d channels, where there are 1 or 2", file.at[1]);
    if (file.at[2] > 1) bad(0, "auto pass-through %d, where 0 is off and 1 on", file.at[2]);
}

static size_t length_of(int record, size_t channels) {
    static const uint8_t lengths[] = { 45, 11, 3, 7, 1, 1, 5, 1 };
    return record == 6 && channels == 2 ? 9 : lengths[record];
}

/* r is a record's kind, at the byte `at` of its length. */
static void settings_judged(const uint8_t *r, size_t at, int last) {
    if (r[9] > 1) bad(at, "pass-through %d, where 0 is off and 1 on", r[9]);
    if (r[10] > 2) bad(at, "loop mode %d, where there are 0 to 2", r[10]);
    if (r[11] > last) bad(at, "length kind %d, where there are 0 to %d", r[11], last);
    if (r[24] > 2) bad(at, "note-off mode %d, where there are 0 to 2", r[24]);
}

static size_t record_judged(bytes file, size_t at) {
    size_t left = file.length - at;
    if (left < 2) bad(at, "the record is cut short: its length has 2 bytes");
    size_t size = high2(file.at + at), channels = file.at[1];
    const uint8_t *r = file.at + at + 2;
    if (size == 0) bad(at, "a length of 0, where each record has a kind");
    if (size > 45) bad(at, "a length of %zu, where no kind has more than 45", size);
    if (left - 2 < size) bad(at, "the record is cut short: %zu of its %zu bytes are there", left - 2, size);
    if (r[0] > 7) bad(at, "unknown kind %d, where there are 0 to 7", r[0]);
    size_t asked = length_of(r[0], channels);
    if (size != asked && r[0] == 6)
        bad(at, "a length of %zu, where kind 6 has 5 with one channel and 9 with two: here %zu", size, asked);
    if (size != asked) bad(at, "a length of %zu, where kind %d has %zu", size, r[0], asked);
    if (r[0] == 0) settings_judged(r, at, file.at[0] == 2 ? 5 : 4);
    return size;
}

static float real(const uint8_t *b) {
    uint32_t bits = high4(b);
    float value;
    memcpy(&value, &bits, sizeof value);
    return value;
}

static vusatica_settings settings_of(const uint8_t *r) {
    vusatica_settings s = VUSATICA_DEFAULT_SETTINGS;
    s.attack_samples = high4(r + 1), s.decay_samples = high4(r + 5);
    s.auto_passthru = r[9], s.loop_mode = r[10], s.length_kind = r[11];
    s.length = real(r + 12), s.speed = real(r + 16), s.reverse_speed = real(r + 20);
    s.note_off = r[24], s.volume = real(r + 25), s.sample_rate = real(r + 29), s.tempo = real(r + 33);
    s.time_sig_numerator = high4(r + 37), s.time_sig_denominator = high4(r + 41);
    return s;
}

/* A refused call changes nothing, and the listing goes on. */
static void record_played(engine *e, const uint8_t *r) {
    vusatica_settings settings;
    float frame[2];
    switch (r[0]) {
    case 0:
        settings = settings_of(r);
        engine_set(e, &settings);
        break;
    case 1: vusatica_start(&e->sampler, real(r + 3), r[1], r[2], real(r + 7), &e->params); break;
    case 2: vusatica_stop(&e->sampler, r[1], r[2], &e->params); break;
    case 3: vusatica_note_speed(&e->sampler, r[1], r[2], real(r + 3)); break;
    case 4: vusatica_record(&e->sampler); break;
    case 5: vusatica_record_stop(&e->sampler); break;
    case 6:
        for (size_t j = 0; j < e->channels; j++) frame[j] = real(r + 1 + 4 * j);
        vusatica_frame(&e->sampler, frame, e->channels, &e->params, e->memory, e->samples, NULL);
        break;
    default: vusatica_reset(&e->sampler);
    }
}

/* How many frames there are, up to a bad record. */
static size_t frames_of(bytes file) {
    size_t frames = 0, at = 3;
    while (at + 3 <= file.length) {
        frames += file.at[at + 2] == 6;
        at += 2 + (size_t)high2(file.at + at);
    }
    return frames;
}

void listing_played(engine *e, bytes file) {
    size_t samples = 0;
    header_judged(file);
    size_t frames = frames_of(file);
    engine_made(e, file.at[1], file.at[2], frames < LISTING_ROOM ? LISTING_ROOM : frames);
    for (size_t at = 3; at < file.length;) {
        size_t size = record_judged(file, at);
        record_played(e, file.at + at + 2);
        at += 2 + size;
    }
    vusatica_data_length(&e->sampler, 0, &samples);
    if (samples > LISTING_ROOM)
        say("the listing records %zu samples; played alone, it has room for %d", samples, LISTING_ROOM);
}
