/* What a song is played on: a WAVE file, several of them as phrases, or what a listing records. */
#include <math.h>
#include <string.h>
#include "play.h"

/* No file has more samples a channel than this. */
static size_t samples_of(bytes file, form f) {
    return f.channels == 0 || f.bits < 8 ? 0 : file.length / (f.bits / 8) / f.channels;
}

/* Reads a WAVE file into a phrase. */
static uint32_t phrase_read(engine *e, size_t phrase, bytes file, const char *what) {
    uint32_t rate = 0;
    int number = vusatica_choose(&e->sampler, phrase);
    if (number == 0) number = vusatica_read_wave(&e->sampler, file.at, file.length, e->memory, e->samples, &rate);
    if (number == 17) {
        number = wave_turned(&file, what);
        if (number == 0) number = vusatica_read_wave(&e->sampler, file.at, file.length, e->memory, e->samples, &rate);
    }
    if (number != 0) wave_refused(file, what, number);
    e->chosen = phrase;
    return rate;
}

static void engine_for(engine *e, form f, size_t capacity, bytes file, const char *what) {
    wave_judged(file, what);
    if (f.channels != 1 && f.channels != 2) wave_refused(file, what, f.tag == 0 ? 17 : 16);
    engine_made(e, f.channels, 0, capacity);
}

static uint32_t wave_loaded(engine *e, bytes file, const char *what) {
    form f = form_of(file);
    engine_for(e, f, samples_of(file, f), file, what);
    return phrase_read(e, 0, file, what);
}

static uint32_t phrases_loaded(engine *e, const job *j) {
    bytes files[8];
    char what[32];
    size_t capacity = 0;
    uint32_t first = 0;
    for (size_t i = 0; i < j->phrase_count; i++) {
        files[i] = bytes_of(j->phrases[i], "a phrase");
        capacity += samples_of(files[i], form_of(files[i]));
    }
    engine_for(e, form_of(files[0]), capacity, files[0], "phrase 0");
    for (size_t i = 0; i < j->phrase_count; i++) {
        sprintf(what, "phrase %zu", i);
        uint32_t rate = phrase_read(e, i, files[i], what);
        if (i == 0) first = rate;
        if (rate != first)
            say("phrase %zu has the rate %u, where phrase 0 has %u: it is played at that", i, rate, first);
    }
    return first;
}

static uint64_t samples_in(span s, double rate) {
    double n = s.seconds ? floor(s.value * rate + 0.5) : s.value;
    return n < 1e15 ? (uint64_t)n : (uint64_t)1e15;
}

/* Where nothing is asked, a listing's own settings stand; of a WAVE file there are none, and these are. */
static vusatica_settings settings_of(const engine *e, const job *j, int is_listing, uint32_t rate) {
    vusatica_settings s = e->settings;
    span attack = { 1, 0, 0 }, decay = { 1, 1, 0.05 };
    if (!is_listing) {
        s.sample_rate = (float)rate;
        s.note_off = VUSATICA_DECAY;
        s.auto_passthru = 0;
        s.attack_samples = samples_in(attack, rate);
        s.decay_samples = samples_in(decay, rate);
    }
    if (j->attack.given) s.attack_samples = samples_in(j->attack, rate);
    if (j->decay.given) s.decay_samples = samples_in(j->decay, rate);
    if (j->loop >= 0) s.loop_mode = (uint8_t)j->loop;
    if (j->note_off >= 0) s.note_off = (uint8_t)j->note_off;
    if (j->volume_given) s.volume = j->volume;
    return s;
}

static int is_listing_loaded(engine *e, const job *j, uint32_t *rate) {
    if (j->phrase_count > 0) {
        *rate = phrases_loaded(e, j);
        return 0;
    }
    bytes file = bytes_of(j->take, "the take");
    if (kind_of(file) == SONG) refuse("the take", 17, "it is a song, where a WAVE file or a listing is asked for");
    if (kind_of(file) == WAVE) *rate = wave_loaded(e, file, "the take");
    else listing_played(e, file);
    return kind_of(file) == LISTING;
}

uint32_t take_loaded(engine *e, const job *j) {
    uint32_t own = 0;
    int is_listing = is_listing_loaded(e, j, &own);
    uint32_t rate = j->rate != NULL ? rate_of(j->rate) : is_listing ? 44100 : own;
    if (!is_listing && rate != own && rate > 0)
        say("the take is of %u samples a second, and is played at %u: at %g times its pitch", own, rate,
            (double)rate / own);
    vusatica_settings s = settings_of(e, j, is_listing, rate);
    int number = engine_set(e, &s);
    if (number != 0) refuse("the take's setting", number, "%s", words_of(number));
    e->plain = j->plain;
    if (j->smooth) engine_smooth(e, 1);
    return rate;
}

void file_loaded(engine *e, const char *path) {
    bytes file = bytes_of(path, "the file");
    if (kind_of(file) == SONG) refuse("the file", 17, "it is a song, where a listing or a WAVE file is asked for");
    if (kind_of(file) == WAVE) wave_loaded(e, file, "the file");
    else listing_played(e, file);
}
