/* A sampler with its memory and its parameters, by the calls of the first engine or of the plain one, which sound the
 * same. */
#include <string.h>
#include "play.h"

#define MOST_SAMPLES ((size_t)1 << 22)

void engine_made(engine *e, size_t channels, int auto_passthru, size_t capacity) {
    vusatica_settings settings = VUSATICA_DEFAULT_SETTINGS;
    if (capacity == 0) capacity = 1;
    if (capacity > MOST_SAMPLES) capacity = MOST_SAMPLES;
    memset(e, 0, sizeof *e);
    e->channels = channels;
    e->samples = channels * capacity;
    e->memory = room(e->samples, sizeof *e->memory);
    vusatica_backing_init(&e->backing);
    if (vusatica_init(&e->sampler, channels, auto_passthru, e->memory, e->samples) != 0)
        fail(REFUSED, "the engine could not be set up");
    if (engine_set(e, &settings) != 0) fail(REFUSED, "the library refuses its own default settings");
}

int engine_set(engine *e, const vusatica_settings *settings) {
    vusatica_params params;
    int number = vusatica_params_make(&params, settings);
    /* Limits are judged by the calls: a frame of no entries changes nothing. */
    if (number == 0) number = vusatica_frame(&e->sampler, NULL, 0, &params, e->memory, e->samples, NULL);
    if (number != 0) return number;
    e->settings = *settings;
    e->params = params;
    return 0;
}

static int ran(engine *e, float *run, size_t entries) {
    vusatica_sampler *s = &e->sampler;
    if (e->plain)
        return vusatica_backed_frames(s, &e->backing, run, entries, &e->params, e->memory, e->samples, NULL);
    return vusatica_frames(s, run, entries, &e->params, e->memory, e->samples, NULL);
}

void engine_run(engine *e, float *run, size_t frames) {
    int number = ran(e, run, frames * e->channels);
    if (number != 0) refuse("a frame", number, "%s", words_of(number));
}

void engine_smooth(engine *e, int on) {
    if (e->plain) vusatica_backed_interpolate(&e->sampler, &e->backing, on);
    else vusatica_interpolate(&e->sampler, on);
}

void engine_choose(engine *e, size_t phrase) {
    if (e->plain) vusatica_backed_choose(&e->sampler, &e->backing, phrase);
    else vusatica_choose(&e->sampler, phrase);
    e->chosen = phrase;
}

void engine_speed(engine *e, uint8_t note, uint8_t channel, float speed) {
    if (e->plain) vusatica_backed_note_speed(&e->sampler, &e->backing, note, channel, speed);
    else vusatica_note_speed(&e->sampler, note, channel, speed);
}

size_t engine_voices(const engine *e) {
    vusatica_voice list[32];
    size_t count = 0;
    vusatica_voices(&e->sampler, 0, &e->params, list, 32, &count);
    return count;
}

uint64_t engine_clock(const engine *e) {
    size_t clock = 0;
    vusatica_frames_processed(&e->sampler, 0, &clock);
    return clock;
}

bytes engine_recording(const engine *e, uint32_t rate) {
    size_t samples = 0;
    bytes file;
    vusatica_data_length(&e->sampler, 0, &samples);
    file.length = 58 + 4 * e->channels * samples;
    file.at = room(file.length, 1);
    int number = vusatica_write_wave(&e->sampler, rate, e->memory, e->samples, file.at, file.length, &file.length);
    if (number != 0) refuse("the recording", number, "%s", words_of(number));
    return file;
}

const uint8_t *recorded(bytes file, size_t *samples) {
    *samples = (file.length - 58) / 4 / low2(file.at + 22);
    return file.at + 58;
}
