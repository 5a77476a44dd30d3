/* Plays an event listing (docs/LISTING.md), bytes from standard input, and prints the lines of ./play.
 *
 *     listing [FRAMES]          each frame by a call, or up to FRAMES frames that stand in a row by one
 *     listing plain [FRAMES]    the same by the plain engine, which prints the same
 *
 * A run doesn't say how many voices play after each of its frames: a copy of record and memory is played frame by
 * frame for that, and its outputs aren't printed. */
#include <stdio.h>
#include <stdlib.h>
#include <string.h>
#include "vusatica.h"

#define SAMPLES 4096 /* a channel */
#define MOST 1024    /* frames in a run */

static vusatica_sampler s, copy;
static vusatica_backing k;
static int plain;                  /* whether the plain engine's calls are made */
static uint32_t memory[2 * SAMPLES], copied[2 * SAMPLES];
static vusatica_settings settings = VUSATICA_DEFAULT_SETTINGS;
static vusatica_params params;
static size_t channels, room;      /* room: the samples of the memory */
static float inputs[2 * MOST];     /* frames that wait to be played */
static size_t waiting;
static unsigned char input[1 << 24];

static void done(const char *what, int number) {
    if (number == VUSATICA_DONE) return;
    fprintf(stderr, "listing: %s: refused, %d\n", what, number);
    exit(1);
}

static uint32_t word(const unsigned char *b) {
    return (uint32_t)b[0] << 24 | (uint32_t)b[1] << 16 | (uint32_t)b[2] << 8 | b[3];
}

static float real(const unsigned char *b) {
    uint32_t bits = word(b);
    float x;
    memcpy(&x, &bits, sizeof x);
    return x;
}

/* The line of a frame, whose outputs are given and after which `r` is the record. */
static void line(size_t time, const float *outputs, const vusatica_sampler *r) {
    vusatica_voice list[32];
    size_t voices, j;
    printf("F %lu", (unsigned long)time);
    for (j = 0; j < channels; j++) {
        uint32_t bits;
        memcpy(&bits, &outputs[j], sizeof bits);
        if (outputs[j] != outputs[j]) printf(" NAN");
        else printf(" %08lX", (unsigned long)bits);
    }
    done("voices", vusatica_voices(r, 0, &params, list, 32, &voices));
    printf(" %lu\n", (unsigned long)voices);
}

/* A frame of the sampler, and of its copy, which the first engine plays. */
static int frame_of(vusatica_sampler *r, float *frame, uint32_t *of) {
    if (plain && r == &s) return vusatica_backed_frame(r, &k, frame, channels, &params, of, room, NULL);
    return vusatica_frame(r, frame, channels, &params, of, room, NULL);
}

static void one_frame(vusatica_sampler *r, float *frame, uint32_t *of, const float *printed) {
    size_t time;
    done("time", vusatica_frames_processed(r, 0, &time));
    done("frame", frame_of(r, frame, of));
    line(time, printed, r);
}

static int frames_of(float *run, size_t entries, size_t *frames) {
    if (plain) return vusatica_backed_frames(&s, &k, run, entries, &params, memory, room, frames);
    return vusatica_frames(&s, run, entries, &params, memory, room, frames);
}

static void play_waiting(int by_runs) {
    static float run[2 * MOST];
    size_t i, frames;
    if (waiting > 0 && by_runs) {
        copy = s;
        memcpy(copied, memory, sizeof memory);
        memcpy(run, inputs, sizeof run);
        done("run", frames_of(run, waiting * channels, &frames));
        if (frames != waiting) done("a run's frames", -1);
    }
    for (i = 0; i < waiting; i++) {
        float *frame = inputs + i * channels;
        if (by_runs) one_frame(&copy, frame, copied, run + i * channels);
        else one_frame(&s, frame, memory, frame);
    }
    waiting = 0;
}

/* Parameters that are beyond their limits leave the old ones. A frame of no entries judges them, and changes nothing. */
static int new_params(const unsigned char *r) {
    vusatica_params next;
    int number;
    settings.attack_samples = word(r + 1);
    settings.decay_samples = word(r + 5);
    settings.auto_passthru = r[9];
    settings.loop_mode = r[10];
    settings.length_kind = r[11];
    settings.length = real(r + 12);
    settings.speed = real(r + 16);
    settings.reverse_speed = real(r + 20);
    settings.note_off = r[24];
    settings.volume = real(r + 25);
    settings.sample_rate = real(r + 29);
    settings.tempo = real(r + 33);
    settings.time_sig_numerator = word(r + 37);
    settings.time_sig_denominator = word(r + 41);
    done("parameters", vusatica_params_make(&next, &settings));
    number = vusatica_frame(&s, NULL, 0, &next, memory, room, NULL);
    if (number == VUSATICA_DONE) params = next;
    return number;
}

static int call(const unsigned char *r) {
    switch (r[0]) {
    case 0: return new_params(r);
    case 1: return vusatica_start(&s, real(r + 3), r[1], r[2], real(r + 7), &params);
    case 2: return vusatica_stop(&s, r[1], r[2], &params);
    case 3: return vusatica_note_speed(&s, r[1], r[2], real(r + 3));
    case 4: return vusatica_record(&s);
    case 5: return vusatica_record_stop(&s);
    default: return vusatica_reset(&s);
    }
}

static int backed_call(const unsigned char *r) {
    switch (r[0]) {
    case 0: return new_params(r);
    case 1: return vusatica_backed_start(&s, &k, real(r + 3), r[1], r[2], real(r + 7), &params);
    case 2: return vusatica_backed_stop(&s, &k, r[1], r[2], &params);
    case 3: return vusatica_backed_note_speed(&s, &k, r[1], r[2], real(r + 3));
    case 4: return vusatica_backed_record(&s, &k);
    case 5: return vusatica_backed_record_stop(&s, &k);
    default: return vusatica_backed_reset(&s, &k);
    }
}

/* Whether a record of so many bytes, its kind's among them, is one that there is. */
static int good(const unsigned char *r, size_t size) {
    size_t lengths[] = { 45, 11, 3, 7, 1, 1, 0, 1 };
    lengths[6] = 1 + 4 * channels;
    if (size == 0 || r[0] > 7 || size != lengths[r[0]]) return 0;
    return r[0] != 0 || (r[9] <= 1 && r[10] <= 2 && r[11] <= (input[0] == 2 ? 5 : 4) && r[24] <= 2);
}

int main(int count, char **words) {
    size_t length = fread(input, 1, sizeof input, stdin), run, at = 3;
    plain = count > 1 && strcmp(words[1], "plain") == 0;
    run = count > 1 + plain ? strtoul(words[1 + plain], NULL, 10) : 0;
    if (run > MOST) run = MOST;
    if (length < 3 || input[0] < 1 || input[0] > 2 || input[1] < 1 || input[1] > 2 || input[2] > 1) {
        printf("X 0\n");
        return 0;
    }
    channels = input[1];
    room = SAMPLES * channels;
    done("parameters", vusatica_params_make(&params, &settings));
    done("set-up", vusatica_init(&s, channels, input[2], memory, room));
    vusatica_backing_init(&k);
    while (at < length) {
        const unsigned char *r = input + at + 2;
        size_t size = length - at < 2 ? 0 : (size_t)input[at] << 8 | input[at + 1], j;
        if (size == 0 || length - at - 2 < size || !good(r, size)) {
            play_waiting(run > 0);
            printf("X %lu\n", (unsigned long)at);
            return 0;
        }
        at += 2 + size;
        if (r[0] == 6) {
            for (j = 0; j < channels; j++) inputs[waiting * channels + j] = real(r + 1 + 4 * j);
            waiting++;
            if (waiting < run) continue;
        }
        play_waiting(run > 0);
        if (r[0] != 6) printf("E %d %d\n", r[0], plain ? backed_call(r) : call(r));
    }
    play_waiting(run > 0);
    return fflush(stdout) == 0 ? 0 : 1;
}
