/* The plain engine's calls, vusatica_backed_*, each beside the call that it answers as. Four samplers are led through
 * the same calls: one by the first engine, one by the plain one, one by the plain one with any bytes in its backing
 * before each call, and one by both engines as it falls. After each call their numbers, answers, outputs and memories
 * are the same, byte for byte, and so is all that can be asked of their records: bytes of these that stand for nothing
 * may differ. The calls bring out each number (all but 6, which takes 2^48 frames); then COUNT are drawn from SEED. Its
 * last line is `backed: N tries, M failed`.
 *
 *     backed [SEED [COUNT]] */
#include <stdio.h>
#include <stdlib.h>
#include <string.h>
#include "vusatica.h"

#define SAMPLES 256 /* a channel */
#define ENTRIES 64  /* of a run, at most */
#define ANY (-1)

enum call { START, STOP, SPEED, RECORD, RECORD_STOP, RESET, INTERPOLATE, FRAME, FRAMES, SAMPLE, CHOOSE, DELETE, GATHER,
            READ };
static const char *const names[] = { "start", "stop", "note_speed", "record", "record_stop", "reset", "interpolate",
                                     "frame", "frames", "sample", "choose", "delete", "gather", "read_wave" };

/* A call, with what it is lent but for sampler and memory. */
typedef struct {
    enum call call;
    float real;     /* a position, a speed or an input */
    uint8_t note, channel;
    size_t size;    /* entries, a channel, a phrase, a file's length, or a yes */
    const vusatica_params *params;
    size_t samples; /* of the memory */
} order;

typedef struct { int number, moved; size_t frames; uint32_t rate; float output, run[ENTRIES]; } answer;

enum way { FIRST, PLAIN, FORGED, MIXED, WAYS };
static const char *const ways[] = { "first", "plain", "forged", "mixed" };

static struct led { vusatica_sampler s; vusatica_backing k; uint32_t memory[2 * SAMPLES]; } led[WAYS];
enum kind { LOOP, SHORT, RAMPS, ONCE, PING_PONG, HALF, BETWEEN, BEYOND, KINDS };
static vusatica_params params[KINDS];
static uint8_t file[58 + 8 * SAMPLES];
static size_t channels, length; /* length: of the file */
static int tries, failed;
static long stepped; /* calls that play, and move a position */
static uint64_t state = 1;

static uint32_t random_word(void) {
    state = state * 6364136223846793005u + 1442695040888963407u;
    return (uint32_t)(state >> 33);
}

static void by_first(struct led *x, const order *o, answer *a) {
    vusatica_sampler *s = &x->s;
    switch (o->call) {
    case START: a->number = vusatica_start(s, o->real, o->note, o->channel, 0.5f, o->params); break;
    case STOP: a->number = vusatica_stop(s, o->note, o->channel, o->params); break;
    case SPEED: a->number = vusatica_note_speed(s, o->note, o->channel, o->real); break;
    case RECORD: a->number = vusatica_record(s); break;
    case RECORD_STOP: a->number = vusatica_record_stop(s); break;
    case RESET: a->number = vusatica_reset(s); break;
    case INTERPOLATE: a->number = vusatica_interpolate(s, (int)o->size); break;
    case FRAME:
        a->number = vusatica_frame(s, a->run, o->size, o->params, x->memory, o->samples, &a->moved);
        break;
    case FRAMES:
        a->number = vusatica_frames(s, a->run, o->size, o->params, x->memory, o->samples, &a->frames);
        break;
    case SAMPLE:
        a->number = vusatica_sample(s, o->size, o->real, o->params, x->memory, o->samples, &a->output, &a->moved);
        break;
    case CHOOSE: a->number = vusatica_choose(s, o->size); break;
    case DELETE: a->number = vusatica_delete(s, o->size); break;
    case GATHER: a->number = vusatica_gather(s, x->memory, o->samples); break;
    case READ: a->number = vusatica_read_wave(s, file, o->size, x->memory, o->samples, &a->rate); break;
    }
}

static void by_plain(struct led *x, const order *o, answer *a) {
    vusatica_sampler *s = &x->s;
    vusatica_backing *k = &x->k;
    switch (o->call) {
    case START: a->number = vusatica_backed_start(s, k, o->real, o->note, o->channel, 0.5f, o->params); break;
    case STOP: a->number = vusatica_backed_stop(s, k, o->note, o->channel, o->params); break;
    case SPEED: a->number = vusatica_backed_note_speed(s, k, o->note, o->channel, o->real); break;
    case RECORD: a->number = vusatica_backed_record(s, k); break;
    case RECORD_STOP: a->number = vusatica_backed_record_stop(s, k); break;
    case RESET: a->number = vusatica_backed_reset(s, k); break;
    case INTERPOLATE: a->number = vusatica_backed_interpolate(s, k, (int)o->size); break;
    case FRAME:
        a->number = vusatica_backed_frame(s, k, a->run, o->size, o->params, x->memory, o->samples, &a->moved);
        break;
    case FRAMES:
        a->number = vusatica_backed_frames(s, k, a->run, o->size, o->params, x->memory, o->samples, &a->frames);
        break;
    case SAMPLE:
        a->number = vusatica_backed_sample(s, k, o->size, o->real, o->params, x->memory, o->samples, &a->output,
                                           &a->moved);
        break;
    case CHOOSE: a->number = vusatica_backed_choose(s, k, o->size); break;
    case DELETE: a->number = vusatica_backed_delete(s, k, o->size); break;
    case GATHER: a->number = vusatica_backed_gather(s, k, x->memory, o->samples); break;
    case READ: a->number = vusatica_backed_read_wave(s, k, file, o->size, x->memory, o->samples, &a->rate); break;
    }
}

static void bad(const order *o, enum way w, const char *what) {
    failed++;
    printf("backed: try %d, %s, %s: another %s\n", tries, names[o->call], ways[w], what);
}

/* All that a channel is asked. */
typedef struct {
    int numbers[7], is[2];
    size_t counts[6];
    char text[64];
    uint64_t notes[32];
    vusatica_voice voices[32];
} questions;

static void ask(questions *q, const vusatica_sampler *s, size_t j) {
    memset(q, 0, sizeof *q);
    q->numbers[0] = vusatica_frames_processed(s, j, &q->counts[0]);
    q->numbers[1] = vusatica_data_length(s, j, &q->counts[1]);
    q->numbers[2] = vusatica_is_recording(s, j, &q->is[0]);
    q->numbers[3] = vusatica_last_recorded_offset(s, j, &q->counts[2], &q->is[1]);
    q->numbers[4] = vusatica_error_text(s, j, q->text, sizeof q->text, &q->counts[3]);
    q->numbers[5] = vusatica_active_notes(s, j, q->notes, 32, &q->counts[4]);
    q->numbers[6] = vusatica_voices(s, j, &params[LOOP], q->voices, 32, &q->counts[5]);
}

static int is_same(const vusatica_sampler *s, const vusatica_sampler *t) {
    questions q, r;
    size_t j;
    for (j = 0; j < 2; j++) {
        ask(&q, s, j);
        ask(&r, t, j);
        if (memcmp(&q, &r, sizeof q) != 0) return 0;
    }
    return 1;
}

static void compared(const order *o, enum way w, const answer *a, const answer *b) {
    if (a->number != b->number) bad(o, w, "number");
    if (a->moved != b->moved || a->frames != b->frames || a->rate != b->rate) bad(o, w, "answer");
    if (memcmp(&a->output, &b->output, sizeof a->output) != 0) bad(o, w, "output");
    if (memcmp(a->run, b->run, sizeof a->run) != 0) bad(o, w, "frame");
    if (!is_same(&led[FIRST].s, &led[w].s)) bad(o, w, "record");
    if (memcmp(led[FIRST].memory, led[w].memory, sizeof led[w].memory) != 0) bad(o, w, "memory");
}

/* The call on each sampler, which answers this number. */
static void tried(int number, order o) {
    static answer answers[WAYS];
    static float inputs[ENTRIES];
    vusatica_backing before = led[PLAIN].k;
    size_t i;
    int w;
    tries++;
    memset(answers, 0, sizeof answers);
    for (i = 0; i < ENTRIES; i++) inputs[i] = (float)(random_word() % 255) / 128 - 1;
    for (i = 0; i < sizeof led[FORGED].k; i++) ((unsigned char *)&led[FORGED].k)[i] = (unsigned char)random_word();
    for (w = 0; w < WAYS; w++) {
        memcpy(answers[w].run, inputs, sizeof inputs);
        if (w == FIRST || (w == MIXED && random_word() % 2 == 0)) by_first(&led[w], &o, &answers[w]);
        else by_plain(&led[w], &o, &answers[w]);
        if (w != FIRST) compared(&o, (enum way)w, &answers[FIRST], &answers[w]);
    }
    if (number != ANY && answers[FIRST].number != number) bad(&o, FIRST, "number than the one that is expected");
    if (o.call == FRAME || o.call == FRAMES) stepped += memcmp(&before, &led[PLAIN].k, sizeof before) != 0;
}

/* A call of these arguments, with the whole memory and parameters of a loop. */
static order of(enum call call, float real, uint8_t note, uint8_t channel, size_t size) {
    order o;
    memset(&o, 0, sizeof o);
    o.call = call, o.real = real, o.note = note, o.channel = channel, o.size = size;
    o.params = &params[LOOP];
    o.samples = channels * SAMPLES;
    return o;
}
static void start(int number, float position, uint8_t note, uint8_t channel) {
    tried(number, of(START, position, note, channel, 0));
}
static void asked(int number, enum call call, size_t size) { tried(number, of(call, 0.5f, 60, 0, size)); }

static void with_params(int number, enum call call, size_t size, enum kind kind) {
    order o = of(call, 0.0f, 60, 0, size);
    o.params = &params[kind];
    tried(number, o);
}
static void with_memory(int number, enum call call, size_t size, size_t samples) {
    order o = of(call, 0.0f, 60, 0, size);
    o.samples = samples;
    tried(number, o);
}

static void set_up(size_t count) {
    int w;
    channels = count;
    memset(led, 0, sizeof led);
    for (w = 0; w < WAYS; w++) {
        if (vusatica_init(&led[w].s, count, 0, led[w].memory, count * SAMPLES) != 0) exit(2);
        vusatica_backing_init(&led[w].k);
    }
}

/* So many runs of 31 frames are recorded. */
static void take(int runs) {
    asked(0, RECORD, 0);
    while (runs-- > 0) asked(0, FRAMES, 31 * channels);
    asked(0, RECORD_STOP, 0);
}

/* Under the first four a voice is plain. */
static void make_params(void) {
    int kind;
    for (kind = 0; kind < KINDS; kind++) {
        vusatica_settings t = VUSATICA_DEFAULT_SETTINGS;
        t.attack_samples = t.decay_samples = kind == RAMPS ? 10 : kind == BEYOND ? 16777217 : 0;
        if (kind == SHORT || kind == BETWEEN) t.length_kind = VUSATICA_SAMPLES, t.length = kind == SHORT ? 7.0f : 7.5f;
        if (kind == ONCE) t.loop_mode = VUSATICA_PLAY_ONCE;
        if (kind == PING_PONG) t.loop_mode = VUSATICA_PING_PONG;
        if (kind == HALF) t.speed = 0.5f;
        if (vusatica_params_make(&params[kind], &t) != 0) exit(2);
    }
}

/* Records that no set-up made. */
static void broken(void) {
    int call;
    memset(led, 0, sizeof led);
    channels = 1;
    for (call = START; call <= READ; call++) asked(9, (enum call)call, 1);
}

static void keys(void) {
    uint8_t i;
    start(2, 0.0f, 60, 16);
    start(3, 1.5f, 60, 0);
    with_params(4, START, 0, BEYOND);
    tried(2, of(STOP, 0.0f, 60, 16, 0));
    with_params(4, STOP, 0, BEYOND);
    tried(2, of(SPEED, 1.0f, 60, 16, 0));
    start(0, 0.0f, 60, 0);
    asked(0, FRAMES, 8 * channels);
    tried(0, of(SPEED, 0.5f, 60, 0, 0));
    asked(0, FRAMES, 8 * channels);
    tried(0, of(SPEED, 1.0f, 60, 0, 0));
    asked(0, INTERPOLATE, 256);
    asked(0, FRAMES, 8 * channels);
    asked(0, INTERPOLATE, 0);
    tried(0, of(STOP, 0.0f, 60, 0, 0));
    asked(0, FRAME, channels);
    for (i = 0; i < 32; i++) start(0, 0.0f, i, 0);
    start(5, 0.0f, 60, 0);
    with_params(0, FRAMES, 8 * channels, SHORT);
}

static void frames(void) {
    size_t all = channels * SAMPLES;
    asked(0, FRAME, channels);
    asked(0, FRAME, 0);
    asked(1, FRAME, channels + 1);
    with_params(4, FRAME, channels, BEYOND);
    with_memory(9, FRAME, channels, all - 1);
    asked(0, FRAMES, 0);
    asked(channels == 2 ? 10 : 0, FRAMES, 3);
    with_params(4, FRAMES, channels, BEYOND);
    with_memory(9, FRAMES, channels, 0);
    asked(0, SAMPLE, channels - 1);
    asked(1, SAMPLE, channels);
    with_params(4, SAMPLE, 0, BEYOND);
    with_memory(9, SAMPLE, 0, all - 1);
}

static void phrases(void) {
    asked(20, DELETE, 0); /* its voices play */
    asked(19, CHOOSE, 8);
    asked(19, CHOOSE, 256);
    asked(19, DELETE, 8);
    asked(0, CHOOSE, 1);
    take(1);
    asked(0, CHOOSE, 0);
    asked(0, DELETE, 1);
    asked(0, GATHER, 0);
    with_memory(9, GATHER, 0, channels * SAMPLES - 1);
    asked(0, RECORD, 0);
    asked(21, CHOOSE, 2);
    asked(21, GATHER, 0);
    asked(15, READ, length);
    asked(0, RECORD_STOP, 0);
}

static void waves(void) {
    set_up(channels);
    asked(0, READ, length);
    start(0, 0.0f, 60, 0);
    asked(0, FRAMES, 31 * channels);
    asked(17, READ, length - 1);
    asked(17, READ, 0);
    with_memory(9, READ, length, channels * SAMPLES - 1);
    asked(0, CHOOSE, 1);
    asked(18, READ, length);
    asked(0, RESET, 0);
    set_up(3 - channels);
    asked(16, READ, length);
}

/* Answers that nobody wants. */
static void unwanted(void) {
    struct led *x = &led[PLAIN];
    float frame[2] = { 0, 0 };
    set_up(1);
    tries += 4;
    failed += vusatica_backed_read_wave(&x->s, &x->k, NULL, 0, x->memory, SAMPLES, NULL) != 17;
    failed += vusatica_backed_frame(&x->s, &x->k, frame, 1, &params[LOOP], x->memory, SAMPLES, NULL) != 0;
    failed += vusatica_backed_frames(&x->s, &x->k, frame, 2, &params[LOOP], x->memory, SAMPLES, NULL) != 0;
    failed += vusatica_backed_sample(&x->s, &x->k, 0, 0.0f, &params[LOOP], x->memory, SAMPLES, NULL, NULL) != 0;
}

static void each_number(size_t count) {
    set_up(count);
    take(8);
    if (vusatica_write_wave(&led[FIRST].s, 48000, led[FIRST].memory, count * SAMPLES, file, sizeof file, &length) != 0)
        exit(2);
    keys();
    frames();
    phrases();
    channels = count;
    waves();
}

/* Any call, most often one that starts, stops or plays, mostly good ones. */
static order drawn(void) {
    static const float reals[] = { 0.0f, 0.0f, 0.25f, 0.5f, 1.0f, 0.3f, 2.0f, -1.0f };
    static const enum call often[] = { FRAME, FRAMES, FRAMES, START, START, STOP };
    static enum kind kind;
    uint32_t r = random_word() % 3;
    enum call call = r > 0 ? often[random_word() % 6] : (enum call)(random_word() % (READ + 1));
    order o = of(call == RESET && random_word() % 8 > 0 ? RECORD : call, reals[random_word() % 8],
                 (uint8_t)(random_word() % 40), random_word() % 20 == 0 ? 16 : 0, 0);
    size_t is_odd = random_word() % 20 == 0;
    switch (o.call) {
    case FRAME: o.size = channels + is_odd; break;
    case FRAMES: o.size = random_word() % 31 * channels + is_odd; break;
    case SAMPLE: o.size = random_word() % 2; break;
    case CHOOSE: case DELETE: o.size = is_odd ? 8 : random_word() % 3; break;
    case READ: o.size = length - is_odd; break;
    default: o.size = random_word() % 4 == 0;
    }
    if (random_word() % 30 == 0) kind = (enum kind)(random_word() % (random_word() % 2 > 0 ? PING_PONG : KINDS));
    o.params = &params[kind];
    if (random_word() % 50 == 0) o.samples--;
    return o;
}

int main(int words, char **word) {
    long count = words > 2 ? atol(word[2]) : 20000, i;
    if (words > 1) state = strtoull(word[1], NULL, 10);
    make_params();
    broken();
    each_number(2);
    each_number(1);
    unwanted();
    for (i = 0; i < count; i++) {
        if (i % 1000 == 0) set_up(1 + (size_t)(i / 1000 % 2)), take(4);
        tried(ANY, drawn());
    }
    if (stepped == 0) failed++, printf("backed: no position was ever moved\n");
    printf("backed: positions moved in %ld calls\n", stepped);
    printf("backed: %d tries, %d failed\n", tries, failed);
    return failed != 0;
}
