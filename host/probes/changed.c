/* Records that C changed, which it promises not to: a good record with one byte changed, COUNT times, from SEED on,
 * each fourth time a byte of the parameters too, and all bytes of the record for a tenth as many. A call on such a
 * record answers a number, or the program is ended by a signal: that is counted. Then the same calls by the plain
 * engine, with as much of its backing changed: they sound the same. Record, backing, memory and frame end where a page
 * begins that nothing may touch, so that a step beyond them is seen. A refused call leaves what it was lent.
 *
 *     changed SEED COUNT */
#define _DEFAULT_SOURCE
#include <setjmp.h>
#include <signal.h>
#include <stdio.h>
#include <stdlib.h>
#include <string.h>
#include <sys/mman.h>
#include <unistd.h>
#include "vusatica.h"

#define SAMPLES 8192

static vusatica_sampler good, changed, *s, *kept;
static vusatica_backing good_backing, kept_backing, *k;
static uint32_t good_memory[SAMPLES], *memory;
static float *frame;
static vusatica_params good_params, params;
static sigjmp_buf back;
static uint64_t state;

static void caught(int signal) { siglongjmp(back, signal); }

static uint32_t random_word(void) {
    state = state * 6364136223846793005u + 1442695040888963407u;
    return (uint32_t)(state >> 33);
}

/* So many bytes that end where a closed page begins. */
static void *ending(size_t bytes) {
    size_t page = (size_t)sysconf(_SC_PAGESIZE), pages = (bytes + page - 1) / page;
    char *at = mmap(NULL, (pages + 2) * page, PROT_READ | PROT_WRITE, MAP_PRIVATE | MAP_ANONYMOUS, -1, 0);
    if (at == MAP_FAILED || mprotect(at, page, PROT_NONE) != 0) exit(2);
    if (mprotect(at + (pages + 1) * page, page, PROT_NONE) != 0) exit(2);
    return at + (pages + 1) * page - bytes;
}

static void make_good(void) {
    int i;
    vusatica_settings settings = VUSATICA_DEFAULT_SETTINGS;
    if (vusatica_params_make(&params, &settings) != 0 || vusatica_init(&good, 2, 0, memory, SAMPLES) != 0) exit(2);
    vusatica_backing_init(&good_backing);
    if (vusatica_record(&good) != 0) exit(2);
    for (i = 0; i < 100; i++) {
        frame[0] = 0.5f;
        frame[1] = 0.25f;
        if (vusatica_frame(&good, frame, 2, &params, memory, SAMPLES, NULL) != 0) exit(2);
    }
    if (vusatica_record_stop(&good) != 0) exit(2);
    for (i = 0; i < 20; i++)
        if (vusatica_backed_start(&good, &good_backing, 0.1f, (uint8_t)i, 0, 0.5f, &params) != 0) exit(2);
    if (vusatica_backed_frame(&good, &good_backing, frame, 2, &params, memory, SAMPLES, NULL) != 0) exit(2);
    memcpy(good_memory, memory, sizeof good_memory);
}

/* The number of a frame, and how it and a run of three sound. */
typedef struct { int number; float frame[2], run[6]; } heard;

static int is_same(float x, float y) { return memcmp(&x, &y, sizeof x) == 0 || (x != x && y != y); }

static int is_heard_alike(const heard *h, const heard *g) {
    int i, alike = h->number == g->number;
    for (i = 0; i < 2; i++) alike = alike && is_same(h->frame[i], g->frame[i]);
    for (i = 0; i < 6; i++) alike = alike && is_same(h->run[i], g->run[i]);
    return alike;
}

static heard unheard(void) {
    heard h = { 0, { 0.1f, 0.2f }, { 0 } };
    memcpy(frame, h.frame, sizeof h.frame);
    *kept = *s;
    kept_backing = *k;
    return h;
}

/* Whether a refused frame changed something. */
static int is_wrong(heard *h) {
    int is_left = memcmp(frame, h->frame, sizeof h->frame) == 0 && memcmp(s, kept, sizeof *s) == 0;
    memcpy(h->frame, frame, sizeof h->frame);
    return h->number != 0 && !(is_left && memcmp(k, &kept_backing, sizeof *k) == 0);
}

static void questions(void) {
    vusatica_voice voices[32];
    uint64_t notes[32];
    char text[64];
    size_t count;
    int is;
    vusatica_voices(s, 0, &params, voices, 32, &count);
    vusatica_active_notes(s, 1, notes, 32, &count);
    vusatica_error_text(s, 0, text, sizeof text, &count);
    vusatica_is_recording(s, 0, &is);
}

static uint8_t file[58 + 4 * SAMPLES];

/* Some calls of each kind, and 1 where a frame is refused and changes something. */
static int calls(heard *h) {
    size_t count;
    int wrong;
    *h = unheard();
    h->number = vusatica_frame(s, frame, 2, &params, memory, SAMPLES, NULL);
    wrong = is_wrong(h);
    vusatica_frames(s, h->run, 6, &params, memory, SAMPLES, &count);
    vusatica_start(s, 0.5f, 40, 0, 1.0f, &params);
    vusatica_stop(s, 3, 0, &params);
    vusatica_note_speed(s, 4, 0, 0.5f);
    questions();
    vusatica_choose(s, 1);
    vusatica_record(s);
    vusatica_frame(s, frame, 2, &params, memory, SAMPLES, NULL);
    vusatica_record_stop(s);
    if (vusatica_write_wave(s, 48000, memory, SAMPLES, file, sizeof file, &count) == 0)
        vusatica_read_wave(s, file, count, memory, SAMPLES, NULL);
    vusatica_delete(s, 0);
    vusatica_gather(s, memory, SAMPLES);
    vusatica_sample(s, 1, 0.5f, &params, memory, SAMPLES, NULL, NULL);
    vusatica_reset(s);
    return wrong;
}

/* The same by the plain engine. */
static int backed_calls(heard *h) {
    size_t count;
    int wrong;
    *h = unheard();
    h->number = vusatica_backed_frame(s, k, frame, 2, &params, memory, SAMPLES, NULL);
    wrong = is_wrong(h);
    vusatica_backed_frames(s, k, h->run, 6, &params, memory, SAMPLES, &count);
    vusatica_backed_start(s, k, 0.5f, 40, 0, 1.0f, &params);
    vusatica_backed_stop(s, k, 3, 0, &params);
    vusatica_backed_note_speed(s, k, 4, 0, 0.5f);
    questions();
    vusatica_backed_choose(s, k, 1);
    vusatica_backed_record(s, k);
    vusatica_backed_frame(s, k, frame, 2, &params, memory, SAMPLES, NULL);
    vusatica_backed_record_stop(s, k);
    if (vusatica_write_wave(s, 48000, memory, SAMPLES, file, sizeof file, &count) == 0)
        vusatica_backed_read_wave(s, k, file, count, memory, SAMPLES, NULL);
    vusatica_backed_delete(s, k, 0);
    vusatica_backed_gather(s, k, memory, SAMPLES);
    vusatica_backed_interpolate(s, k, 0);
    vusatica_backed_sample(s, k, 1, 0.5f, &params, memory, SAMPLES, NULL, NULL);
    vusatica_backed_reset(s, k);
    return wrong;
}

static long done, nine, other, wrong, apart, signals;

static void changed_again(void) {
    *s = changed;
    memcpy(memory, good_memory, sizeof good_memory);
}

/* The calls of each engine on the record that was changed at the byte `at`. */
static void tried(size_t at) {
    static heard first, second;
    static int ended;
    ended = sigsetjmp(back, 1);
    if (ended != 0) {
        signals++;
        if (signals <= 20) printf("changed: signal %d, byte %lu\n", ended, (unsigned long)at);
        return;
    }
    changed_again();
    wrong += calls(&first);
    changed_again();
    wrong += backed_calls(&second);
    apart += !is_heard_alike(&first, &second);
    if (first.number == 0) done++;
    else if (first.number == 9) nine++;
    else other++;
}

/* Changes a byte, or all of them. */
static size_t change(void *record, size_t size, int all) {
    unsigned char *bytes = record;
    size_t at = random_word() % size, b;
    bytes[at] = (unsigned char)random_word();
    for (b = 0; all && b < size; b++) bytes[b] = (unsigned char)random_word();
    return at;
}

int main(int words, char **word) {
    long count = words > 2 ? atol(word[2]) : 1000, i;
    int list[] = { SIGSEGV, SIGBUS, SIGILL, SIGTRAP, SIGFPE }, l;
    struct sigaction action;
    state = words > 1 ? strtoull(word[1], NULL, 10) : 1;
    s = ending(sizeof *s);
    kept = ending(sizeof *kept);
    k = ending(sizeof *k);
    memory = ending(SAMPLES * sizeof *memory);
    frame = ending(2 * sizeof *frame);
    make_good();
    good_params = params;
    memset(&action, 0, sizeof action);
    action.sa_handler = caught;
    action.sa_flags = SA_NODEFER;
    for (l = 0; l < 5; l++) sigaction(list[l], &action, NULL);
    for (i = 0; i < count + count / 10; i++) {
        size_t at;
        changed = good;
        *k = good_backing;
        params = good_params;
        at = change(&changed, sizeof changed, i >= count);
        change(k, sizeof *k, i >= count);
        if (i % 4 == 3) change(&params, sizeof params, 0);
        tried(at);
    }
    printf("changed: %ld changes of a record: a frame done %ld, refused 9 %ld, otherwise %ld; ended by a signal %ld; "
           "refused, and changed %ld; unlike by the plain engine %ld\n", count + count / 10, done, nine, other, signals,
           wrong, apart);
    return signals != 0 || wrong != 0 || apart != 0;
}
