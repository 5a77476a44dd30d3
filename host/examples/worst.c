/* How long a block of 64 frames takes at its worst: two channels with 32 voices each, by default and with the setting
 * of 7/12, every block cut at a key that is let go and pressed again. It asks for real time (SCHED_FIFO, memory
 * locked) and says what it was given. Between blocks it sleeps until the next is due, as a host does that waits for
 * its sound card: one that never sleeps is stopped by Linux for 50 ms of each second.
 *
 *     cc -O2 -I target/host host/examples/worst.c target/host/libvusatica.a -lm -o worst
 *     sudo ./worst [BLOCKS]         10,000 of each unless given, which is 29 seconds */
#define _DEFAULT_SOURCE
#include <sched.h>
#include <stdio.h>
#include <stdlib.h>
#include <sys/mman.h>
#include <time.h>
#include "vusatica.h"

#define BLOCK 64
#define SAMPLES 8192
#define RATE 44100.0

static vusatica_sampler s;
static vusatica_params params;
static uint32_t memory[SAMPLES];
static float block[2 * BLOCK];

static void done(const char *what, int number) {
    if (number == VUSATICA_DONE) return;
    fprintf(stderr, "worst: %s: refused, %d\n", what, number);
    exit(1);
}

static double now(void) {
    struct timespec t;
    clock_gettime(CLOCK_MONOTONIC, &t);
    return (double)t.tv_sec * 1e6 + (double)t.tv_nsec / 1e3;
}

static int order(const void *a, const void *b) {
    double x = *(const double *)a, y = *(const double *)b;
    return (x > y) - (x < y);
}

static void play(size_t from, size_t to) {
    size_t frames;
    done("run", vusatica_frames(&s, block + 2 * from, 2 * (to - from), &params, memory, SAMPLES, &frames));
}

static void begin(int interpolated) {
    vusatica_settings settings = VUSATICA_DEFAULT_SETTINGS;
    int i;
    settings.length = 0.3f;
    settings.speed = 0.75f;
    settings.attack_samples = settings.decay_samples = 0;
    settings.note_off = VUSATICA_DECAY;
    done("parameters", vusatica_params_make(&params, &settings));
    done("set-up", vusatica_init(&s, 2, 0, memory, SAMPLES));
    done("interpolation", vusatica_interpolate(&s, interpolated));
    done("record", vusatica_record(&s));
    for (i = 0; i < SAMPLES / 2 / BLOCK; i++) {
        int j;
        for (j = 0; j < 2 * BLOCK; j++) block[j] = (float)((i * 2 * BLOCK + j) * 37 % 64) / 32 - 1;
        play(0, BLOCK);
    }
    done("record stop", vusatica_record_stop(&s));
    for (i = 0; i < 32; i++) done("start", vusatica_start(&s, (float)i / 32, (uint8_t)i, 0, 0.5f, &params));
}

static void measure(const char *what, int interpolated, long blocks, double *times) {
    double sum = 0;
    long i;
    struct timespec due;
    begin(interpolated);
    clock_gettime(CLOCK_MONOTONIC, &due);
    for (i = 0; i < blocks; i++) {
        size_t cut = (size_t)(i % (BLOCK - 1)) + 1; /* the key is let go before the frame `cut`, and leaves in it */
        uint8_t note = (uint8_t)(i % 32);
        int j;
        double from;
        for (j = 0; j < 2 * BLOCK; j++) block[j] = 0.25f;
        due.tv_nsec += (long)(BLOCK / RATE * 1e9);
        if (due.tv_nsec >= 1000000000) {
            due.tv_nsec -= 1000000000;
            due.tv_sec++;
        }
        clock_nanosleep(CLOCK_MONOTONIC, TIMER_ABSTIME, &due, NULL);
        from = now();
        play(0, cut - 1);
        done("stop", vusatica_stop(&s, note, 0, &params));
        play(cut - 1, cut);
        done("start", vusatica_start(&s, 0.5f, note, 0, 0.5f, &params));
        play(cut, BLOCK);
        times[i] = now() - from;
        sum += times[i];
    }
    qsort(times, (size_t)blocks, sizeof *times, order);
    printf("%s: mean %.1f us, 999 of 1000 within %.1f, worst %.1f: %.1f%% of the %.0f us that a block lasts\n", what,
           sum / (double)blocks, times[blocks - 1 - blocks / 1000], times[blocks - 1],
           times[blocks - 1] * RATE / BLOCK / 1e4, BLOCK / RATE * 1e6);
}

int main(int count, char **words) {
    long blocks = count > 1 ? atol(words[1]) : 10000;
    struct sched_param priority;
    double *times = blocks > 0 ? calloc((size_t)blocks, sizeof *times) : NULL;
    int fifo, locked;
    if (times == NULL) return 2;
    priority.sched_priority = 80;
    locked = mlockall(MCL_CURRENT | MCL_FUTURE) == 0;
    fifo = sched_setscheduler(0, SCHED_FIFO, &priority) == 0;
    printf("%s, memory %s\n", fifo ? "SCHED_FIFO, priority 80" : "no real time: it was not granted",
           locked ? "locked" : "not locked");
    measure("32 voices on each of 2 channels", 0, blocks, times);
    measure("the same, interpolated", 1, blocks, times);
    free(times);
    return 0;
}
