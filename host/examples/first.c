/* A host as small as it can be: the calls of examples/first.hex, each answer tested, and the lines that ./play prints
 * of them. Two samples are recorded and played in a loop while a key is held.
 *
 *     cc -I target/host host/examples/first.c target/host/libvusatica.a -lm -o first
 *     cc host/examples/first.c $(pkg-config --cflags --libs vusatica) -o first          where it is installed */
#include <stdio.h>
#include <stdlib.h>
#include <string.h>
#include "vusatica.h"

#define SAMPLES 4096

static vusatica_sampler s;
static vusatica_params params;
static uint32_t memory[SAMPLES];

/* What isn't done here is a fault of this program. */
static void done(const char *what, int number) {
    if (number == VUSATICA_DONE) return;
    fprintf(stderr, "%s: refused, %d\n", what, number);
    exit(1);
}

static void called(int kind, const char *what, int number) {
    done(what, number);
    printf("E %d %d\n", kind, number);
}

static void frame(float input) {
    float entry = input;
    size_t time, voices;
    vusatica_voice list[32];
    uint32_t bits;
    done("time", vusatica_frames_processed(&s, 0, &time));
    done("frame", vusatica_frame(&s, &entry, 1, &params, memory, SAMPLES, NULL));
    done("voices", vusatica_voices(&s, 0, &params, list, 32, &voices));
    memcpy(&bits, &entry, sizeof bits);
    printf("F %lu %08lX %lu\n", (unsigned long)time, (unsigned long)bits, (unsigned long)voices);
}

int main(void) {
    vusatica_settings settings = VUSATICA_DEFAULT_SETTINGS;
    if (vusatica_version() != VUSATICA_VERSION || vusatica_sampler_size() != sizeof s ||
        vusatica_params_size() != sizeof params || vusatica_settings_size() != sizeof settings) {
        fprintf(stderr, "this program was compiled with the header of another library\n");
        return 1;
    }
    settings.attack_samples = 0;
    settings.decay_samples = 0;
    settings.auto_passthru = 0;
    settings.note_off = VUSATICA_DECAY;
    done("set-up", vusatica_init(&s, 1, 0, memory, SAMPLES));
    called(0, "parameters", vusatica_params_make(&params, &settings));
    called(4, "record", vusatica_record(&s));
    frame(0.5f);
    frame(0.25f);
    called(5, "record stop", vusatica_record_stop(&s));
    called(1, "start", vusatica_start(&s, 0.0f, 60, 0, 1.0f, &params));
    frame(0.0f);
    frame(0.0f);
    frame(0.0f);
    called(2, "stop", vusatica_stop(&s, 60, 0, &params));
    frame(0.0f);
    return fflush(stdout) == 0 ? 0 : 1;
}
