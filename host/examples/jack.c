/* The sampler as a JACK client: two channels in and out, keys by MIDI. Each period is cut at its events' frames, so
 * that a key sounds in the frame that JACK gives it.
 *
 *     cc -O2 -I target/host host/examples/jack.c target/host/libvusatica.a -lm -ljack -o vusatica
 *     ./vusatica                             ports vusatica:in_1, in_2, out_1, out_2, midi; an empty line ends it
 *
 * Note on and off start and stop keys; controller 80 records while it is 64 or more; controller 81 switches
 * interpolation in the same way; a program change chooses a phrase, 1 to 8. Only JACK's thread touches the engine:
 * main prints what was refused.
 *
 * host/probes/jack tries it under a server without a sound card, with a second program that sends keys at known frames
 * and looks for the sound in them:
 *     host/probes/jack target/host */
#include <jack/jack.h>
#include <jack/midiport.h>
#include <stdio.h>
#include <stdlib.h>
#include <string.h>
#include "vusatica.h"

#define MOST 1024                  /* frames that are played by one call */
#define SAMPLES 4194304            /* a channel: the most that there are, 95 s at 44,100 */

static vusatica_sampler s;
static vusatica_params params;
static uint32_t memory[2 * SAMPLES];
static jack_port_t *in[2], *out[2], *midi;
static volatile unsigned long refused[256]; /* by number: written by JACK's thread alone */

static void told(int number) {
    if (number != VUSATICA_DONE) refused[number]++;
}

static void message(const jack_midi_event_t *event) {
    const unsigned char *b = event->buffer;
    unsigned char channel;
    if (event->size < 2) return;
    channel = b[0] & 15;
    switch (b[0] & 0xF0) {
    case 0x80: told(vusatica_stop(&s, b[1], channel, &params)); break;
    case 0x90:
        if (event->size < 3 || b[2] == 0) told(vusatica_stop(&s, b[1], channel, &params));
        else told(vusatica_start(&s, 0.0f, b[1], channel, (float)b[2] / 127, &params));
        break;
    case 0xB0:
        if (event->size < 3) break;
        if (b[1] == 80) told(b[2] >= 64 ? vusatica_record(&s) : vusatica_record_stop(&s));
        if (b[1] == 81) told(vusatica_interpolate(&s, b[2] >= 64));
        break;
    case 0xC0: told(vusatica_choose(&s, b[1])); break;
    }
}

/* The frames of the period from `at` on, up to `end`. */
static void play(float *const *from, float *const *to, size_t at, size_t end) {
    float run[2 * MOST];
    while (at < end) {
        size_t frames = end - at < MOST ? end - at : MOST, i, j;
        for (i = 0; i < frames; i++)
            for (j = 0; j < 2; j++) run[2 * i + j] = from[j][at + i];
        told(vusatica_frames(&s, run, 2 * frames, &params, memory, 2 * SAMPLES, NULL));
        for (i = 0; i < frames; i++)
            for (j = 0; j < 2; j++) to[j][at + i] = run[2 * i + j];
        at += frames;
    }
}

static int process(jack_nframes_t frames, void *nothing) {
    float *from[2], *to[2];
    void *events = jack_port_get_buffer(midi, frames);
    uint32_t count = jack_midi_get_event_count(events), e;
    size_t at = 0;
    int j;
    (void)nothing;
    for (j = 0; j < 2; j++) {
        from[j] = jack_port_get_buffer(in[j], frames);
        to[j] = jack_port_get_buffer(out[j], frames);
    }
    for (e = 0; e < count; e++) {
        jack_midi_event_t event;
        if (jack_midi_event_get(&event, events, e) != 0) continue;
        play(from, to, at, event.time);
        at = event.time;
        message(&event);
    }
    play(from, to, at, frames);
    return 0;
}

static jack_port_t *port(jack_client_t *client, const char *name, const char *type, unsigned long flags) {
    jack_port_t *made = jack_port_register(client, name, type, flags, 0);
    if (made == NULL) {
        fprintf(stderr, "vusatica: no port %s\n", name);
        exit(1);
    }
    return made;
}

int main(void) {
    vusatica_settings settings = VUSATICA_DEFAULT_SETTINGS;
    jack_client_t *client = jack_client_open("vusatica", JackNoStartServer, NULL);
    int n;
    if (client == NULL) {
        fprintf(stderr, "vusatica: no JACK server\n");
        return 1;
    }
    settings.sample_rate = (float)jack_get_sample_rate(client);
    settings.attack_samples = settings.decay_samples = 0;
    settings.auto_passthru = 0;
    settings.note_off = VUSATICA_DECAY;
    if (vusatica_version() != VUSATICA_VERSION || vusatica_params_make(&params, &settings) != VUSATICA_DONE ||
        vusatica_init(&s, 2, 0, memory, 2 * SAMPLES) != VUSATICA_DONE) {
        fprintf(stderr, "vusatica: no engine\n");
        return 1;
    }
    in[0] = port(client, "in_1", JACK_DEFAULT_AUDIO_TYPE, JackPortIsInput);
    in[1] = port(client, "in_2", JACK_DEFAULT_AUDIO_TYPE, JackPortIsInput);
    out[0] = port(client, "out_1", JACK_DEFAULT_AUDIO_TYPE, JackPortIsOutput);
    out[1] = port(client, "out_2", JACK_DEFAULT_AUDIO_TYPE, JackPortIsOutput);
    midi = port(client, "midi", JACK_DEFAULT_MIDI_TYPE, JackPortIsInput);
    jack_set_process_callback(client, process, NULL);
    if (jack_activate(client) != 0) {
        fprintf(stderr, "vusatica: the client could not be started\n");
        return 1;
    }
    getchar();
    jack_client_close(client);
    for (n = 1; n < 256; n++)
        if (refused[n] > 0) printf("refused %d: %lu times\n", n, refused[n]);
    return 0;
}
