/* Two JACK clients in one program, before and behind host/examples/jack.c: one sends a take and then keys at known
 * frames, the other looks in which frames the sound begins and ends. It fails where one isn't heard in the very frame
 * of its key.
 *
 *     cc -O2 host/probes/keys.c -ljack -o keys
 *     ./keys [KEYS]              100 unless given */
#include <jack/jack.h>
#include <jack/midiport.h>
#include <stdio.h>
#include <stdlib.h>
#include <string.h>
#include <unistd.h>

#define MOST 10000
#define TAKE 1000                  /* samples that are recorded, each 0.5 */
#define APART 1500                 /* frames from key to key, and some more */
#define HELD 700

static jack_client_t *sender, *listener;
static jack_port_t *keys, *sound, *heard;
static int count;
static jack_nframes_t begin, pressed[MOST], released[MOST], began[MOST], ended[MOST];
static volatile int started, all_sent, n_began, n_ended;

static void send(void *buffer, jack_nframes_t time, jack_nframes_t frames, jack_nframes_t due, int a, int b, int c) {
    jack_midi_data_t bytes[3];
    bytes[0] = (jack_midi_data_t)a;
    bytes[1] = (jack_midi_data_t)b;
    bytes[2] = (jack_midi_data_t)c;
    if (due - time < frames) jack_midi_event_write(buffer, due - time, bytes, 3);
}

static int sends(jack_nframes_t frames, void *nothing) {
    void *buffer = jack_port_get_buffer(keys, frames);
    float *take = jack_port_get_buffer(sound, frames);
    jack_nframes_t time = jack_last_frame_time(sender), i;
    int k;
    (void)nothing;
    jack_midi_clear_buffer(buffer);
    memset(take, 0, frames * sizeof *take);
    if (!started) return 0;
    for (i = 0; i < frames; i++)
        if (time + i - begin < TAKE) take[i] = 0.5f;
    send(buffer, time, frames, begin, 0xB0, 80, 127);
    send(buffer, time, frames, begin + TAKE, 0xB0, 80, 0);
    for (k = 0; k < count; k++) {
        send(buffer, time, frames, pressed[k], 0x90, 60, 127);
        send(buffer, time, frames, released[k], 0x80, 60, 0);
    }
    if (time > released[count - 1]) all_sent = 1;
    return 0;
}

static int listens(jack_nframes_t frames, void *nothing) {
    static float last;
    const float *sample = jack_port_get_buffer(heard, frames);
    jack_nframes_t time = jack_last_frame_time(listener), i;
    (void)nothing;
    for (i = 0; i < frames; i++) {
        if (sample[i] != 0 && last == 0 && n_began < MOST) began[n_began++] = time + i;
        if (sample[i] == 0 && last != 0 && n_ended < MOST) ended[n_ended++] = time + i;
        last = sample[i];
    }
    return 0;
}

static void linked(const char *from, const char *to) {
    if (jack_connect(sender, from, to) == 0) return;
    fprintf(stderr, "keys: %s is not to be linked to %s\n", from, to);
    exit(1);
}

int main(int words, char **word) {
    int k, late = 0;
    jack_nframes_t period, inside = 0;
    count = words > 1 ? atoi(word[1]) : 100;
    if (count < 1 || count > MOST) return 2;
    sender = jack_client_open("keys_sent", JackNoStartServer, NULL);
    listener = jack_client_open("keys_heard", JackNoStartServer, NULL);
    if (sender == NULL || listener == NULL) {
        fprintf(stderr, "keys: no JACK server\n");
        return 1;
    }
    keys = jack_port_register(sender, "keys", JACK_DEFAULT_MIDI_TYPE, JackPortIsOutput, 0);
    sound = jack_port_register(sender, "sound", JACK_DEFAULT_AUDIO_TYPE, JackPortIsOutput, 0);
    heard = jack_port_register(listener, "heard", JACK_DEFAULT_AUDIO_TYPE, JackPortIsInput, 0);
    if (!keys || !sound || !heard) return 1;
    jack_set_process_callback(sender, sends, NULL);
    jack_set_process_callback(listener, listens, NULL);
    if (jack_activate(sender) != 0 || jack_activate(listener) != 0) return 1;
    linked("keys_sent:keys", "vusatica:midi");
    linked("keys_sent:sound", "vusatica:in_1");
    linked("keys_sent:sound", "vusatica:in_2");
    linked("vusatica:out_1", "keys_heard:heard");
    period = jack_get_buffer_size(sender);
    begin = jack_frame_time(sender) + jack_get_sample_rate(sender) / 2;
    for (k = 0; k < count; k++) {
        pressed[k] = begin + 2 * TAKE + (jack_nframes_t)k * APART + (jack_nframes_t)(k * 37 % 101);
        released[k] = pressed[k] + HELD;
    }
    started = 1;
    for (k = 0; k < 600 && !all_sent; k++) usleep(100000);
    usleep(200000);
    jack_client_close(sender);
    jack_client_close(listener);
    for (k = 0; k < count; k++) {
        if (k >= n_began || k >= n_ended || began[k] != pressed[k] || ended[k] != released[k]) late++;
        if (pressed[k] % period != 0) inside++;
    }
    printf("keys: period %u, %d keys sent, %d begun and %d ended; %u were due inside a period; not in their frames: %d\n",
           (unsigned)period, count, n_began, n_ended, (unsigned)inside, late);
    for (k = 0; k < 5 && k < count && late > 0; k++)
        printf("keys: due %u to %u, heard %u to %u\n", (unsigned)pressed[k], (unsigned)released[k], (unsigned)began[k],
               (unsigned)ended[k]);
    return late != 0;
}
