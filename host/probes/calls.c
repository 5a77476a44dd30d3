/* Every call of vusatica.h but the plain engine's (backed.c), each number that it can be brought to answer (all but 6,
 * which takes 2^48 frames), and that a refused call leaves record, memory and lists as they were. Its last line is
 * `calls: N tries, M failed`. */
#include <stdio.h>
#include <string.h>
#include "vusatica.h"

#define SAMPLES 256 /* a channel */

static vusatica_sampler s, before;
static uint32_t memory[2 * SAMPLES], memory_before[2 * SAMPLES];
static vusatica_params params, beyond;
static int tries, failed;

static void is(int line, const char *what, double got, double wanted) {
    tries++;
    if (got == wanted) return;
    failed++;
    printf("calls: line %d: %s is %g and not %g\n", line, what, got, wanted);
}
#define IS(wanted, call) is(__LINE__, #call, (double)(call), (double)(wanted))

/* The call is refused with this number, and all is as it was. */
#define REFUSED(number, call)                                                                           \
    do {                                                                                                \
        before = s;                                                                                     \
        memcpy(memory_before, memory, sizeof memory);                                                   \
        IS(number, call);                                                                               \
        IS(0, memcmp(&before, &s, sizeof s));                                                           \
        IS(0, memcmp(memory_before, memory, sizeof memory));                                            \
    } while (0)

static vusatica_params made(void (*change)(vusatica_settings *)) {
    vusatica_settings settings = VUSATICA_DEFAULT_SETTINGS;
    vusatica_params p;
    settings.attack_samples = settings.decay_samples = 0;
    settings.auto_passthru = 0;
    settings.note_off = VUSATICA_DECAY;
    if (change) change(&settings);
    IS(0, vusatica_params_make(&p, &settings));
    return p;
}
static void too_long_attack(vusatica_settings *t) { t->attack_samples = 16777217; }
static void half_speed(vusatica_settings *t) { t->speed = 0.5f; }
static void play_once(vusatica_settings *t) { t->loop_mode = VUSATICA_PLAY_ONCE; }
static void passing(vusatica_settings *t) { t->auto_passthru = 1; }

/* A frame of one channel or two. */
static float frame(size_t channels, float input) {
    float entries[2];
    entries[0] = input;
    entries[1] = -input;
    IS(0, vusatica_frame(&s, entries, channels, &params, memory, SAMPLES * channels, NULL));
    return entries[0];
}

static void set_up(size_t channels) {
    memset(memory, 0, sizeof memory);
    IS(0, vusatica_init(&s, channels, 0, memory, SAMPLES * channels));
}

/* A take of so many samples, 1/64, 2/64, .. */
static void take(size_t channels, int count) {
    int i;
    IS(0, vusatica_record(&s));
    for (i = 1; i <= count; i++) frame(channels, (float)i / 64);
    IS(0, vusatica_record_stop(&s));
}

static void settings(void) {
    vusatica_settings t = VUSATICA_DEFAULT_SETTINGS;
    vusatica_params p = params, q = params;
    unsigned char *bytes[4];
    int last[4] = { 5, 2, 2, 1 }, k, v;
    bytes[0] = &t.length_kind;
    bytes[1] = &t.loop_mode;
    bytes[2] = &t.note_off;
    bytes[3] = &t.auto_passthru;
    for (k = 0; k < 4; k++) {
        unsigned char kept = *bytes[k];
        for (v = 0; v < 256; v++) {
            *bytes[k] = (unsigned char)v;
            p = q;
            IS(v <= last[k] ? 0 : 7, vusatica_params_make(&p, &t));
            if (v > last[k]) IS(0, memcmp(&p, &q, sizeof p));
        }
        *bytes[k] = kept;
    }
}

static void set_ups(void) {
    float x;
    IS(VUSATICA_VERSION, vusatica_version());
    IS(sizeof s, vusatica_sampler_size());
    IS(sizeof params, vusatica_params_size());
    IS(sizeof(vusatica_settings), vusatica_settings_size());
    IS(sizeof(vusatica_backing), vusatica_backing_size());
    memset(&s, 0, sizeof s);
    IS(9, vusatica_record(&s));
    IS(9, vusatica_init(&s, 0, 0, memory, SAMPLES));
    IS(9, vusatica_init(&s, 3, 0, memory, SAMPLES));
    IS(9, vusatica_init(&s, 1, 0, NULL, 0));
    IS(9, vusatica_init(&s, 2, 0, memory, 1));
    IS(9, vusatica_record(&s));
    IS(9, vusatica_frame(&s, NULL, 0, &params, memory, SAMPLES, NULL));
    IS(9, vusatica_frames_processed(&s, 0, NULL));
    /* any int that isn't 0 is yes */
    params = made(passing);
    for (x = 0; x < 3; x++) {
        int on[3] = { 0, 1, 256 };
        IS(0, vusatica_init(&s, 1, on[(int)x], memory, SAMPLES));
        IS(x > 0, frame(1, 1.0f) != 0.0f);
    }
    params = made(NULL);
}

static void keys(void) {
    int i, moved = 7;
    size_t count = 7, at = 7;
    uint64_t notes[33];
    vusatica_voice voices[33];
    float x = 0.0f, y[2] = { 0, 0 };
    set_up(1);
    IS(0, vusatica_start(&s, 0.0f, 60, 0, 1.0f, &params)); /* nothing is recorded: no voice */
    IS(0, vusatica_active_notes(&s, 0, notes, 33, &count));
    IS(0, count);
    take(1, 4);
    IS(0, vusatica_data_length(&s, 0, &count));
    IS(4, count);
    IS(0, vusatica_frames_processed(&s, 0, &count));
    IS(4, count);
    REFUSED(2, vusatica_start(&s, 0.0f, 60, 16, 1.0f, &params));
    REFUSED(3, vusatica_start(&s, 1.5f, 60, 0, 1.0f, &params));
    REFUSED(4, vusatica_start(&s, 0.0f, 60, 0, 1.0f, &beyond));
    REFUSED(2, vusatica_stop(&s, 60, 16, &params));
    REFUSED(4, vusatica_stop(&s, 60, 0, &beyond));
    REFUSED(2, vusatica_note_speed(&s, 60, 16, 1.0f));
    IS(0, vusatica_start(&s, 0.0f, 60, 3, 1.0f, &params));
    IS(1.0 / 64, frame(1, 0.0f)); /* heard in the frame that follows */
    IS(2.0 / 64, frame(1, 0.0f));
    IS(0, vusatica_active_notes(&s, 0, notes, 33, &count));
    IS(1, count);
    IS(60 * 256 + 3, notes[0]);
    REFUSED(8, vusatica_active_notes(&s, 0, notes, 0, &count));
    IS(0, count);
    IS(0, vusatica_voices(&s, 0, &params, voices, 33, &count));
    IS(1, count);
    IS(0, voices[0].start);
    IS(0, voices[0].end); /* all of the recording: where it ends, it begins */
    IS(0.25, voices[0].position);
    REFUSED(8, vusatica_voices(&s, 0, &params, voices, 0, &count));
    REFUSED(4, vusatica_voices(&s, 0, &beyond, voices, 33, &count));
    REFUSED(1, vusatica_voices(&s, 1, &params, voices, 33, &count));
    IS(0, vusatica_note_speed(&s, 60, 3, 2.0f));
    IS(0, vusatica_stop(&s, 60, 3, &params));
    frame(1, 0.0f);
    IS(0, vusatica_voices(&s, 0, &params, voices, 33, &count));
    IS(0, count);
    for (i = 0; i < 32; i++) IS(0, vusatica_start(&s, 0.0f, (uint8_t)i, 0, 1.0f, &params));
    REFUSED(5, vusatica_start(&s, 0.0f, 60, 0, 1.0f, &params));
    IS(0, vusatica_voices(&s, 0, &params, voices, 32, &count));
    IS(32, count);
    /* frames, runs and samples that are refused */
    REFUSED(1, vusatica_frame(&s, y, 2, &params, memory, SAMPLES, &moved));
    REFUSED(4, vusatica_frame(&s, y, 1, &beyond, memory, SAMPLES, &moved));
    REFUSED(9, vusatica_frame(&s, y, 1, &params, memory, SAMPLES - 1, &moved));
    IS(0, moved);
    REFUSED(4, vusatica_frames(&s, y, 2, &beyond, memory, SAMPLES, &count));
    REFUSED(9, vusatica_frames(&s, y, 2, &params, memory, 0, &count));
    IS(0, count);
    REFUSED(1, vusatica_sample(&s, 1, 0.0f, &params, memory, SAMPLES, &x, &moved));
    REFUSED(4, vusatica_sample(&s, 0, 0.0f, &beyond, memory, SAMPLES, &x, &moved));
    REFUSED(9, vusatica_sample(&s, 0, 0.0f, &params, NULL, 0, &x, &moved));
    IS(0, vusatica_reset(&s));
    IS(0, vusatica_active_notes(&s, 0, notes, 0, &count));
    IS(0, count);
    IS(0, vusatica_frame(&s, NULL, 0, &params, memory, SAMPLES, NULL));
    IS(0, vusatica_frames(&s, NULL, 0, &params, memory, SAMPLES, &count));
    /* a voice that leaves: the other moves up */
    params = made(play_once);
    set_up(1);
    take(1, 4);
    for (i = 0, at = 0; i < 8; i++) {
        if (i < 2) IS(0, vusatica_start(&s, 0.0f, (uint8_t)i, 0, 1.0f, &params));
        IS(0, vusatica_frame(&s, &x, 1, &params, memory, SAMPLES, &moved));
        at += (size_t)moved;
    }
    IS(1, at);
    params = made(NULL);
}

/* Frame, run and samples of each channel sound alike. */
static void three_ways(void) {
    vusatica_sampler t, u;
    static uint32_t of_t[2 * SAMPLES], of_u[2 * SAMPLES];
    float run[2 * 50], x;
    size_t done;
    int i, j, differ = 0;
    set_up(2);
    take(2, 20);
    IS(0, vusatica_start(&s, 0.25f, 60, 0, 0.5f, &params));
    IS(0, vusatica_record(&s));
    t = u = s;
    memcpy(of_t, memory, sizeof memory);
    memcpy(of_u, memory, sizeof memory);
    for (i = 0; i < 100; i++) run[i] = (float)i / 100;
    REFUSED(10, vusatica_frames(&s, run, 3, &params, memory, sizeof memory / 4, &done));
    IS(0, vusatica_frames(&t, run, 100, &params, of_t, sizeof memory / 4, &done));
    IS(50, done);
    for (i = 0; i < 50; i++) {
        float entries[2];
        entries[0] = (float)(2 * i) / 100;
        entries[1] = (float)(2 * i + 1) / 100;
        for (j = 0; j < 2; j++) {
            IS(0, vusatica_sample(&u, (size_t)j, entries[j], &params, of_u, sizeof memory / 4, &x, NULL));
            differ += x != run[2 * i + j];
        }
        IS(0, vusatica_frame(&s, entries, 2, &params, memory, sizeof memory / 4, NULL));
        for (j = 0; j < 2; j++) differ += entries[j] != run[2 * i + j];
    }
    IS(0, differ);
    IS(0, memcmp(of_t, memory, sizeof memory));
    IS(0, memcmp(of_u, memory, sizeof memory));
}

static void questions(void) {
    int yes = 7;
    size_t count = 7, at = 7;
    char text[64];
    float values[8], smallest, largest;
    set_up(1);
    IS(0, vusatica_last_recorded_offset(&s, 0, &at, &yes));
    IS(0, yes);
    IS(0, vusatica_record(&s));
    frame(1, 0.5f);
    frame(1, 0.25f);
    IS(0, vusatica_is_recording(&s, 0, &yes));
    IS(1, yes);
    IS(0, vusatica_last_recorded_offset(&s, 0, &at, &yes));
    IS(1, yes);
    IS(1, at > 0 && at <= 2);
    IS(0, vusatica_record_stop(&s));
    IS(0, vusatica_is_recording(&s, 0, &yes));
    IS(0, yes);
    IS(0, vusatica_error_text(&s, 0, text, sizeof text, &count));
    IS(1, count > 0 && count < sizeof text);
    REFUSED(8, vusatica_error_text(&s, 0, text, count - 1, &at));
    IS(0, vusatica_waveform(&s, 4, values, 8, memory, SAMPLES, &smallest, &largest));
    IS(0.5, values[1]);
    IS(0.25, values[3]);
    IS(0, smallest);
    IS(0.5, largest);
    IS(11, vusatica_waveform(&s, 4097, values, 8, memory, SAMPLES, &smallest, &largest));
    IS(8, vusatica_waveform(&s, 9, values, 8, memory, SAMPLES, NULL, NULL));
    IS(9, vusatica_waveform(&s, 4, values, 8, memory, SAMPLES - 1, NULL, NULL));
    IS(0, vusatica_waveform(&s, 0, NULL, 0, memory, SAMPLES, &smallest, &largest));
    REFUSED(1, vusatica_frames_processed(&s, 1, &count));
    IS(0, count);
    REFUSED(1, vusatica_data_length(&s, (size_t)-1, &count));
    REFUSED(1, vusatica_is_recording(&s, 1, &yes));
    REFUSED(1, vusatica_last_recorded_offset(&s, 1, &at, &yes));
    REFUSED(1, vusatica_error_text(&s, 1, text, sizeof text, &count));
    REFUSED(1, vusatica_active_notes(&s, 1, NULL, 0, &count));
}

static void interpolated(void) {
    int on, i, between = 0;
    params = made(half_speed);
    for (on = 0; on < 3; on++) {
        int as[3] = { 0, 1, 256 };
        set_up(1);
        take(1, 8);
        IS(0, vusatica_interpolate(&s, as[on]));
        IS(0, vusatica_start(&s, 0.0f, 60, 0, 1.0f, &params));
        for (i = 0, between = 0; i < 8; i++) {
            float y = frame(1, 0.0f) * 128;
            between += (int)y % 2 == 1;
        }
        IS(on > 0, between > 0);
    }
    params = made(NULL);
}

static void waves(void) {
    static uint8_t file[58 + 8 * SAMPLES], again[58 + 8 * SAMPLES];
    size_t length = 7, second;
    uint32_t rate = 7;
    vusatica_sampler small;
    uint32_t little[8] = { 0 };
    set_up(2);
    take(2, 10);
    REFUSED(8, vusatica_write_wave(&s, 48000, memory, 2 * SAMPLES, file, 58 + 79, &length));
    IS(0, length);
    IS(0, vusatica_write_wave(&s, 48000, memory, 2 * SAMPLES, file, sizeof file, &length));
    IS(58 + 80, length);
    REFUSED(9, vusatica_write_wave(&s, 48000, memory, SAMPLES, file, sizeof file, NULL));
    IS(0, vusatica_record(&s));
    REFUSED(15, vusatica_write_wave(&s, 48000, memory, 2 * SAMPLES, file, sizeof file, &second));
    REFUSED(15, vusatica_read_wave(&s, file, length, memory, 2 * SAMPLES, &rate));
    IS(0, rate);
    IS(0, vusatica_sample(&s, 0, 0.5f, &params, memory, 2 * SAMPLES, NULL, NULL));
    IS(0, vusatica_record_stop(&s));
    REFUSED(16, vusatica_write_wave(&s, 48000, memory, 2 * SAMPLES, file, sizeof file, &second));
    IS(0, vusatica_read_wave(&s, file, length, memory, 2 * SAMPLES, &rate));
    IS(48000, rate);
    IS(0, vusatica_write_wave(&s, rate, memory, 2 * SAMPLES, again, sizeof again, &second));
    IS(length, second);
    IS(0, memcmp(file, again, length));
    REFUSED(17, vusatica_read_wave(&s, file, length - 1, memory, 2 * SAMPLES, &rate));
    REFUSED(17, vusatica_read_wave(&s, NULL, 0, memory, 2 * SAMPLES, &rate));
    IS(0, vusatica_init(&small, 2, 0, little, 8));
    IS(18, vusatica_read_wave(&small, file, length, little, 8, &rate));
    set_up(1);
    REFUSED(16, vusatica_read_wave(&s, file, length, memory, SAMPLES, &rate));
}

static void phrases(void) {
    size_t count, k;
    set_up(1);
    take(1, 4);
    REFUSED(19, vusatica_choose(&s, 8));
    REFUSED(19, vusatica_choose(&s, 256));
    REFUSED(19, vusatica_choose(&s, (size_t)-1));
    REFUSED(19, vusatica_delete(&s, 8));
    REFUSED(19, vusatica_delete(&s, 256));
    IS(0, vusatica_choose(&s, 1));
    take(1, 6);
    IS(0, vusatica_data_length(&s, 0, &count));
    IS(6, count);
    IS(0, vusatica_start(&s, 0.0f, 60, 0, 1.0f, &params)); /* on phrase 1 */
    IS(0, vusatica_choose(&s, 0));
    IS(0, vusatica_data_length(&s, 0, &count));
    IS(4, count);
    REFUSED(20, vusatica_delete(&s, 1));
    IS(0, vusatica_delete(&s, 0));
    IS(0, vusatica_gather(&s, memory, SAMPLES));
    for (k = 1; k <= 4; k++) IS((double)k / 64, frame(1, 0.0f)); /* the voice goes on where its phrase went */
    REFUSED(9, vusatica_gather(&s, memory, SAMPLES - 1));
    IS(0, vusatica_record(&s));
    REFUSED(21, vusatica_gather(&s, memory, SAMPLES));
    REFUSED(21, vusatica_choose(&s, 2));
    REFUSED(20, vusatica_delete(&s, 0));
    IS(0, vusatica_record_stop(&s));
    for (k = 0; k < 8; k++) IS(0, vusatica_choose(&s, k));
}

static void songs(void) {
    static const uint8_t good[] = "MThd\0\0\0\6\0\0\0\1\0\140MTrk\0\0\0\13\0\220\74\100\140\74\0\0\377\57\0";
    static const uint8_t slow[] =
        "MThd\0\0\0\6\0\0\0\1\0\1MTrk\0\0\0\22\0\377\121\3\377\377\377\377\377\377\177\220\74\100\0\377\57\0";
    uint8_t other[sizeof good];
    uint64_t list[4] = { 7, 7, 7, 7 };
    size_t count = 7, next = 0, length = sizeof good - 1;
    IS(22, vusatica_read_song(good, length, 0, list, 4, &count));
    IS(22, vusatica_read_song(good, length, 192001, list, 4, &count));
    IS(12, vusatica_read_song(good, length - 1, 44100, list, 4, &count));
    IS(12, vusatica_read_song(NULL, 0, 44100, list, 4, &count));
    memcpy(other, good, sizeof good);
    other[9] = 1;
    IS(13, vusatica_read_song(other, length, 44100, list, 4, &count));
    IS(14, vusatica_read_song(slow, sizeof slow - 1, 192000, list, 4, &count));
    IS(0, count);
    IS(8, vusatica_read_song(good, length, 44100, list, 3, &count));
    IS(2, count);
    IS(7, list[0]);
    IS(0, vusatica_read_song(good, length, 44100, list, 4, &count));
    IS(2, count);
    IS(0, list[0]);
    IS(22050, list[2]);
    set_up(1);
    take(1, 4);
    IS(0, vusatica_play_song(&s, list, 2, &next, 0, &params));
    IS(1, next);
    IS(1, frame(1, 0.0f) != 0.0f);
    IS(0, vusatica_play_song(&s, list, 2, &next, 22049, &params));
    IS(1, next);
    IS(1, frame(1, 0.0f) != 0.0f);
    IS(0, vusatica_play_song(&s, list, 2, &next, 22050, &params));
    IS(2, next);
    IS(0, frame(1, 0.0f));
    IS(0, vusatica_play_song(&s, list, 2, &next, 22051, &params));
    IS(0, vusatica_play_song(&s, NULL, 0, &next, 0, &params));
    next = 0;
    IS(2, vusatica_play_song(&s, list, 2, &next, 22050, &beyond)); /* both are refused, 4 */
    IS(2, next);
}

/* A song of two tracks, and a take of two samples, turned into what is read. */
static void turned(void) {
    static const uint8_t two[] = "MThd\0\0\0\6\0\1\0\2\0\140MTrk\0\0\0\13\0\220\74\100\140\74\0\0\377\57\0"
                                 "MTrk\0\0\0\10\60\221\100\100\0\377\57\0";
    static const uint8_t one[] = "MThd\0\0\0\6\0\0\0\1\0\140MTrk\0\0\0\20"
                                 "\0\220\74\100\60\221\100\100\60\220\74\0\0\377\57\0";
    static const uint8_t wave[] = "RIFF\50\0\0\0WAVEfmt \20\0\0\0\1\0\1\0\104\254\0\0\210\130\1\0\2\0\20\0"
                                  "data\4\0\0\0\0\100\0\340";
    static const uint8_t floats[] = { 0, 0, 0, 0x3F, 0, 0, 0x80, 0xBE };
    uint8_t other[sizeof two], spare[2 * sizeof two], out[2 * sizeof two];
    uint64_t list[6];
    size_t length = sizeof two - 1, count = 7, written = 7;
    uint32_t rate = 7;
    IS(13, vusatica_read_song(two, length, 44100, list, 6, &count));
    IS(0, vusatica_merge_song(two, length, spare, out, 2 * length, &written));
    IS(sizeof one - 1, written);
    IS(0, memcmp(out, one, written));
    IS(0, vusatica_read_song(out, written, 44100, list, 6, &count));
    IS(3, count);
    IS(11025, list[2]);
    IS(8, vusatica_merge_song(two, length, NULL, NULL, 0, &written));
    IS(2 * length, written);
    IS(8, vusatica_merge_song(two, length, spare, out, sizeof one - 2, &written));
    IS(2 * length, written);
    IS(13, vusatica_merge_song(one, sizeof one - 1, spare, out, sizeof out, &written)); /* of format 0 already */
    IS(0, written);
    memcpy(other, two, sizeof two);
    other[9] = 2;
    IS(13, vusatica_merge_song(other, length, spare, out, sizeof out, NULL));
    other[9] = 1, other[12] = 0xE7;
    IS(13, vusatica_merge_song(other, length, spare, out, sizeof out, NULL));
    IS(12, vusatica_merge_song(two, length - 1, spare, out, sizeof out, NULL));
    IS(12, vusatica_merge_song(NULL, 0, spare, out, sizeof out, NULL));
    length = sizeof wave - 1;
    set_up(1);
    REFUSED(17, vusatica_read_wave(&s, wave, length, memory, SAMPLES, &rate));
    memset(out, 7, sizeof out);
    IS(8, vusatica_turn_wave(wave, length, out, 65, &written));
    IS(66, written);
    IS(7, out[0]);
    IS(8, vusatica_turn_wave(wave, length, NULL, 0, &written));
    IS(17, vusatica_turn_wave(wave, length - 1, out, sizeof out, &written));
    IS(0, written);
    IS(17, vusatica_turn_wave(NULL, 0, out, sizeof out, NULL));
    IS(7, out[0]);
    IS(0, vusatica_turn_wave(wave, length, out, sizeof out, &written));
    IS(66, written);
    IS(0, memcmp(out + 58, floats, sizeof floats));
    IS(7, out[66]);
    IS(0, vusatica_read_wave(&s, out, written, memory, SAMPLES, &rate));
    IS(44100, rate);
}

int main(void) {
    params = made(NULL);
    beyond = made(too_long_attack);
    settings();
    set_ups();
    keys();
    three_ways();
    questions();
    interpolated();
    waves();
    phrases();
    songs();
    turned();
    printf("calls: %d tries, %d failed\n", tries, failed);
    return failed != 0;
}
