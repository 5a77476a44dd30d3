/* Plays a song in blocks of 64 frames, as a sound card asks for them, on the two samples that first.c records, and
 * prints a line for each frame: its time and its output.
 *
 *     blocks SONG.mid RATE [cut | frames | between]
 *
 * `cut`, which is what a host should do, cuts each block at the next key: it plays the frames up to it by one call,
 * makes the key's call, and goes on. No key is late, and there are no more calls than keys and blocks. `frames` plays
 * frame by frame, which sounds the same. `between` makes the calls only between blocks: each key waits for the next
 * block, up to 63 frames. Standard error has how late the keys were. */
#include <stdio.h>
#include <stdlib.h>
#include <string.h>
#include "vusatica.h"

#define BLOCK 64
#define SAMPLES 4096

static vusatica_sampler s;
static vusatica_params params;
static uint32_t memory[SAMPLES];
static uint8_t file[1 << 20];
static uint64_t *list;             /* two words an entry: its frame, its key */
static size_t entries, next;
static size_t late, latest, refused;

static void done(const char *what, int number) {
    if (number == VUSATICA_DONE) return;
    fprintf(stderr, "blocks: %s: refused, %d\n", what, number);
    exit(1);
}

/* The calls that are due at this frame, and how late they are. */
static void keys(uint64_t frame) {
    size_t i = next;
    refused += vusatica_play_song(&s, list, entries, &next, frame, &params);
    for (; i < next; i++) {
        size_t by = (size_t)(frame - list[2 * i]);
        if (by > 0) late++;
        if (by > latest) latest = by;
    }
}

static void play(float *block, size_t frames) {
    size_t played;
    done("run", vusatica_frames(&s, block, frames, &params, memory, SAMPLES, &played));
}

/* A block that begins at the frame `at`, cut at each key in it. */
static void block_cut(float *block, uint64_t at) {
    size_t i = 0;
    while (i < BLOCK) {
        size_t end = BLOCK;
        keys(at + i);
        if (next < entries && list[2 * next] < at + BLOCK) end = (size_t)(list[2 * next] - at);
        play(block + i, end - i);
        i = end;
    }
}

static void block_by_frames(float *block, uint64_t at) {
    size_t i;
    for (i = 0; i < BLOCK; i++) {
        keys(at + i);
        done("frame", vusatica_frame(&s, block + i, 1, &params, memory, SAMPLES, NULL));
    }
}

static void block_between(float *block, uint64_t at) {
    keys(at);
    play(block, BLOCK);
}

/* The file is read twice: into no list, which answers how many entries there are (8), then into one that holds them. */
static void read_song(const char *name, uint32_t rate) {
    FILE *song = fopen(name, "rb");
    size_t length = song ? fread(file, 1, sizeof file, song) : 0;
    int number = vusatica_read_song(file, length, rate, NULL, 0, &entries);
    if (song) fclose(song);
    if (number != VUSATICA_SHORT_LIST) done("song", number);
    list = calloc(2 * entries + 1, sizeof *list);
    if (list == NULL) exit(1);
    done("song", vusatica_read_song(file, length, rate, list, 2 * entries, &entries));
}

static void record(void) {
    static float take[2] = { 0.5f, 0.25f };
    float rest[4] = { 0 };
    vusatica_settings settings = VUSATICA_DEFAULT_SETTINGS;
    settings.attack_samples = settings.decay_samples = 0;
    settings.auto_passthru = 0;
    settings.note_off = VUSATICA_DECAY;
    done("parameters", vusatica_params_make(&params, &settings));
    done("set-up", vusatica_init(&s, 1, 0, memory, SAMPLES));
    done("record", vusatica_record(&s));
    play(take, 2);
    done("record stop", vusatica_record_stop(&s));
    play(rest, 4);
}

int main(int count, char **words) {
    const char *how = count > 3 ? words[3] : "cut";
    uint64_t at, last;
    size_t time, i;
    if (count < 3) {
        fprintf(stderr, "usage: blocks SONG.mid RATE [cut | frames | between]\n");
        return 2;
    }
    read_song(words[1], (uint32_t)strtoul(words[2], NULL, 10));
    record();
    done("time", vusatica_frames_processed(&s, 0, &time));
    last = entries > 0 ? list[2 * (entries - 1)] : 0;
    for (at = 0; at <= last; at += BLOCK) {
        float block[BLOCK] = { 0 };
        if (strcmp(how, "frames") == 0) block_by_frames(block, at);
        else if (strcmp(how, "between") == 0) block_between(block, at);
        else block_cut(block, at);
        for (i = 0; i < BLOCK && at + i <= last; i++) {
            uint32_t bits;
            memcpy(&bits, &block[i], sizeof bits);
            printf("F %lu %08lX\n", (unsigned long)(time + at + i), (unsigned long)bits);
        }
    }
    fprintf(stderr, "blocks: %lu keys, %lu of them late, the latest by %lu frames; %lu refused\n",
            (unsigned long)entries, (unsigned long)late, (unsigned long)latest, (unsigned long)refused);
    return fflush(stdout) == 0 ? 0 : 1;
}
