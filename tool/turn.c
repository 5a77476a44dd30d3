/* Files of other forms, turned by the library's proved functions into those that it reads, and said. */
#include "play.h"

int song_turned(bytes *file) {
    /* Enough for either list: no more than that is ever needed. */
    size_t space = 2 * file->length;
    uint8_t *spare = room(space, 1);
    bytes merged = { room(space, 1), 0 };
    int number = vusatica_merge_song(file->at, file->length, spare, merged.at, space, &merged.length);
    if (number != 0) return number;
    say("a song of format 1: its %u tracks are played as one", high2(file->at + 10));
    *file = merged;
    return 0;
}

static void wave_told(form f, const char *what) {
    if (f.real_tag == 1) say("%s is a WAVE file of %u-bit whole numbers: turned into 32-bit floats", what, f.bits);
    else if (f.bits != 32) say("%s is a WAVE file of %u-bit floats: turned into 32-bit floats", what, f.bits);
    else say("%s is a WAVE file of 32-bit floats with another head: turned into the one that is read", what);
}

int wave_turned(bytes *file, const char *what) {
    bytes turned = { NULL, 0 };
    int number = vusatica_turn_wave(file->at, file->length, NULL, 0, &turned.length);
    if (number != 8) return number;
    turned.at = room(turned.length, 1);
    number = vusatica_turn_wave(file->at, file->length, turned.at, turned.length, &turned.length);
    if (number != 0) return number;
    wave_told(form_of(*file), what);
    *file = turned;
    return 0;
}
