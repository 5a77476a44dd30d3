/* The line of each frame of a song, as `events` prints frames. */
#include <string.h>
#include "play.h"

uint32_t bits_of(float value) {
    uint32_t bits;
    memcpy(&bits, &value, sizeof bits);
    return bits;
}

void value_shown(float value) {
    if (value != value) printf("NAN");
    else printf("%08X", (unsigned)bits_of(value));
}

static void frame_line(uint64_t clock, const float *frame, size_t channels, size_t voices) {
    printf("F %llu ", (unsigned long long)clock);
    for (size_t j = 0; j < channels; j++) {
        value_shown(frame[j]);
        putchar(' ');
    }
    printf("%zu\n", voices);
}

void lines_printed(player *p) {
    float frame[2];
    uint64_t clock = engine_clock(p->engine);
    while (player_run(p, frame, 1) > 0) {
        frame_line(clock++, frame, p->engine->channels, engine_voices(p->engine));
        if (ferror(stdout)) break;
    }
    out_shown();
}
