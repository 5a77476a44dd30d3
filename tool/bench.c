/* How many times faster than it sounds a song is played by each engine: processor time, which other work beside it
 * doesn't lengthen, the best of three; nothing is written. */
#include <time.h>
#include "play.h"

enum { ROUNDS = 3 };

static double processor_seconds(void) { return (double)clock() / CLOCKS_PER_SEC; }

/* The memory is the same for all: a song records nothing. */
static player timed(const engine *loaded, song s, const job *j, uint32_t rate, int plain, double *best) {
    static engine e;
    player p;
    *best = 1e9;
    for (int round = 0; round < ROUNDS; round++) {
        e = *loaded;
        e.plain = plain;
        p = player_of(&e, s, j);
        double began = processor_seconds();
        sound_played(&p, NULL, rate);
        double took = processor_seconds() - began;
        if (took < *best) *best = took;
    }
    return p;
}

void bench_printed(const job *j) {
    engine *loaded = room(1, sizeof *loaded);
    uint32_t rate = take_loaded(loaded, j);
    song s = song_of(j->song, rate, 0);
    for (int plain = 0; plain < 2; plain++) {
        double best;
        player p = timed(loaded, s, j, rate, plain, &best);
        double seconds = (double)p.frames / rate;
        if (!plain) player_told(&p);
        if (!plain) printf("%.1f s of sound, %zu starts and stops\n", seconds, s.count);
        printf("%s engine: %.4f s of processor time, %.0f times faster than it sounds\n", plain ? "plain" : "lent", best,
            best > 0 ? seconds / best : 0);
    }
    out_shown();
}
