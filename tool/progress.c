/* How far a long song is, on standard error: on a terminal a line that changes, else a line every five seconds. */
#include <time.h>
#include <unistd.h>
#include "play.h"

double seconds_now(void) {
    struct timespec t;
    clock_gettime(CLOCK_MONOTONIC, &t);
    return (double)t.tv_sec + (double)t.tv_nsec * 1e-9;
}

progress progress_begun(uint64_t frames, uint32_t rate) {
    double now = seconds_now();
    progress g = { now, now, frames, rate };
    return g;
}

void progress_told(progress *g, uint64_t frame) {
    double now = seconds_now();
    int is_terminal = isatty(STDERR_FILENO), is_end = frame == g->frames;
    if (is_end ? g->told == g->began : now - g->told < (is_terminal ? 0.5 : 5)) return;
    g->told = now;
    fprintf(stderr, "play: %.0f of %.0f s of the song%s", (double)frame / g->rate, (double)g->frames / g->rate,
        is_terminal && !is_end ? " \r" : "\n");
}
