/* The tool: plays a song on a take, or shows what is in a file. */
#include "play.h"

static void played(const job *j) {
    engine *e = room(1, sizeof *e);
    uint32_t rate = take_loaded(e, j);
    player p = player_of(e, song_of(j->song, rate, is_lines(j)), j);
    if (j->lag != NULL) p.lag = lag_begun(&p, j->smooth);
    if (is_lines(j)) lines_printed(&p);
    else sound_played(&p, j->wav, rate);
    player_told(&p);
    if (j->lag != NULL) lag_told(p.lag, &p, j->lag, rate);
    if (j->recording == NULL) return;
    bytes file = engine_recording(e, rate);
    out o = out_opened(j->recording);
    out_put(&o, file.at, file.length);
    out_closed(&o);
}

static void shown(const job *j) {
    engine *e = room(1, sizeof *e);
    file_loaded(e, j->song);
    waveform_printed(e, j->columns, j->bars);
}

static void cues_of(const job *j) {
    song s = song_of(j->song, j->rate != NULL ? rate_of(j->rate) : 44100, 1);
    cues_printed(&s);
}

int main(int count, char **words) {
    job j = job_of(count, words);
    if (vusatica_version() != VUSATICA_VERSION)
        fail(REFUSED, "the library is of version %u, and the tool of %u", vusatica_version(), VUSATICA_VERSION);
    outs_judged(&j);
    switch (j.task) {
    case CUES: cues_of(&j); break;
    case WAVEFORM: shown(&j); break;
    case BENCH: bench_printed(&j); break;
    default: played(&j);
    }
    return DONE;
}
