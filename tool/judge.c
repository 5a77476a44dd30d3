/* What can be judged before the library is there: words, outputs, and files by their heads. */
#include "tool.h"

int is_lines(const job *j) { return j->task == PLAY && j->wav == NULL && j->recording == NULL && j->lag == NULL; }

void outs_judged(const job *j) {
    if (j->wav != NULL) out_asked(j->wav);
    if (j->recording != NULL) out_asked(j->recording);
    if (j->lag != NULL) out_asked(j->lag);
}

static void phrases_judged(const job *j) {
    char what[32];
    for (size_t i = 0; i < j->phrase_count; i++) {
        bytes file = bytes_of(j->phrases[i], "a phrase");
        sprintf(what, "phrase %zu", i);
        if (kind_of(file) != WAVE) refuse(what, 17, "no WAVE file");
        wave_judged(file, what);
    }
}

void files_judged(const job *j) {
    phrases_judged(j);
    if (j->take != NULL) wave_judged(bytes_of(j->take, "the take"), "the take");
    if (j->song == NULL) return;
    bytes file = bytes_of(j->song, "the song");
    if (j->task == WAVEFORM) wave_judged(file, "the file");
    else song_judged(file, j->task == CUES || is_lines(j));
}
