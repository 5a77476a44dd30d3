/* All of a song, in runs of frames, to a WAVE file or to none. */
#include "play.h"

enum { RUN = 4096 };

void sound_played(player *p, const char *name, uint32_t rate) {
    size_t channels = p->engine->channels, frames;
    float *run = room(RUN * channels, sizeof *run);
    progress g = progress_begun(p->frames, rate);
    out o = { NULL, NULL, NULL, NULL };
    if (name != NULL) {
        o = out_opened(name);
        wav_head(&o, rate, channels, p->frames);
    }
    while ((frames = player_run(p, run, RUN)) > 0) {
        if (name != NULL) wav_words(&o, run, frames * channels);
        progress_told(&g, p->frame);
    }
    if (name != NULL) out_closed(&o);
}
