/* The starts and stops of a song, a line each. */
#include "play.h"

void cues_printed(const song *s) {
    for (size_t i = 0; i < s->count && !ferror(stdout); i++) {
        cue c = cue_at(s, i);
        unsigned long long frame = c.frame;
        if (c.velocity > 0) printf("%llu start %d %d %d\n", frame, c.note, c.channel, c.velocity);
        else printf("%llu stop %d %d\n", frame, c.note, c.channel);
    }
    out_shown();
}
