/* The starts and stops of a song. */
#include "play.h"

song song_of(const char *path, uint32_t rate, int show) {
    bytes file = bytes_of(path, "the song"), turned = file;
    song s;
    /* A start or a stop takes at least three bytes of the file, and two words of the list. */
    size_t words = 2 * (file.length / 3 + 1);
    s.list = room(words, sizeof *s.list);
    int number = vusatica_read_song(file.at, file.length, rate, s.list, words, &s.count);
    if (number == 13) {
        number = song_turned(&turned);
        if (number == 0) number = vusatica_read_song(turned.at, turned.length, rate, s.list, words, &s.count);
    }
    if (number != 0) song_refused(file, rate, number, show);
    return s;
}

cue cue_at(const song *s, size_t entry) {
    uint64_t word = s->list[2 * entry + 1];
    cue c = { s->list[2 * entry], (uint8_t)(word / 256), (uint8_t)word, (uint8_t)(word / 65536) };
    return c;
}

/* As vusatica_play_song makes it: each start at position 0, its velocity over 127. */
static int backed_call(engine *e, cue c) {
    vusatica_sampler *s = &e->sampler;
    if (c.velocity == 0) return vusatica_backed_stop(s, &e->backing, c.note, c.channel, &e->params);
    return vusatica_backed_start(s, &e->backing, 0, c.note, c.channel, (float)c.velocity / 127, &e->params);
}

size_t cue_called(const song *s, size_t entry, engine *e, uint64_t frame) {
    if (e->plain) return backed_call(e, cue_at(s, entry)) != 0;
    return vusatica_play_song(&e->sampler, s->list, entry + 1, &entry, frame, &e->params);
}
