/* A WAVE file of 32-bit floats as request 10/12 has it: RIFF, `fmt ` of 18 bytes with tag 3, `fact`, `data`: 58
 * bytes before the first sample. */
#include <string.h>
#include "play.h"

static uint8_t *put2(uint8_t *b, uint32_t n) {
    b[0] = (uint8_t)n, b[1] = (uint8_t)(n >> 8);
    return b + 2;
}

static uint8_t *put4(uint8_t *b, uint32_t n) { return put2(put2(b, n & 0xFFFF), n >> 16); }

static uint8_t *put_name(uint8_t *b, const char *name) {
    memcpy(b, name, 4);
    return b + 4;
}

void wav_head(out *o, uint32_t rate, size_t channels, uint64_t frames) {
    uint8_t head[58], *b = head;
    uint32_t wide = (uint32_t)(4 * channels);
    if (frames > (UINT32_MAX - 50) / wide)
        fail(REFUSED, "the song has %llu frames: a WAVE file has no room for them", (unsigned long long)frames);
    uint32_t size = (uint32_t)frames * wide;
    b = put4(put_name(b, "RIFF"), size + 50);
    b = put4(put_name(put_name(b, "WAVE"), "fmt "), 18);
    b = put2(put2(b, 3), (uint32_t)channels);
    b = put4(put4(b, rate), rate * wide);
    b = put2(put2(put2(b, wide), 32), 0);
    b = put4(put4(put_name(b, "fact"), 4), (uint32_t)frames);
    put4(put_name(b, "data"), size);
    out_put(o, head, sizeof head);
}

void wav_words(out *o, const float *values, size_t count) {
    uint8_t words[4096];
    size_t used = 0;
    for (size_t i = 0; i < count; i++) {
        put4(words + used, bits_of(values[i]));
        used += 4;
        if (used < sizeof words && i + 1 < count) continue;
        out_put(o, words, used);
        used = 0;
    }
}
