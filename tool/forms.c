/* What the first bytes of a file say it is. */
#include <string.h>
#include "tool.h"

kind kind_of(bytes file) {
    if (begins(file, "MThd")) return SONG;
    if (begins(file, "RIFF") || begins(file, "RIFX") || begins(file, "RF64")) return WAVE;
    return LISTING;
}

static form form_at(bytes file, size_t at, uint32_t size) {
    const uint8_t *b = file.at + at;
    form f = { low2(b), low2(b + 2), low4(b + 4), low2(b + 14), size, low2(b) };
    /* An extensible form has the tag that it stands for in its last sixteen bytes. */
    if (f.tag == 0xFFFE && size >= 40) f.real_tag = low2(b + 24);
    return f;
}

int is_known(form f) {
    if (f.real_tag == 1) return f.bits == 16 || f.bits == 24 || f.bits == 32;
    return f.real_tag == 3 && (f.bits == 32 || f.bits == 64);
}

form form_of(bytes file) {
    form none = { 0, 0, 0, 0, 0, 0 };
    size_t at = 12;
    while (at + 8 <= file.length) {
        uint32_t size = low4(file.at + at + 4);
        if (memcmp(file.at + at, "fmt ", 4) == 0) {
            int whole = size >= 16 && file.length - at - 8 >= size;
            return whole ? form_at(file, at + 8, size) : none;
        }
        if (file.length - at - 8 < size) return none;
        at += 8 + (size_t)size + size % 2;
    }
    return none;
}
