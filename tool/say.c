/* Sentences on standard error, and the end of the program. */
#include <stdarg.h>
#include <stdlib.h>
#include "tool.h"

static void sentence(const char *format, va_list values) {
    vfprintf(stderr, format, values);
}

void say(const char *format, ...) {
    va_list values;
    va_start(values, format);
    fputs("play: ", stderr);
    sentence(format, values);
    fputc('\n', stderr);
    va_end(values);
}

void fail(int status, const char *format, ...) {
    va_list values;
    va_start(values, format);
    fputs("play: ", stderr);
    sentence(format, values);
    fputc('\n', stderr);
    va_end(values);
    out_abandoned();
    exit(status);
}

void refuse(const char *what, int number, const char *words, ...) {
    va_list values;
    va_start(values, words);
    out_shown();
    fprintf(stderr, "play: %s is refused: ", what);
    sentence(words, values);
    fprintf(stderr, " (%d)\n", number);
    va_end(values);
    out_abandoned();
    exit(REFUSED);
}

const char *words_of(int number) {
    switch (number) {
    case 4: return "attack or decay above 16777216 samples, or a loop that is too long";
    case 5: return "a channel has 32 voices already";
    case 6: return "the clock has come to its end, 2^48 frames";
    case 8: return "the list is too short";
    case 9: return "too little memory";
    case 11: return "more than 4096 columns";
    case 12: return "not a good Standard MIDI File";
    case 13: return "not format 0 or 1, or SMPTE times";
    case 14: return "a start or stop after frame 2^48";
    case 15: return "it is being recorded";
    case 16: return "another channel count, or channels of different lengths";
    case 17: return "not a WAVE file that is read, or cut short";
    case 18: return "more than 4194304 samples a channel";
    case 19: return "no such phrase";
    case 21: return "it is being recorded";
    case 22: return "a rate outside 1 to 192000";
    default: return "the library refuses it";
    }
}
