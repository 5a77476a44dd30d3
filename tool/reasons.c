/* Why a file is refused, for a person, and what to do about it. */
#include "tool.h"

static const char *advice_of(int number) {
    return number == 13 ? "; save it as format 0 or 1 (\"type 0\", \"type 1\") with times in ticks" : "";
}

void song_refused(bytes file, uint32_t rate, int number, int show) {
    fault f = song_fault(file, rate);
    if (show) printf("R %d\n", number);
    if (number == 22 || f.number != number) refuse("the song", number, "%s%s", words_of(number), advice_of(number));
    if (kind_of(file) == WAVE)
        refuse("the song", number, "byte %zu: %s; this is a WAVE file: --take plays a song on it", f.at, f.words);
    refuse("the song", number, "byte %zu: %s%s", f.at, f.words, advice_of(number));
}

void song_judged(bytes file, int show) {
    int other = begins(file, "MThd") && file.length >= 10 && high4(file.at + 4) >= 6 && high2(file.at + 8) > 1;
    if (other) song_refused(file, 1, 13, show);
}

static const char TURN[] = "; `sox IN.wav -e floating-point -b 32 OUT.wav` makes one that is";

/* What another form is. */
static void other_form(form f, const char *what) {
    if (f.real_tag == 1)
        refuse(what, 17, "a WAVE file of %u-bit whole numbers, where 16, 24 and 32 bits are read%s", f.bits, TURN);
    if (f.real_tag == 3)
        refuse(what, 17, "a WAVE file of %u-bit floats, where 32 and 64 bits are read%s", f.bits, TURN);
    refuse(what, 17, "a WAVE file with the tag %u, where 1 (whole numbers) and 3 (floats) are read%s", f.real_tag,
        TURN);
}

void wave_judged(bytes file, const char *what) {
    form f = form_of(file);
    if (kind_of(file) == WAVE && f.tag != 0 && !is_known(f)) other_form(f, what);
}

void wave_refused(bytes file, const char *what, int number) {
    form f = form_of(file);
    if (number == 16 && f.tag != 0)
        refuse(what, number, "it has %u channels, where 1 or 2 are played, the same in every phrase", f.channels);
    if (number == 17 && f.tag == 0) refuse(what, number, "a WAVE file without a whole `fmt `");
    if (number == 17 && !is_known(f)) other_form(f, what);
    if (number == 17) refuse(what, number, "a WAVE file that is cut short, or whose sizes disagree");
    refuse(what, number, "%s", words_of(number));
}
