/* What is asked of the tool. `play` has judged which words go together; here are their values. */
#include <math.h>
#include <stdlib.h>
#include <string.h>
#include "tool.h"

static const char *const LOOPS[] = { "once", "loop", "ping-pong", NULL };
static const char *const NOTE_OFFS[] = { "decay", "crossing", "either", NULL };

/* Whether a word is digits alone, and few enough. */
static int is_whole(const char *word) {
    size_t digits = strspn(word, "0123456789");
    return digits > 0 && word[digits] == '\0' && digits < 10;
}

static size_t whole(const char *option, const char *word, size_t least, size_t most) {
    size_t n = is_whole(word) ? strtoul(word, NULL, 10) : most + 1;
    if (n < least || n > most)
        fail(WRONG, "%s asks for a whole number from %zu to %zu, not '%s'", option, least, most, word);
    return n;
}

static int one_of(const char *option, const char *word, const char *const *names) {
    for (int i = 0; names[i] != NULL; i++)
        if (strcmp(word, names[i]) == 0) return i;
    fail(WRONG, "%s asks for %s, %s or %s, not '%s'", option, names[0], names[1], names[2], word);
    return 0;
}

/* A decimal number, and what stands behind it. */
static double decimal(const char *word, char **rest) {
    if (strspn(word, "0123456789.") == 0) {
        *rest = (char *)word;
        return -1;
    }
    return strtod(word, rest);
}

/* A whole number is of samples; with a point, or s or ms behind it, it is of seconds. */
static span span_of(const char *option, const char *word) {
    char *rest;
    span s = { 1, strchr(word, '.') != NULL, decimal(word, &rest) };
    if (strcmp(rest, "ms") == 0) s.value /= 1000;
    if (strcmp(rest, "ms") == 0 || strcmp(rest, "s") == 0) s.seconds = 1;
    else if (*rest != '\0') s.value = -1;
    if (!(s.value >= 0 && s.value < 1e15))
        fail(WRONG, "%s asks for samples (100) or seconds (0.5, 2s, 20ms), not '%s'", option, word);
    return s;
}

static float volume_of(const char *word) {
    char *rest;
    double v = decimal(word[0] == '-' ? word + 1 : word, &rest);
    if (*rest != '\0' || !(v >= 0 && v < 1e30)) fail(WRONG, "--volume asks for a number, not '%s'", word);
    return (float)(word[0] == '-' ? -v : v);
}

static void phrases_of(job *j, char *word) {
    if (*word == '\0') fail(WRONG, "--phrases asks for files with commas between them");
    for (char *name = word; name != NULL;) {
        char *comma = strchr(name, ',');
        if (comma != NULL) *comma++ = '\0';
        if (j->phrase_count == 8) fail(WRONG, "--phrases has at most eight files");
        j->phrases[j->phrase_count++] = name;
        name = comma;
    }
}

/* A word that has a value behind it. */
static void valued(job *j, const char *option, char *word) {
    if (strcmp(option, "--song") == 0) j->song = word;
    else if (strcmp(option, "--take") == 0) j->take = word;
    else if (strcmp(option, "--wav") == 0) j->wav = word;
    else if (strcmp(option, "--recording") == 0) j->recording = word;
    else if (strcmp(option, "--lag") == 0) j->lag = word;
    else if (strcmp(option, "--phrases") == 0) phrases_of(j, word);
    else if (strcmp(option, "--rate") == 0) j->rate = word;
    else if (strcmp(option, "--loop") == 0) j->loop = one_of(option, word, LOOPS);
    else if (strcmp(option, "--note-off") == 0) j->note_off = one_of(option, word, NOTE_OFFS);
    else if (strcmp(option, "--attack") == 0) j->attack = span_of(option, word);
    else if (strcmp(option, "--decay") == 0) j->decay = span_of(option, word);
    else if (strcmp(option, "--volume") == 0) j->volume_given = 1, j->volume = volume_of(word);
    else if (strcmp(option, "--pitch") == 0) j->pitch = (int)whole(option, word, 0, 127);
    else if (strcmp(option, "--block") == 0) j->block = whole(option, word, 1, 1000000);
    else if (strcmp(option, "--waveform") == 0)
        j->task = WAVEFORM, j->columns = is_whole(word) ? strtoul(word, NULL, 10) : SIZE_MAX;
    else fail(WRONG, "there is no option %s", option);
}

/* A word that stands alone. */
static int alone(job *j, const char *word) {
    if (strcmp(word, "--cues") == 0) j->task = CUES;
    else if (strcmp(word, "--bench") == 0) j->task = BENCH;
    else if (strcmp(word, "--smooth") == 0) j->smooth = 1;
    else if (strcmp(word, "--plain") == 0) j->plain = 1;
    else if (strcmp(word, "--bars") == 0) j->bars = 1;
    else return 0;
    return 1;
}

job job_of(int count, char **words) {
    job j;
    memset(&j, 0, sizeof j);
    j.task = PLAY, j.loop = j.note_off = j.pitch = -1, j.block = 1;
    for (int i = 1; i < count; i++) {
        if (alone(&j, words[i])) continue;
        if (i + 1 == count) fail(WRONG, "%s asks for a word behind it", words[i]);
        valued(&j, words[i], words[i + 1]);
        i++;
    }
    /* what ./play sees to before */
    if (j.song == NULL) fail(WRONG, "no file is named: --song FILE; ./play --help says what to ask for");
    if ((j.task == PLAY || j.task == BENCH) && j.take == NULL && j.phrase_count == 0)
        fail(WRONG, "no take is named: --take TAKE");
    return j;
}

uint32_t rate_of(const char *word) {
    return is_whole(word) ? (uint32_t)strtoul(word, NULL, 10) : 0;
}
