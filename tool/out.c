/* A file that is written beside itself, and takes its name when it is whole. */
#include <errno.h>
#include <signal.h>
#include <stdlib.h>
#include <string.h>
#include <sys/stat.h>
#include <unistd.h>
#include "tool.h"

/* The file that is being written: one at a time. A handler of signals reads it. */
static char *volatile halfway;

void out_abandoned(void) {
    if (halfway != NULL) unlink(halfway);
    halfway = NULL;
}

static void ended(int number) {
    out_abandoned();
    signal(number, SIG_DFL);
    raise(number);
}

static void guarded(void) {
    static const int numbers[] = { SIGHUP, SIGINT, SIGTERM, SIGPIPE };
    for (size_t i = 0; i < sizeof numbers / sizeof *numbers; i++)
        if (signal(numbers[i], ended) == SIG_IGN) signal(numbers[i], SIG_IGN);
    /* A limit of a file's size is then an error of a write. */
    signal(SIGXFSZ, SIG_IGN);
}

static char *joined(const char *front, size_t length, const char *back) {
    char *text = room(length + strlen(back) + 1, 1);
    memcpy(text, front, length);
    strcpy(text + length, back);
    return text;
}

/* The folder of a file. */
static char *folder_of(const char *name) {
    const char *slash = strrchr(name, '/');
    if (slash == NULL) return joined(".", 1, "");
    return slash == name ? joined("/", 1, "") : joined(name, (size_t)(slash - name), "");
}

/* A pipe, a device or standard output is written as it is. */
static int is_special(const char *name) {
    struct stat s;
    return strcmp(name, "-") == 0 || (stat(name, &s) == 0 && !S_ISREG(s.st_mode));
}

void out_asked(const char *name) {
    struct stat s;
    if (strcmp(name, "-") == 0) return;
    if (stat(name, &s) == 0 && S_ISDIR(s.st_mode)) fail(LOST, "'%s' can't be written: it is a folder", name);
    if (is_special(name)) return;
    char *folder = folder_of(name);
    if (stat(folder, &s) != 0) fail(LOST, "'%s' can't be written: there is no folder '%s'", name, folder);
    if (!S_ISDIR(s.st_mode)) fail(LOST, "'%s' can't be written: '%s' is no folder", name, folder);
    if (access(folder, W_OK | X_OK) != 0) fail(LOST, "'%s' can't be written: %s", name, strerror(errno));
}

static void unwritten(const out *o) {
    fail(LOST, "'%s' was not written: %s", o->name, strerror(errno));
}

static void beside(out *o) {
    mode_t mask = umask(0);
    umask(mask);
    /* A link stays one: what it leads to is written. */
    char *real = realpath(o->name, NULL);
    o->target = real != NULL ? joined(real, strlen(real), "") : joined(o->name, strlen(o->name), "");
    free(real);
    o->beside = joined(o->target, strlen(o->target), ".XXXXXX");
    int descriptor = mkstemp(o->beside);
    if (descriptor < 0) unwritten(o);
    halfway = o->beside;
    fchmod(descriptor, 0666 & ~mask);
    o->stream = fdopen(descriptor, "wb");
}

out out_opened(const char *name) {
    out o = { NULL, name, NULL, NULL };
    guarded();
    out_asked(name);
    if (strcmp(name, "-") == 0) o.stream = stdout;
    else if (is_special(name)) o.stream = fopen(name, "wb");
    else beside(&o);
    if (o.stream == NULL) unwritten(&o);
    return o;
}

void out_put(out *o, const void *data, size_t length) {
    if (fwrite(data, 1, length, o->stream) != length) unwritten(o);
}

void out_closed(out *o) {
    if (fflush(o->stream) != 0) unwritten(o);
    if (o->stream == stdout) return;
    if (fclose(o->stream) != 0) unwritten(o);
    if (o->beside == NULL) return;
    if (rename(o->beside, o->target) != 0) unwritten(o);
    halfway = NULL;
}

void out_shown(void) {
    if (fflush(stdout) != 0 || ferror(stdout)) fail(LOST, "the output was lost: not every line was written");
}
