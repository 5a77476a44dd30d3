/* tool.h: what the files of the tool have of one another. The tool is a host in C on libvusatica: it plays songs on
 * takes, and shows them. `play` launches it. Each function that can fail ends the program with a sentence and a status,
 * and leaves no file half written. */
#ifndef TOOL_H
#define TOOL_H

#include <stddef.h>
#include <stdint.h>
#include <stdio.h>

/* ---- say.c: sentences on standard error, and the end of the program */

enum { DONE = 0, REFUSED = 1, WRONG = 2, LOST = 3 };

void say(const char *format, ...);
void fail(int status, const char *format, ...);
/* "WHAT is refused: WORDS (NUMBER)", status 1. */
void refuse(const char *what, int number, const char *words, ...);
/* The words of a number of document 01 or 02, where nothing more is known. */
const char *words_of(int number);

/* ---- room.c: memory of the heap, zeroed, until the program ends */

void *room(size_t count, size_t size);
/* The same with what the first `used` places of another had. */
void *room_grown(const void *old, size_t used, size_t count, size_t size);

/* ---- bytes.c: files that are read whole */

typedef struct { uint8_t *at; size_t length; } bytes;

bytes bytes_of(const char *path, const char *what);
/* Numbers of two and four bytes, the lowest or the highest first. */
uint32_t low2(const uint8_t *b);
uint32_t low4(const uint8_t *b);
uint32_t high2(const uint8_t *b);
uint32_t high4(const uint8_t *b);
int begins(bytes file, const char *four);

/* ---- out.c: a file that is written beside itself and renamed when it is whole */

typedef struct { FILE *stream; const char *name; char *target, *beside; } out;

/* Whether the file could be written, asked before any work: where it can't, that ends the program. */
void out_asked(const char *name);
out out_opened(const char *name);
void out_put(out *o, const void *data, size_t length);
void out_closed(out *o);
/* Takes away what is half written. */
void out_abandoned(void);
/* Flushes standard output, or says that it was lost. */
void out_shown(void);

/* ---- words.c: what is asked of the tool */

typedef enum { CUES, WAVEFORM, PLAY, BENCH } task;

/* A time that is given in samples or in seconds. */
typedef struct { int given, seconds; double value; } span;

typedef struct {
    task task;
    const char *song, *take, *wav, *recording, *lag;
    const char *phrases[8];
    size_t phrase_count;
    const char *rate; /* NULL: not given */
    int loop, note_off; /* -1: not given */
    span attack, decay;
    int volume_given;
    float volume;
    int smooth, plain, bars;
    int pitch; /* -1: not given */
    size_t block, columns;
} job;

job job_of(int count, char **words);
/* The rate that is given; 0, which is no rate, for a word that is no number. */
uint32_t rate_of(const char *word);

/* ---- forms.c: what the first bytes of a file say it is */

typedef enum { SONG, WAVE, LISTING } kind;

kind kind_of(bytes file);
/* What `fmt ` says; tag 0 where there is none. */
typedef struct { uint32_t tag, channels, rate, bits, size, real_tag; } form;
form form_of(bytes file);
/* Whether the numbers in it are of a kind that is read. */
int is_known(form f);

/* ---- reasons.c: why a file is refused, for a person */

/* Refuses a song by its number: at which byte, and why. */
void song_refused(bytes file, uint32_t rate, int number, int show);
/* Refuses a WAVE file by number 16, 17 or 18. */
void wave_refused(bytes file, const char *what, int number);
/* Files that the library refuses by their header alone. `show`: the line on standard output too. */
void song_judged(bytes file, int show);
void wave_judged(bytes file, const char *what);

/* ---- judge.c: what can be judged before the library is there */

/* Whether the lines of a song's frames are printed: nothing else is asked for. */
int is_lines(const job *j);
/* Whether each output could be written. */
void outs_judged(const job *j);
/* Whether each input is of a form that is read. */
void files_judged(const job *j);

/* ---- faults.c: where a song breaks the document */

typedef struct { int number; const char *words; size_t at; } fault;
/* number 0 where nothing is found */
fault song_fault(bytes file, uint32_t rate);

#endif
