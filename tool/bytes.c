/* Files that are read whole, and the numbers in them. */
#include <errno.h>
#include <string.h>
#include "tool.h"

bytes bytes_of(const char *path, const char *what) {
    bytes file = { NULL, 0 };
    size_t space = 0, got;
    FILE *stream = strcmp(path, "-") == 0 ? stdin : fopen(path, "rb");
    if (stream == NULL) fail(WRONG, "%s, '%s', can't be opened: %s", what, path, strerror(errno));
    do {
        if (file.length == space) {
            space = 4 * space + 65536;
            file.at = room_grown(file.at, file.length, space, 1);
        }
        got = fread(file.at + file.length, 1, space - file.length, stream);
        file.length += got;
    } while (got > 0);
    if (ferror(stream)) fail(WRONG, "%s can't be read: %s", what, strerror(errno));
    if (stream != stdin) fclose(stream);
    return file;
}

uint32_t low2(const uint8_t *b) { return (uint32_t)b[0] | (uint32_t)b[1] << 8; }
uint32_t low4(const uint8_t *b) { return low2(b) | low2(b + 2) << 16; }
uint32_t high2(const uint8_t *b) { return (uint32_t)b[0] << 8 | (uint32_t)b[1]; }
uint32_t high4(const uint8_t *b) { return high2(b) << 16 | high2(b + 2); }

int begins(bytes file, const char *four) { return file.length >= 4 && memcmp(file.at, four, 4) == 0; }
