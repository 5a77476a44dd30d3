/* Memory of the heap, which all goes back as the program ends. */
#include <stdlib.h>
#include <string.h>
#include "tool.h"

/* Stands before each piece, and is as large as any type's alignment. */
typedef union block { union block *next; long double wide; } block;

static block *blocks;

static void freed(void) {
    while (blocks != NULL) {
        block *b = blocks;
        blocks = b->next;
        free(b);
    }
}

void *room(size_t count, size_t size) {
    static int is_guarded;
    int fits = size == 0 || count <= (SIZE_MAX - sizeof(block)) / size;
    block *b = fits ? calloc(1, sizeof(block) + count * size) : NULL;
    if (b == NULL) fail(REFUSED, "there is no memory for %zu times %zu bytes", count, size);
    if (!is_guarded) atexit(freed);
    is_guarded = 1;
    b->next = blocks;
    blocks = b;
    return b + 1;
}

void *room_grown(const void *old, size_t used, size_t count, size_t size) {
    void *new = room(count, size);
    if (used > 0) memcpy(new, old, used * size);
    return new;
}
