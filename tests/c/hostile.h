/* What the hostile programs share: random numbers, bytes before a page that may not be touched, and
 * spoilt copies of files. A program that fails says so by its name, HOSTILE. */
#include <robus.h>
#include <stdio.h>
#include <stdlib.h>
#include <string.h>
#include <sys/mman.h>

static uint64_t state; /* of the random numbers; never 0 */

static inline uint64_t below(uint64_t bound)
{
    state ^= state << 13;
    state ^= state >> 7;
    state ^= state << 17;
    return bound == 0 ? 0 : state % bound;
}

enum { PAGE = 4096, MOST = 1 << 23 };

/* MOST bytes before a page that may not be touched. */
static inline uint8_t *fenced(void)
{
    int how = PROT_READ | PROT_WRITE;
    uint8_t *at = mmap(NULL, MOST + PAGE, how, MAP_PRIVATE | MAP_ANONYMOUS, -1, 0);
    if (at == MAP_FAILED || mprotect(at + MOST, PAGE, PROT_NONE) != 0) {
        fprintf(stderr, "%s: no memory\n", HOSTILE);
        exit(2);
    }
    return at;
}

struct bytes {
    uint8_t *at;
    size_t length;
};

static inline struct bytes read_file(const char *path)
{
    FILE *file = fopen(path, "rb");
    struct bytes found = {malloc(1 << 20), 0};
    if (file == NULL || found.at == NULL) {
        fprintf(stderr, "%s: %s cannot be read\n", HOSTILE, path);
        exit(2);
    }
    found.length = fread(found.at, 1, 1 << 20, file);
    fclose(file);
    return found;
}

/* Edits a text in place, `edits` times: a byte is another, a part is gone, or one is there twice.
 * Gives its new length. */
static inline size_t spoil(uint8_t *room, size_t length, uint64_t edits)
{
    for (; edits > 0 && length > 1; edits--) {
        size_t i = below(length), part = below(length - i) % 40;
        switch (below(4)) {
        case 0: room[i] = below(256); break;
        case 1: room[i] = '0' + below(10); break;
        case 2: memmove(room + i, room + i + part, length - i - part); length -= part; break;
        default: memmove(room + i + part, room + i, length - i); length += part; break;
        }
    }
    return length;
}

/* Random bytes, or a copy of a file with up to three edits, at the end of a fence. */
static inline struct bytes some_input(uint8_t *fence, const struct bytes *files, size_t count)
{
    static uint8_t room[1 << 21];
    size_t length;
    if (count == 0 || below(5) == 0) {
        length = below(300);
        for (size_t i = 0; i < length; i++)
            room[i] = below(256);
    } else {
        struct bytes from = files[below(count)];
        memcpy(room, from.at, from.length);
        length = spoil(room, from.length, below(4));
    }
    memcpy(fence + MOST - length, room, length);
    return (struct bytes){fence + MOST - length, length};
}
