// Memory, the words of the command line, and error numbers, for programs that are linked with the C
// library musl, since systems need not have any. The kit has these functions for x86-64 with the C
// library glibc alone. Each is to do what its contract in the kit says; nothing proves that it does,
// and tests/check_static.py tries it. What programs call besides is in processor.c.
#include <errno.h>
#include <stdbool.h>
#include <stddef.h>
#include <stdlib.h>
#include <string.h>

// Memory. A block is aligned to 16 bytes, of which every alignment that is asked for is a divisor.
// Before it stands a number: how many units of 16 bytes it takes with the number, or 0 where it is
// large, and comes from malloc by itself. Small blocks are cut from pieces of malloc's. A thread
// keeps those that it gives back, each for the next one of as many units. With musl's malloc for
// each of them, which takes a lock, a text of JSON values took 1.4 times as long to read.
_Static_assert(_Alignof(max_align_t) >= 16 && sizeof(size_t) == 8, "malloc aligns to 16 bytes");

enum { UNIT = 16, NUMBER = 8, MOST = 64, PIECE = 65536 };

// Whether there was memory, and where it is. Where there was none, this is a byte that nobody owns.
struct tried {
    bool ok;
    unsigned char *at;
};

static unsigned char nothing;

static struct tried tried(unsigned char *at) {
    return (struct tried){at != NULL, at ? at : &nothing};
}

// The small blocks that this thread keeps, by their number of units, each of which points to the
// next one; and what it has not cut yet of its last piece.
static _Thread_local void **kept[MOST + 1];
static _Thread_local unsigned char *rest, *end;

static size_t *number_of(void *block) {
    return (size_t *)block - 1;
}

// How many units a small block of a size takes, or 0 for a large one.
static size_t units_of(size_t size) {
    return size <= MOST * UNIT - NUMBER ? (size + NUMBER + UNIT - 1) / UNIT : 0;
}

static unsigned char *small(size_t units) {
    void **block = kept[units];
    if (block) {
        kept[units] = *block;
        return (unsigned char *)block;
    }
    if ((size_t)(end - rest) < units * UNIT) {
        unsigned char *piece = malloc(PIECE);
        if (!piece) {
            return NULL;
        }
        rest = piece + UNIT;
        end = piece + PIECE;
    }
    unsigned char *at = rest;
    rest += units * UNIT;
    *number_of(at) = units;
    return at;
}

// A large block, which may have been another large one.
static unsigned char *large(unsigned char *old, size_t size) {
    unsigned char *at = realloc(old ? old - UNIT : NULL, size + UNIT);
    if (at) {
        at += UNIT;
        *number_of(at) = 0;
    }
    return at;
}

struct tried rattle_alloc(size_t size, size_t align) {
    (void)align;
    size_t units = units_of(size);
    return tried(units ? small(units) : large(NULL, size));
}

void rattle_dealloc(void *block) {
    size_t units = *number_of(block);
    if (units) {
        *(void **)block = kept[units];
        kept[units] = block;
    } else {
        free((unsigned char *)block - UNIT);
    }
}

struct tried rattle_realloc(void *block, size_t used, size_t size, size_t align) {
    size_t units = units_of(size);
    if (*number_of(block) == units) {
        return tried(units ? block : large(block, size));
    }
    struct tried next = rattle_alloc(size, align);
    if (next.ok) {
        memcpy(next.at, block, used);
        rattle_dealloc(block);
    }
    return next;
}

// The words of the command line. The linker has the start of the program call __wrap_main in the
// place of main, which is then __real_main.
static size_t count;
static char **words;

int __real_main(int argc, char **argv);

int __wrap_main(int argc, char **argv) {
    count = argc > 0 ? (size_t)argc : 0;
    words = argv;
    return __real_main(argc, argv);
}

size_t rattle_arg_count(void) {
    return count;
}

// Puts a word at the start of a buffer, and answers its length, -1 where there is no such word, or
// -2 where it does not fit, and then its first bytes fill the buffer.
ptrdiff_t rattle_arg(size_t place, char *buffer, size_t room) {
    if (place >= count || !words[place]) {
        return -1;
    }
    size_t length = 0;
    for (const char *it = words[place]; *it; it++) {
        if (length == room) {
            return -2;
        }
        buffer[length++] = *it;
    }
    return (ptrdiff_t)length;
}

// The number of the last error of this thread.
int rattle_errno(void) {
    return errno;
}

void rattle_set_errno(int error) {
    errno = error;
}
