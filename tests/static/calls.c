// Calls each function of tools/shims, and prints what differs from what its contract says. The
// program gets the words "", "four" and "a b". With the first word `leaves` it prints what the
// processor can do instead.
#include <errno.h>
#include <pthread.h>
#include <signal.h>
#include <stdbool.h>
#include <stddef.h>
#include <stdint.h>
#include <stdio.h>
#include <string.h>
#include <sys/resource.h>
#include <unistd.h>

struct tried {
    bool ok;
    unsigned char *at;
};
struct tried rattle_alloc(size_t size, size_t align);
struct tried rattle_realloc(void *block, size_t kept, size_t size, size_t align);
void rattle_dealloc(void *block);
size_t rattle_arg_count(void);
ptrdiff_t rattle_arg(size_t place, char *buffer, size_t room);
int rattle_errno(void);
void rattle_set_errno(int error);
ssize_t __write(int file, const void *bytes, size_t length);

static int faults;

static void holds(const char *what, bool is_well) {
    if (!is_well) {
        faults++;
        // (printf would want more on arm64 than musl has)
        puts(what);
    }
}

// What is asked for here is more than any address space has.
static const size_t TOO_MUCH = (size_t)1 << 62;

static void memory(void) {
    struct tried none = rattle_alloc(0, 8), much = rattle_alloc(TOO_MUCH, 8);
    holds("no bytes are to be had", none.ok && none.at);
    holds("too many are not", !much.ok && much.at);
    for (size_t size = 1; size <= 100000; size = size * 3 + 1) {
        struct tried block = rattle_alloc(size, 16);
        holds("a block is aligned to 16 bytes", block.ok && (uintptr_t)block.at % 16 == 0);
        memset(block.at, (int)size, size);
        struct tried more = rattle_realloc(block.at, size, 3 * size, 16);
        bool is_same = more.ok && (uintptr_t)more.at % 16 == 0;
        for (size_t at = 0; at < size; at++)
            is_same = is_same && more.at[at] == (unsigned char)size;
        holds("a block that grows keeps its bytes", is_same);
        struct tried failed = rattle_realloc(more.at, size, TOO_MUCH, 16);
        holds("where it cannot grow, nothing has changed",
              !failed.ok && failed.at != more.at && more.at[size - 1] == (unsigned char)size);
        struct tried less = rattle_realloc(more.at, 1, 1, 1);
        holds("a block that shrinks keeps its bytes",
              less.ok && less.at[0] == (unsigned char)size);
        struct tried empty = rattle_realloc(less.at, 0, 0, 1);
        holds("a block of no bytes is one", empty.ok && empty.at);
        rattle_dealloc(empty.at);
    }
    rattle_dealloc(none.at);
}

// Each of these blocks has its own byte in all its places, and another thread gives it back.
enum { BLOCKS = 500 };
static struct {
    unsigned char *at;
    size_t size;
} blocks[BLOCKS];

static bool is_whole(int place) {
    bool is_whole = true;
    for (size_t at = 0; at < blocks[place].size; at++)
        is_whole = is_whole && blocks[place].at[at] == (unsigned char)place;
    return is_whole;
}

static void *changes_blocks(void *unused) {
    uint32_t drawn = 1;
    bool are_whole = true, are_aligned = true;
    for (int turn = 0; turn < 100000; turn++) {
        drawn = drawn * 1664525 + 1013904223;
        int place = drawn % BLOCKS;
        size_t size = drawn >> 24 ? (drawn >> 12) % 200 : (drawn >> 12) % 4000;
        size_t had = blocks[place].size;
        are_whole = are_whole && is_whole(place);
        if (turn % 3 && blocks[place].at) {
            size_t least = size < had ? size : had;
            blocks[place].at = rattle_realloc(blocks[place].at, least, size, 8).at;
            blocks[place].size = least;
            are_whole = are_whole && is_whole(place);
        } else {
            if (blocks[place].at)
                rattle_dealloc(blocks[place].at);
            blocks[place].at = rattle_alloc(size, 8).at;
        }
        are_aligned = are_aligned && (uintptr_t)blocks[place].at % 16 == 0;
        blocks[place].size = size;
        memset(blocks[place].at, place, size);
    }
    holds("no block changes where another one does", are_whole);
    holds("all are aligned to 16 bytes", are_aligned);
    return unused;
}

static void *takes_another(void *block) {
    // (without a lock, two threads must never look at the same list)
    holds("what a thread has given back, no other one gets", rattle_alloc(100, 8).at != block);
    return block;
}

static bool in_a_thread(void *(*does)(void *), void *of) {
    pthread_t thread;
    return pthread_create(&thread, NULL, does, of) == 0 && pthread_join(thread, NULL) == 0;
}

static void many_blocks(void) {
    unsigned char *block = rattle_alloc(100, 8).at;
    rattle_dealloc(block);
    holds("a thread takes another block", in_a_thread(takes_another, block));
    holds("who gave it back gets it", rattle_alloc(100, 8).at == block);
    changes_blocks(NULL);
    holds("a thread changes them on", in_a_thread(changes_blocks, NULL));
    changes_blocks(NULL);
}

static void words(void) {
    char buffer[8];
    holds("the words are counted, with the name of the program", rattle_arg_count() == 4);
    holds("an empty word is one", rattle_arg(1, buffer, 8) == 0 && rattle_arg(1, buffer, 0) == 0);
    memset(buffer, '-', 8);
    holds("a word that just fits is there, and nothing more",
          rattle_arg(2, buffer, 4) == 4 && !memcmp(buffer, "four----", 8));
    memset(buffer, '-', 8);
    holds("of one that does not fit the first bytes are there",
          rattle_arg(2, buffer, 3) == -2 && !memcmp(buffer, "fou-----", 8));
    holds("a word may have a space", rattle_arg(3, buffer, 8) == 3 && !memcmp(buffer, "a b", 3));
    memset(buffer, '-', 8);
    // (after the words is a null pointer, and then the environment)
    holds("there is no further word", rattle_arg(4, buffer, 8) == -1
          && rattle_arg(5, buffer, 8) == -1 && rattle_arg(SIZE_MAX, buffer, 8) == -1
          && !memcmp(buffer, "--------", 8));
}

static void *of_thread(void *set) {
    // (more than musl gives a thread by itself, and less than glibc does)
    volatile char room[4 << 20];
    room[0] = 1;
    holds("a thread begins without an error", rattle_errno() == 0 && room[0]);
    rattle_set_errno(*(int *)set);
    return NULL;
}

static void errors(void) {
    int set = 7;
    rattle_set_errno(5);
    holds("an error that was set is there", rattle_errno() == 5 && errno == 5);
    errno = 6;
    holds("that of the last call is there", rattle_errno() == 6);
    holds("a thread can be started", in_a_thread(of_thread, &set));
    holds("and has an error of its own", rattle_errno() == 6);
}

static void output(void) {
    int ends[2];
    char buffer[4] = "";
    holds("what is written arrives", pipe(ends) == 0 && __write(ends[1], "abc", 3) == 3
          && read(ends[0], buffer, 4) == 3 && !strcmp(buffer, "abc"));
    close(ends[0]);
    signal(SIGPIPE, SIG_IGN);
    holds("and what nobody reads does not", __write(ends[1], "abc", 3) == -1 && errno == EPIPE);
}

#ifdef __x86_64__
// (qemu lets a program have what it wants)
static void refusals(void) {
    struct rlimit before, less = {64 << 20, RLIM_INFINITY};
    holds("memory has a limit", getrlimit(RLIMIT_AS, &before) == 0);
    less.rlim_max = before.rlim_max;
    holds("which can be set", setrlimit(RLIMIT_AS, &less) == 0);
    struct tried block;
    int count = 0;
    do {
        block = rattle_alloc(1000, 8);
    } while (block.ok && ++count < 100000);
    holds("small blocks end, and then are refused", !block.ok && block.at && count > 10000);
    holds("so are others", !rattle_alloc(64 << 20, 8).ok);
    holds("without the limit there are more",
          setrlimit(RLIMIT_AS, &before) == 0 && rattle_alloc(1000, 8).ok);
}

struct leaf {
    unsigned has[4], may_be_used[4];
};
const struct leaf *__x86_get_cpuid_feature_leaf(unsigned index);

static void leaves(void) {
    const unsigned *first = __x86_get_cpuid_feature_leaf(0)->may_be_used,
                   *last = __x86_get_cpuid_feature_leaf(2)->may_be_used;
    const char *names[32] = {[0] = "pni", [9] = "ssse3", [13] = "cx16", [19] = "sse4_1",
                             [20] = "sse4_2", [22] = "movbe", [23] = "popcnt", [25] = "aes"};
    const char *more[32] = {[0] = "lahf_lm", [5] = "abm", [8] = "3dnowprefetch"};
    for (int bit = 0; bit < 32; bit++) {
        if (names[bit] && first[2] >> bit & 1)
            puts(names[bit]);
        if (more[bit] && last[2] >> bit & 1)
            puts(more[bit]);
    }
    for (unsigned it = 3 * 4; it < 40 * 4; it++)
        holds("of no other leaf is anything there",
              !__x86_get_cpuid_feature_leaf(it / 4)->may_be_used[it % 4]);
}

static void steps(void) {}
#else
#define TRIES(bytes, type)                                                                        \
    type __aarch64_swp##bytes##_acq_rel(type it, type *at);                                       \
    type __aarch64_ldadd##bytes##_acq_rel(type it, type *at);                                     \
    type __aarch64_ldclr##bytes##_acq_rel(type it, type *at);                                     \
    type __aarch64_ldeor##bytes##_acq_rel(type it, type *at);                                     \
    type __aarch64_ldset##bytes##_acq_rel(type it, type *at);                                     \
    type __aarch64_cas##bytes##_acq_rel(type wanted, type next, type *at);                        \
    static void try_##type(void) {                                                                \
        const type most = (type)-1;                                                               \
        type at[3] = {most, 12, most};                                                            \
        holds("a swap", __aarch64_swp##bytes##_acq_rel(10, &at[1]) == 12 && at[1] == 10);         \
        holds("a sum", __aarch64_ldadd##bytes##_acq_rel(most, &at[1]) == 10 && at[1] == 9);       \
        holds("bits cleared", __aarch64_ldclr##bytes##_acq_rel(8, &at[1]) == 9 && at[1] == 1);    \
        holds("bits turned", __aarch64_ldeor##bytes##_acq_rel(7, &at[1]) == 1 && at[1] == 6);     \
        holds("bits set", __aarch64_ldset##bytes##_acq_rel(3, &at[1]) == 6 && at[1] == 7);        \
        holds("no change of another value",                                                       \
              __aarch64_cas##bytes##_acq_rel(6, 1, &at[1]) == 7 && at[1] == 7);                   \
        holds("a change", __aarch64_cas##bytes##_acq_rel(7, most, &at[1]) == 7 && at[1] == most); \
        holds("nothing beside it changes", at[0] == most && at[2] == most);                       \
    }

TRIES(1, uint8_t)
TRIES(2, uint16_t)
TRIES(4, uint32_t)
TRIES(8, uint64_t)

static uint64_t counts[2];

static void *adds(void *unused) {
    for (int it = 0; it < 20000; it++) {
        __aarch64_ldadd8_acq_rel(1, &counts[0]);
        uint64_t was = 0, seen;
        while ((seen = __aarch64_cas8_acq_rel(was, was + 1, &counts[1])) != was)
            was = seen;
    }
    return unused;
}

static void steps(void) {
    pthread_t threads[4];
    try_uint8_t();
    try_uint16_t();
    try_uint32_t();
    try_uint64_t();
    for (int it = 0; it < 4; it++)
        pthread_create(&threads[it], NULL, adds, NULL);
    for (int it = 0; it < 4; it++)
        pthread_join(threads[it], NULL);
    holds("threads that add at once lose nothing", counts[0] == 80000 && counts[1] == 80000);
}

static void refusals(void) {}
static void leaves(void) {}
#endif

int main(int argc, char **argv) {
    if (argc > 1 && !strcmp(argv[1], "leaves")) {
        leaves();
        return faults;
    }
    memory();
    many_blocks();
    refusals();
    words();
    errors();
    output();
    steps();
    return faults;
}
