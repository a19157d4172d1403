/*
 * A small program with a planted bug, for tests/check_refused.py. It includes no header.
 *
 * As `stab` it prints the report of a lone root: BUG says what it does wrong where memory, or its
 * thread, is refused. With the word `worst` it is `rignolda`, and prints the same without a thread.
 * Without a word it is gate_checks, and makes two calls, again where one is refused. With BUG 0 it
 * does all of it right.
 */

#ifndef BUG
#define BUG 0
#endif

typedef __SIZE_TYPE__ size_t;

extern void *malloc(size_t);
extern void *realloc(void *, size_t);
extern int posix_memalign(void **, size_t, size_t);
extern int dprintf(int, const char *, ...);
extern int pthread_create(unsigned long *, const void *, void *(*)(void *), void *);
extern int pthread_join(unsigned long, void **);
extern int pause(void);
extern long read(int, void *, size_t);
extern long write(int, const void *, size_t);
extern char *strstr(const char *, const char *);
extern size_t strlen(const char *);
extern void abort(void) __attribute__((noreturn));

/* (printf would allocate) */
static void print(const char *text) {
    write(1, text, strlen(text));
}

static int fail(const char *line) {
    write(2, line, strlen(line));
    return 3;
}

static int is_rignolda;

static int no_memory(void) {
    if (is_rignolda)
        return fail(BUG == 14 ? "error: out of memory\n" : "rignolda: out of memory\n");
    if (BUG == 1)
        print("r depth 0 received 2 acked - ended upstream\n");
    if (BUG == 2)
        abort();
    if (BUG == 3) {
        print("r depth 0 received 0 acked - ended upstream\nitems:\n");
        return 0;
    }
    if (BUG == 4)
        return fail("stab: out of memory\n") - 2;
    if (BUG == 5)
        return fail("stab: job: not JSON\n");
    if (BUG == 6)
        fail("stab: no memory\n");
    return fail("stab: out of memory\n");
}

static void *work(void *given) {
    return given;
}

/* The report of a lone root, whose items are 7 and 8 or the first five. */
static int stab(void) {
    char job[4096];
    unsigned long thread;
    void *first, *second = 0;
    long length = read(0, job, sizeof job - 1);
    job[length < 0 ? 0 : length] = 0;
    const char *report = strstr(job, "7")
        ? "r depth 0 received 2 acked - ended upstream\nitems: 7 8\n"
        : "r depth 0 received 5 acked - ended upstream\nitems: 1 2 3 4 5\n";
    if (BUG != 7) {
        first = malloc(16);
        if (!first || !realloc(first, 4096))
            return no_memory();
        if (!is_rignolda && pthread_create(&thread, 0, work, 0) != 0) {
            if (BUG == 8)
                pause();
            if (BUG != 9)
                return fail("stab: run: a worker could not be started\n");
        } else if (!is_rignolda) {
            pthread_join(thread, 0);
        }
        if (posix_memalign(&second, 64, 64) != 0)
            return no_memory();
    }
    print(report);
    return 0;
}

/* A list that grows, and an answer of it. */
static int calls(void) {
    int held = 0;
    void *list = malloc(8);
    if (!list) {
        if (BUG != 11)
            dprintf(2, "refused List::new\n");
        list = malloc(8);
    }
    held++;
    void *grown = realloc(list, 1 << 20);
    if (!grown) {
        dprintf(2, BUG == 12 ? "refused List::grow\n" : "refused List::push\n");
        if (BUG == 10)
            held++;
        grown = realloc(list, 1 << 20);
    }
    held++;
    print(held == 2 ? "List::push: 2 entries\n" : "List::push: 3 entries\n");
    return 0;
}

int main(int count, char **words) {
    is_rignolda = count > 1 && strstr(words[1], "worst");
    return count > 1 ? stab() : calls();
}
