/*
 * An object for LD_PRELOAD that refuses memory, or a thread, to a program.
 *
 * It counts the allocations of a program from its `main` on, and the threads that it starts, and
 * refuses those that the environment names:
 *
 *   REFUSE_ALLOCATION=N  the Nth allocation, once
 *   REFUSE_FROM=N        the Nth allocation and every later one
 *   REFUSE_THREAD=N      the start of the Nth thread, once, with EAGAIN
 *   REFUSE_REPORT=FD     where the program ends, three numbers are written to this file descriptor,
 *                        as the machine has them: of allocations, of threads, and of refusals
 *
 * A realloc counts also where it makes a block smaller, but not where it frees one, since the new
 * size is 0. Several threads may allocate at a time: each allocation has its own number. The object
 * itself allocates nothing once main has begun.
 *
 * It needs glibc, whose allocator is also reached by the names __libc_malloc and so on. It includes
 * no header, so that the kit's compiler builds it on a machine that has none.
 */

typedef __SIZE_TYPE__ size_t;
typedef int main_function(int, char **, char **);

extern void *__libc_malloc(size_t);
extern void *__libc_calloc(size_t, size_t);
extern void *__libc_realloc(void *, size_t);
extern void *__libc_memalign(size_t, size_t);
extern int *__errno_location(void);
extern char *getenv(const char *);
extern unsigned long strtoul(const char *, char **, int);
extern void *dlsym(void *, const char *);
extern long write(int, const void *, size_t);

#define NEXT_OBJECT ((void *)-1L) /* RTLD_NEXT */
#define ENOMEM 12
#define EAGAIN 11
#define EINVAL 22

static main_function *program_main;
static int (*next_pthread_create)(void *, const void *, void *(*)(void *), void *);
static void (*next_exit)(int);
static void (*next_exit_now)(int);

static int counting; /* whether main has begun and has not ended */
/* How many calls since main, threads, and refusals. */
static struct { unsigned long allocations, threads, refused; } counts;
static unsigned long refuse_allocation, refuse_from, refuse_thread, report_to;

static unsigned long add_one(unsigned long *count) {
    return __atomic_add_fetch(count, 1, __ATOMIC_SEQ_CST);
}

/* The number that a variable of the environment has, or 0. */
static unsigned long number_of(const char *name) {
    const char *text = getenv(name);
    return text ? strtoul(text, 0, 10) : 0;
}

/* Whether the next allocation is refused. */
static int is_refused(void) {
    if (!__atomic_load_n(&counting, __ATOMIC_SEQ_CST))
        return 0;
    unsigned long number = add_one(&counts.allocations);
    if (number != refuse_allocation && (refuse_from == 0 || number < refuse_from))
        return 0;
    add_one(&counts.refused);
    return 1;
}

static void *no_memory(void) {
    *__errno_location() = ENOMEM;
    return 0;
}

void *malloc(size_t size) {
    return is_refused() ? no_memory() : __libc_malloc(size);
}

void *calloc(size_t count, size_t size) {
    return is_refused() ? no_memory() : __libc_calloc(count, size);
}

void *realloc(void *block, size_t size) {
    if ((size > 0 || block == 0) && is_refused())
        return no_memory();
    return __libc_realloc(block, size);
}

void *reallocarray(void *block, size_t count, size_t size) {
    size_t bytes;
    if (__builtin_mul_overflow(count, size, &bytes))
        return no_memory();
    return realloc(block, bytes);
}

void *memalign(size_t alignment, size_t size) {
    return is_refused() ? no_memory() : __libc_memalign(alignment, size);
}

void *aligned_alloc(size_t alignment, size_t size) {
    return memalign(alignment, size);
}

int posix_memalign(void **block, size_t alignment, size_t size) {
    if (alignment % sizeof(void *) != 0 || (alignment & (alignment - 1)) != 0 || alignment == 0)
        return EINVAL;
    void *made = is_refused() ? 0 : __libc_memalign(alignment, size);
    if (made == 0)
        return ENOMEM;
    *block = made;
    return 0;
}

int pthread_create(void *thread, const void *attributes, void *(*body)(void *), void *given) {
    if (__atomic_load_n(&counting, __ATOMIC_SEQ_CST) && add_one(&counts.threads) == refuse_thread) {
        add_one(&counts.refused);
        return EAGAIN;
    }
    return next_pthread_create(thread, attributes, body, given);
}

/* Ends the count and reports it, once. (Whoever does not read a report misses it.) */
static void report(void) {
    if (__atomic_exchange_n(&counting, 0, __ATOMIC_SEQ_CST) && report_to != 0 &&
        write((int)report_to, &counts, sizeof counts) < 0)
        return;
}

__attribute__((noreturn)) void exit(int status) {
    report();
    next_exit(status);
    __builtin_unreachable();
}

__attribute__((noreturn)) void _exit(int status) {
    report();
    next_exit_now(status);
    __builtin_unreachable();
}

__attribute__((noreturn)) void _Exit(int status) {
    _exit(status);
}

static int counted_main(int count, char **words, char **environment) {
    __atomic_store_n(&counting, 1, __ATOMIC_SEQ_CST);
    int status = program_main(count, words, environment);
    report();
    return status;
}

int __libc_start_main(main_function *given_main, int count, char **words, void (*init)(void),
                      void (*fini)(void), void (*end_loader)(void), void *stack_end) {
    int (*next)(main_function *, int, char **, void (*)(void), void (*)(void), void (*)(void),
                void *) = dlsym(NEXT_OBJECT, "__libc_start_main");
    next_pthread_create = dlsym(NEXT_OBJECT, "pthread_create");
    next_exit = dlsym(NEXT_OBJECT, "exit");
    next_exit_now = dlsym(NEXT_OBJECT, "_exit");
    refuse_allocation = number_of("REFUSE_ALLOCATION");
    refuse_from = number_of("REFUSE_FROM");
    refuse_thread = number_of("REFUSE_THREAD");
    report_to = number_of("REFUSE_REPORT");
    program_main = given_main;
    return next(counted_main, count, words, init, fini, end_loader, stack_end);
}
