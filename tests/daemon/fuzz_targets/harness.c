/* The fuzzer's side: libFuzzer calls it with bytes, and it hands them to the target of targets.rs
 * whose number is in RIGNOLDA_FUZZ. A single piece of memory that the daemon's code asks for has to
 * be in proportion to the input. */
#include <stdint.h>
#include <stdio.h>
#include <stdlib.h>

void rignolda_fuzz_byte(uint8_t byte);
void rignolda_fuzz_run(uint32_t target);
void *__real_malloc(size_t size);
void *__real_calloc(size_t count, size_t size);
void *__real_realloc(void *old, size_t size);
int __real_posix_memalign(void **to, size_t alignment, size_t size);

static size_t most = SIZE_MAX;

static void check(size_t size) {
    if (size > most) {
        fprintf(stderr, "%zu bytes are asked for at once, and at most %zu may be\n", size, most);
        abort();
    }
}

void *__wrap_malloc(size_t size) {
    check(size);
    return __real_malloc(size);
}

void *__wrap_calloc(size_t count, size_t size) {
    check(size == 0 || count <= SIZE_MAX / size ? count * size : SIZE_MAX);
    return __real_calloc(count, size);
}

void *__wrap_realloc(void *old, size_t size) {
    check(size);
    return __real_realloc(old, size);
}

int __wrap_posix_memalign(void **to, size_t alignment, size_t size) {
    check(size);
    return __real_posix_memalign(to, alignment, size);
}

int LLVMFuzzerTestOneInput(const uint8_t *bytes, size_t size) {
    const char *target = getenv("RIGNOLDA_FUZZ");
    size_t at;
    most = 65536 + 64 * size;
    for (at = 0; at < size; at++) {
        rignolda_fuzz_byte(bytes[at]);
    }
    rignolda_fuzz_run(target ? atoi(target) : 0);
    most = SIZE_MAX;
    return 0;
}
