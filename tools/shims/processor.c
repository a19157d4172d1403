// What programs call besides the C library musl and shims.c: a name that glibc has, and what they ask
// of the processor. Nothing proves that it does what it has to; tests/check_static.py tries it.
#include <stdint.h>
#include <unistd.h>

// A name that glibc has for write.
ssize_t __write(int file, const void *bytes, size_t length) {
    return write(file, bytes, length);
}

// What the processor can do, by the number of a leaf. At its start a program asks two of these
// whether the instructions that it has are there; of others than the first three it asks nothing.
#ifdef __x86_64__
struct leaf {
    unsigned has[4], may_be_used[4];
};

const struct leaf *__x86_get_cpuid_feature_leaf(unsigned index) {
    static const unsigned leaves[3] = {1, 7, 0x80000001};
    static struct leaf found[4];
    if (index >= 3) {
        return &found[3];
    }
    struct leaf *it = &found[index];
    unsigned most = leaves[index] & 0x80000000, b, c, d;
    __asm__("cpuid" : "+a"(most), "=b"(b), "=c"(c), "=d"(d));
    if (leaves[index] <= most) {
        unsigned *to = it->may_be_used;
        __asm__("cpuid"
                : "=a"(to[0]), "=b"(to[1]), "=c"(to[2]), "=d"(to[3])
                : "a"(leaves[index]), "c"(0));
    }
    return it;
}
#endif

// Steps on memory that threads share, each at once, and in one order for all: LLVM has programs
// call them, since the instructions for them are not on every processor. Each answers what was
// there.
#ifdef __aarch64__
#define STEP(name, bytes, type, does)                        \
    type __aarch64_##name##bytes##_acq_rel(type it, type *at) { \
        return does;                                         \
    }
#define STEPS(bytes, type)                                                                      \
    STEP(swp, bytes, type, __atomic_exchange_n(at, it, __ATOMIC_SEQ_CST))                       \
    STEP(ldadd, bytes, type, __atomic_fetch_add(at, it, __ATOMIC_SEQ_CST))                      \
    STEP(ldclr, bytes, type, __atomic_fetch_and(at, (type)~it, __ATOMIC_SEQ_CST))               \
    STEP(ldeor, bytes, type, __atomic_fetch_xor(at, it, __ATOMIC_SEQ_CST))                      \
    STEP(ldset, bytes, type, __atomic_fetch_or(at, it, __ATOMIC_SEQ_CST))                       \
    type __aarch64_cas##bytes##_acq_rel(type wanted, type next, type *at) {                     \
        __atomic_compare_exchange_n(at, &wanted, next, 0, __ATOMIC_SEQ_CST, __ATOMIC_SEQ_CST);  \
        return wanted;                                                                          \
    }

STEPS(1, uint8_t)
STEPS(2, uint16_t)
STEPS(4, uint32_t)
STEPS(8, uint64_t)
#endif
