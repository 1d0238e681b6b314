/*
 * Which of the library's code runs on this processor. scripts/archive puts what scripts/dispatch.awk makes of the
 * header after this text, and compiles both as one. It needs getenv of the C library and nothing else.
 */
#include "splicebell.h"
#include "splicebell_processor.h"

#ifdef __x86_64__

char *getenv(const char *name);

/* The levels with code of their own, rising. */
enum level { X86_64, X86_64_V3, X86_64_V4, NOT_CHOSEN };
static const char *const names[] = {[X86_64] = "x86-64", [X86_64_V3] = "x86-64-v3", [X86_64_V4] = "x86-64-v4"};

struct registers {
    uint32_t a, b, c, d;
};

static struct registers cpuid(uint32_t leaf)
{
    struct registers r;
    __asm__ volatile("cpuid" : "=a"(r.a), "=b"(r.b), "=c"(r.c), "=d"(r.d) : "0"(leaf), "2"(0));
    return r;
}

/* Which registers the operating system keeps for each thread. */
static uint32_t kept_by_system(void)
{
    uint32_t low, high;
    __asm__ volatile("xgetbv" : "=a"(low), "=d"(high) : "c"(0));
    return low;
}

static bool has_all(uint32_t has, uint32_t wanted)
{
    return (has & wanted) == wanted;
}

#define BIT(n) (1u << (n))

/* What the levels v3 and v4 of the System V convention ask for, by the bits of cpuid's answers and of xgetbv's. */
static const uint32_t leaf_1_c_v3 = BIT(0) | BIT(9) | BIT(12) | BIT(13)     /* SSE3, SSSE3, FMA, CMPXCHG16B */
                                    | BIT(19) | BIT(20) | BIT(22) | BIT(23) /* SSE4.1, SSE4.2, MOVBE, POPCNT */
                                    | BIT(27) | BIT(28) | BIT(29);          /* OSXSAVE, AVX, F16C */
static const uint32_t leaf_7_b_v3 = BIT(3) | BIT(5) | BIT(8);               /* BMI1, AVX2, BMI2 */
static const uint32_t extended_c_v3 = BIT(0) | BIT(5);                      /* LAHF and SAHF, LZCNT */
static const uint32_t kept_v3 = BIT(1) | BIT(2);                            /* 16 and 32 bytes of the vectors */
static const uint32_t leaf_7_b_v4 = BIT(16) | BIT(17) | BIT(28)             /* AVX512F, AVX512DQ, AVX512CD */
                                    | BIT(30) | BIT(31);                    /* AVX512BW, AVX512VL */
static const uint32_t kept_v4 = BIT(5) | BIT(6) | BIT(7);                   /* masks, 64 bytes, vectors 16 to 31 */

/* The highest level whose code this processor and its operating system run. */
static enum level highest(void)
{
    if (cpuid(0).a < 7 || cpuid(0x80000000).a < 0x80000001)
        return X86_64;
    uint32_t leaf_7_b = cpuid(7).b;
    if (!has_all(cpuid(1).c, leaf_1_c_v3) || !has_all(leaf_7_b, leaf_7_b_v3) ||
        !has_all(cpuid(0x80000001).c, extended_c_v3) || !has_all(kept_by_system(), kept_v3))
        return X86_64;
    return has_all(leaf_7_b, leaf_7_b_v4) && has_all(kept_by_system(), kept_v4) ? X86_64_V4 : X86_64_V3;
}

static bool same(const char *a, const char *b)
{
    while (*a != 0 && *a == *b)
        a++, b++;
    return *a == *b;
}

/* The level that SPLICEBELL_PROCESSOR asks for; the highest of all where it is unset or no level's name. */
static enum level asked(void)
{
    const char *word = getenv("SPLICEBELL_PROCESSOR");
    if (word == NULL)
        return X86_64_V4;
    for (enum level l = X86_64; l < NOT_CHOSEN; l++)
        if (same(word, names[l]))
            return l;
    return same(word, "x86-64-v2") ? X86_64 : X86_64_V4;
}

static int chosen = NOT_CHOSEN;

/* Several threads may choose at the same time: each finds the same, and nothing else hangs on it. */
__attribute__((noinline)) static enum level choose(void)
{
    enum level can = highest(), may = asked();
    enum level l = may < can ? may : can;
    __atomic_store_n(&chosen, l, __ATOMIC_RELAXED);
    return l;
}

static enum level level(void)
{
    enum level l = __atomic_load_n(&chosen, __ATOMIC_RELAXED);
    return l != NOT_CHOSEN ? l : choose();
}

/* At load, before a program has threads that could change the environment; a call that comes earlier chooses itself. */
__attribute__((constructor)) static void choose_at_load(void)
{
    (void)choose();
}

const char *splicebell_processor(void)
{
    return names[level()];
}

#else

const char *splicebell_processor(void)
{
    return "aarch64";
}

#endif
