#include "bench.h"

#include <stdio.h>
#include <stdlib.h>
#include <string.h>
#include <sys/mman.h>
#include <time.h>

enum { CACHE_LINE = 64, LARGE_PAGE = 2 << 20 };

struct options options;

static double now(void)
{
    struct timespec t;
    clock_gettime(CLOCK_MONOTONIC, &t);
    return t.tv_sec + t.tv_nsec * 1e-9;
}

/* A peer may leave the upper parts of the vector registers in use: until they are cleared, every instruction on 16 bytes
 * runs at half its speed, whoever's it is. So they are cleared after each call, of peers and of ours. */
static void clear_vectors(bool wide)
{
#ifdef __x86_64__
    if (wide)
        __asm__ volatile("vzeroupper");
#else
    (void)wide;
#endif
}

static bool has_wide_vectors(void)
{
#ifdef __x86_64__
    return __builtin_cpu_supports("avx");
#else
    return false;
#endif
}

static double seconds_of(const struct timed *t, long calls)
{
    bool wide = has_wide_vectors();
    double begin = now();
    for (long i = 0; i < calls; i++) {
        t->work(t->context);
        clear_vectors(wide);
    }
    return now() - begin;
}

/* How many calls fill one timing. Also warms caches and branches. */
static long calls_for(const struct timed *t, double wanted)
{
    long calls = 1;
    for (;;) {
        double took = seconds_of(t, calls);
        if (took >= wanted)
            return calls;
        calls = took * 16 < wanted ? calls * 8 : (long)(calls * wanted / took) + 1;
    }
}

void time_in_turns(struct timed *t, size_t count)
{
    double wanted = options.quick || options.emulated ? 0.01 : 0.1;
    int timings = options.quick || options.emulated ? 5 : 9;
    long *calls = calloc(count, sizeof *calls);
    must(calls, "memory");
    for (size_t i = 0; i < count; i++) {
        calls[i] = calls_for(&t[i], wanted);
        t[i].seconds = 1e300;
    }
    for (int turn = 0; turn < timings; turn++)
        for (size_t i = 0; i < count; i++) {
            double s = seconds_of(&t[i], calls[i]) / calls[i];
            if (s < t[i].seconds)
                t[i].seconds = s;
        }
    free(calls);
}

double rate(double bytes, double seconds)
{
    return bytes / seconds / 1e6;
}

void *room(size_t bytes)
{
    size_t whole = options.large_pages && bytes >= LARGE_PAGE ? LARGE_PAGE : CACHE_LINE;
    size_t size = (bytes + whole - 1) / whole * whole;
    void *m = aligned_alloc(whole, size);
    must(m, "memory");
    if (whole == LARGE_PAGE)
        must(madvise(m, size, MADV_HUGEPAGE) == 0, "large pages");
    memset(m, 1, bytes);
    return m;
}

uint64_t drawn(uint64_t *state)
{
    *state = *state * 6364136223846793005u + 1442695040888963407u;
    return *state >> 24;
}

void fill(uint8_t *bytes, size_t length, uint64_t seed)
{
    for (size_t i = 0; i < length; i++)
        bytes[i] = (uint8_t)drawn(&seed);
}

void must(bool so, const char *what)
{
    if (so)
        return;
    fprintf(stderr, "bench: failed: %s\n", what);
    exit(1);
}
