/* The pool's calls over an image that fits the cache and over one that does not. */
#include "coders.h"
#include "pools.h"

#include <stdio.h>
#include <string.h>

/* Group buffers of the same total size as the pool. */
static struct span span_like(const struct pool *p, size_t lost)
{
    return span_of(p->y.n, p->y.k, p->y.u, p->m.image / ((p->y.n + p->y.k) * p->y.u), lost);
}

/* Ours and the twin must leave the same image and read the same bytes, before and after failures and repair. */
static void compare(uint64_t failed)
{
    struct pool a = bench_pool(6), b = bench_pool(6);
    static const char *const order[] = {"write-group-by-group", "write-1", "write-4K", "read-groups", "repair"};
    b.calls = &twin_calls;
    a.r = b.r = failures(&a, 0, failed);
    for (size_t i = 0; i < sizeof order / sizeof *order; i++) {
        fill(a.file, a.m.capacity, i);
        memcpy(b.file, a.file, a.m.capacity);
        pass_named(order[i])->work(&a);
        pass_named(order[i])->work(&b);
        char what[80];
        snprintf(what, sizeof what, "the same from ours and the twin after %s with %d missing", order[i], (int)failed);
        must(memcmp(a.image, b.image, a.m.image) == 0, what);
        must(memcmp(a.out, b.out, a.m.capacity) == 0, what);
        must(a.rebuilt == b.rebuilt, what);
    }
    pool_free(&a);
    pool_free(&b);
}

/* Prints a line of the table. Sets our seconds, and answers the twin's over ours. */
static double row(struct pool *p, const char *what, const char *name, double copy_seconds, double *seconds)
{
    const struct pass *pass = pass_named(name);
    struct pool pools[ANSWERERS];
    struct timed t[ANSWERERS];
    for (size_t i = 0; i < ANSWERERS; i++) {
        pools[i] = *p;
        pools[i].calls = answerers[i];
        t[i] = (struct timed){pass->work, &pools[i], 0};
    }
    time_in_turns(t, ANSWERERS);
    *seconds = t[0].seconds;
    p->rebuilt = pools[0].rebuilt;
    double bytes = pass->bytes(p), calls = pass->calls(p);
    bool of_bytes = bytes != calls;
    printf("%-44s", what);
    for (size_t i = 0; i < ANSWERERS; i++) {
        double figure = of_bytes ? rate(bytes, t[i].seconds) : t[i].seconds / calls * 1e6;
        printf(of_bytes ? " %12.0f" : " %9.2f us", figure);
        if (i)
            printf(" (%5.2f)", t[i].seconds / t[0].seconds);
    }
    if (of_bytes)
        printf("  %12.2f", rate(bytes, t[0].seconds) / rate(p->m.capacity, copy_seconds));
    printf("\n");
    return t[TWIN].seconds / t[0].seconds;
}

static double seconds_of(work work, void *context)
{
    struct timed t = {work, context, 0};
    time_in_turns(&t, 1);
    return t.seconds;
}

static double encode_rate(const struct pool *p)
{
    struct span s = span_like(p, 1);
    double seconds = seconds_of(encode_span, &s);
    span_free(&s);
    return rate(s.groups * (double)(p->y.n * p->y.u), seconds);
}

static double rebuild_rate(const struct pool *p, size_t lost)
{
    struct span s = span_like(p, lost);
    double seconds = seconds_of(rebuild_span, &s);
    span_free(&s);
    return rate(s.groups * (double)(lost * p->y.u), seconds);
}

static void name_line(char *line, size_t size, const char *what, const char *pool)
{
    snprintf(line, size, "%s, pool of %s", what, pool);
}

static void at_least(const char *size, const char *what, double ratio, double wanted)
{
    char line[120];
    name_line(line, sizeof line, what, size);
    floor_at_least(line, ratio, wanted);
}

static void healthy(struct pool *p, const char *size, bool in_cache, double copy_seconds)
{
    double write, read, write_4k, other;
    row(p, "write, 32 whole groups a call", "write-groups", copy_seconds, &write);
    row(p, "write, one whole group a call", "write-group-by-group", copy_seconds, &other);
    row(p, "read, 32 whole groups a call", "read-groups", copy_seconds, &read);
    row(p, "read, one whole group a call", "read-group-by-group", copy_seconds, &other);
    must(memcmp(p->out, p->file, p->m.capacity) == 0, "what was read is what was written");
    row(p, "write, 4 KiB at random", "write-4K", copy_seconds, &write_4k);
    double read_4k = row(p, "read, 4 KiB at random", "read-4K", copy_seconds, &other);
    double write_1 = row(p, "write, 1 byte at random", "write-1", copy_seconds, &other);
    double read_1 = row(p, "read, 1 byte at random", "read-1", copy_seconds, &other);
    double encode = encode_rate(p);
    printf("%-44s %12.0f\n", "our encode over group buffers of that size", encode);
    at_least(size, "whole-group writes / our encode", rate(p->m.capacity, write) / encode, in_cache ? 0.8 : 0.65);
    at_least(size, "healthy sequential reads / memcpy", copy_seconds / read, in_cache ? 0.6 : 0.4);
    if (!in_cache)
        return;
    at_least(size, "write of 1 byte / the twin", write_1, 0.8);
    at_least(size, "read of 1 byte / the twin", read_1, 0.8);
    at_least(size, "read of 4 KiB at random / the twin", read_4k, 0.95);
    char line[120];
    name_line(line, sizeof line, "write of 4 KiB at random / encoding its group, time", size);
    double one = write_4k / pass_named("write-4K")->calls(p), its_group = p->y.n * p->y.u / (encode * 1e6);
    floor_at_most(line, one / its_group, 1.5);
}

static void failed(struct pool *p, const char *size, bool in_cache, uint64_t count, double copy_seconds)
{
    static const struct {
        const char *what, *name;
    } rows[] = {{"write, 32 whole groups a call", "write-groups"}, {"read, 32 whole groups a call", "read-groups"},
                {"write, 4 KiB at random", "write-4K"},            {"read, 4 KiB at random", "read-4K"}};
    p->r = failures(p, 0, count);
    char what[80];
    double seconds;
    for (size_t i = 0; i < sizeof rows / sizeof *rows; i++) {
        snprintf(what, sizeof what, "%s, %d missing", rows[i].what, (int)count);
        row(p, what, rows[i].name, copy_seconds, &seconds);
    }
    must(memcmp(p->out, p->file, p->m.capacity) == 0, "what was read is what was written");
    snprintf(what, sizeof what, "repair after %d failed, rebuilt bytes", (int)count);
    row(p, what, "repair", copy_seconds, &seconds);
    double rebuild = rebuild_rate(p, count), repair = rate(p->rebuilt * (double)p->y.u, seconds);
    snprintf(what, sizeof what, "our rebuild, %d lost, over groups of that size", (int)count);
    printf("%-44s %12.0f\n", what, rebuild);
    snprintf(what, sizeof what, "repair after %d failed / our rebuild", (int)count);
    at_least(size, what, repair / rebuild, !in_cache ? 0.4 : count == 1 ? 0.65 : 0.9);
}

static void table(uint64_t tiles, bool in_cache)
{
    struct pool p = bench_pool(tiles);
    char size[20];
    snprintf(size, sizeof size, "%.0f MB", p.m.image / 1e6);
    double copy_seconds = seconds_of(pass_named("copy")->work, &p);
    printf("\nPool of %s: 8+2 over 24, 4 KiB units, %d tiles, a file of %.1f MB; memcpy of that file %.0f MB/s\n", size,
           (int)tiles, p.m.capacity / 1e6, rate(p.m.capacity, copy_seconds));
    printf("%-44s %12s", "MB/s, or microseconds a call (ours / it)", "ours");
    for (size_t i = 1; i < ANSWERERS; i++)
        printf(" %20s", answerers[i]->name);
    printf("  %12s\n", "ours / memcpy");
    healthy(&p, size, in_cache, copy_seconds);
    failed(&p, size, in_cache, 1, copy_seconds);
    failed(&p, size, in_cache, 2, copy_seconds);
    pool_free(&p);
}

void run_pools(void)
{
    for (uint64_t count = 0; count <= 2; count++)
        compare(count);
    table(20, true);
    table(options.quick || options.emulated ? 341 : 2730, false);
}
