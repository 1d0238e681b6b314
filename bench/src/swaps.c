/* What it costs to take back a swapped drive. It works out the homes of every group under two lists, and copies the
 * units whose homes differ. Beside it stand the repair of that drive's failure, which rebuilt as many units, and plain
 * copies of as many bytes. */
#include "swaps.h"

#include "twin.h"

#include <stdio.h>
#include <stdlib.h>
#include <string.h>

const struct swapper our_swapper = {"ours", splicebell_swap}, twin_swapper = {"Rust twin", twin_swap};
static const struct swapper *const swappers[] = {&our_swapper, &twin_swapper};
enum { SWAPPERS = sizeof swappers / sizeof *swappers };

/* Of the bytes that repair rebuilds in a second, in units of 4 KiB. */
static const double wanted_of_repair = 0.4;

struct swap swap_of(const struct pool *p, uint64_t failed, uint64_t back, const struct swapper *swapper)
{
    struct swap x = {.pool = *p, .swapper = swapper, .target = failing(back)};
    x.pool.r = failures(p, failed, 0);
    return x;
}

void take_back(void *context)
{
    const struct swap *x = context;
    const struct pool *p = &x->pool;
    must(x->swapper->call(p->y, p->r, p->image, p->m.image, x->target).refusal == 0, "a drive taken back");
}

/* The record without the target, the others in order. */
static splicebell_record shorter(splicebell_record r, uint64_t target)
{
    uint64_t kept = 0;
    for (uint64_t i = 0; i < r.k; i++)
        if (r.failed[i] != target)
            r.failed[kept++] = r.failed[i];
    r.failed[kept] = 0;
    r.k = r.q = kept;
    return r;
}

static uint64_t home(const struct pool *p, splicebell_record r, uint64_t group, uint64_t content)
{
    splicebell_shown s = splicebell_show(p->y, r, p->image, p->m.image, p->out, p->y.u, group, content);
    must(s.refusal == 0 && !s.missing, "a content that is present");
    return s.begins;
}

struct routes routes_of(const struct swap *x)
{
    const struct pool *p = &x->pool;
    splicebell_record after = shorter(p->r, x->target);
    uint64_t contents = p->y.n + p->y.k;
    struct routes all = {.units = room(p->m.groups * contents * sizeof *all.units)};
    for (uint64_t group = 0; group < p->m.groups; group++) {
        size_t before = all.count;
        for (uint64_t content = 0; content < contents; content++) {
            struct route unit = {home(p, p->r, group, content), home(p, after, group, content)};
            if (unit.from != unit.to)
                all.units[all.count++] = unit;
        }
        all.still += all.count == before;
    }
    return all;
}

/* ---- before they are timed */

/* Answer and image must be the same, whoever takes it back and whatever the new drive held: every moved unit stands at
 * its new home as it stood at its old one, no other byte has changed, and the file is read as it was written. */
static void compare(const struct pool *p, uint64_t failed, uint64_t back)
{
    size_t length = p->m.image, drive = length / p->y.p;
    struct swap x = swap_of(p, failed, back, &our_swapper);
    memset(p->image + x.target * drive, 0xee, drive);
    uint8_t *wanted = image_like(p), *image = room(length);
    struct routes routes = routes_of(&x);
    must(routes.count > 0, "units that move");
    for (size_t i = 0; i < routes.count; i++)
        memcpy(wanted + routes.units[i].to, p->image + routes.units[i].from, p->y.u);
    const splicebell_swapped told = {0, shorter(x.pool.r, x.target)};
    for (size_t s = 0; s < SWAPPERS; s++) {
        memcpy(image, p->image, length);
        splicebell_swapped answer = swappers[s]->call(p->y, x.pool.r, image, length, x.target);
        must(memcmp(&answer, &told, sizeof told) == 0, "the record without the drive, whoever takes it back");
        must(memcmp(image, wanted, length) == 0, "the same image, whoever takes the drive back");
    }
    must(splicebell_read(p->y, told.record, image, length, 0, p->out, p->m.capacity) == 0, "a read after a swap");
    must(memcmp(p->out, p->file, p->m.capacity) == 0, "the file as it was written");
    free(wanted);
    free(image);
    free(routes.units);
}

/* Before targets fail every content must stand at its own place. So the file is written anew after each new drive,
 * since that held other bytes. */
static void compare_all(struct pool p)
{
    const splicebell_record none = {0};
    for (uint64_t failed = 1; failed <= p.y.k; failed++)
        for (uint64_t back = 0; back < failed; back++) {
            uint64_t refusal = splicebell_write(p.y, none, p.image, p.m.image, 0, p.file, p.m.capacity);
            must(refusal == 0, "the file written anew");
            compare(&p, failed, back);
        }
    pool_free(&p);
}

/* ---- the tables */

static const struct {
    uint64_t failed, back;
    const char *what;
} rows[] = {
    {1, 0, "one failed"}, {2, 0, "two failed, the first comes back"}, {2, 1, "two failed, the second comes back"},
};
enum { ROWS = sizeof rows / sizeof *rows };

/* What stands beside a swap after one failure, and is done by ours alone. */
enum { REPAIR, COPY, UNITS, HOMES, NOTHING, BESIDE };
static const char *const beside[BESIDE] = {
    "repair of the one that failed", "memcpy of as many bytes", "memcpy of those units, each to its home",
    "the same swap in units of 1 byte", "repair that finds nothing missing",
};

struct times {
    double swaps[ROWS][SWAPPERS], beside[BESIDE]; /* seconds of one call */
};

struct copying {
    const struct pool *pool;
    const struct routes *routes;
};

static void copy_as_many(void *context)
{
    const struct copying *x = context;
    memcpy(x->pool->out, x->pool->file, x->routes->count * x->pool->y.u);
}

static void copy_units(void *context)
{
    const struct copying *x = context;
    const struct pool *p = x->pool;
    for (size_t i = 0; i < x->routes->count; i++)
        memcpy(p->image + x->routes->units[i].to, p->image + x->routes->units[i].from, p->y.u);
}

/* All in turns, since each is compared with the others. `tiny` has as many groups in units of 1 byte. */
static struct times time_all(const struct pool *p, const struct pool *tiny, const struct routes *routes)
{
    struct swap swaps[ROWS][SWAPPERS], homes = swap_of(tiny, 1, 0, &our_swapper);
    struct timed t[ROWS * SWAPPERS + BESIDE], *others = t + ROWS * SWAPPERS;
    for (size_t r = 0; r < ROWS; r++)
        for (size_t s = 0; s < SWAPPERS; s++) {
            swaps[r][s] = swap_of(p, rows[r].failed, rows[r].back, swappers[s]);
            t[r * SWAPPERS + s] = (struct timed){take_back, &swaps[r][s], 0};
        }
    struct pool broken = *p, mended = swaps[0][0].pool;
    broken.r = failures(p, 0, 1);
    struct copying copying = {p, routes};
    work repair = pass_named("repair")->work;
    others[REPAIR] = (struct timed){repair, &broken, 0};
    others[COPY] = (struct timed){copy_as_many, &copying, 0};
    others[UNITS] = (struct timed){copy_units, &copying, 0};
    others[HOMES] = (struct timed){take_back, &homes, 0};
    others[NOTHING] = (struct timed){repair, &mended, 0};
    time_in_turns(t, ROWS * SWAPPERS + BESIDE);
    must(broken.rebuilt == routes->count && mended.rebuilt == 0, "as many units moved as were rebuilt");
    struct times took;
    for (size_t r = 0; r < ROWS; r++)
        for (size_t s = 0; s < SWAPPERS; s++)
            took.swaps[r][s] = t[r * SWAPPERS + s].seconds;
    for (size_t b = 0; b < BESIDE; b++)
        took.beside[b] = others[b].seconds;
    return took;
}

static void row(const struct pool *p, size_t r, const struct times *took)
{
    struct swap x = swap_of(p, rows[r].failed, rows[r].back, &our_swapper);
    struct routes routes = routes_of(&x);
    const double *seconds = took->swaps[r];
    printf("%-40s %8zu %8d %10.0f %8.0f", rows[r].what, routes.count, (int)routes.still, seconds[0] * 1e6,
           rate(routes.count * (double)p->y.u, seconds[0]));
    for (size_t s = 1; s < SWAPPERS; s++)
        printf(" %10.0f (%9.2f)", seconds[s] * 1e6, seconds[s] / seconds[0]);
    printf("\n");
    free(routes.units);
}

/* A share of the speed at which as many bytes are rebuilt or copied: of one failure all three move as many. */
static void beside_row(const struct pool *p, size_t b, const struct times *took, size_t units)
{
    double swap = took->swaps[0][0], seconds = took->beside[b];
    printf("%-40s %8s %8s %10.0f", beside[b], "", "", seconds * 1e6);
    if (b <= UNITS)
        printf(" %8.0f   a swap has %.2f of it", rate(units * (double)p->y.u, seconds), seconds / swap);
    printf("\n");
    if (b == REPAIR && p->y.u == 4096)
        floor_at_least("a swap after one failure / its repair, bytes a second", seconds / swap, wanted_of_repair);
}

static void table(struct pool p, struct pool tiny)
{
    struct swap x = swap_of(&p, 1, 0, &our_swapper);
    struct routes routes = routes_of(&x);
    struct times took = time_all(&p, &tiny, &routes);
    printf("\nTaking back a swapped drive on a pool of %.0f MB: %d+%d over %d, units of %d bytes, %d groups\n"
           "in units of 4 KiB wanted at least %.2f of the bytes a second of the repair\n"
           "%-40s %8s %8s %10s %8s", p.m.image / 1e6, (int)p.y.n, (int)p.y.k, (int)p.y.p, (int)p.y.u, (int)p.m.groups,
           wanted_of_repair, "microseconds a call; units, groups", "moved", "still", "ours", "MB/s");
    for (size_t s = 1; s < SWAPPERS; s++)
        printf(" %10s (it / ours)", swappers[s]->name);
    printf("\n");
    for (size_t r = 0; r < ROWS; r++)
        row(&p, r, &took);
    for (size_t b = 0; b < BESIDE; b++)
        beside_row(&p, b, &took, routes.count);
    free(routes.units);
    pool_free(&tiny);
    pool_free(&p);
}

/* Two pools of one size, the second in units of 512 bytes: there the homes of eight times as many groups are worked
 * out. */
void run_swaps(void)
{
    uint64_t tiles = options.quick || options.emulated ? 341 : 2730;
    compare_all(bench_pool(6));
    compare_all(pool_of(8, 2, 24, 512, 6));
    compare_all(pool_of(5, 3, 23, 512, 6));
    table(bench_pool(tiles), pool_of(8, 2, 24, 1, tiles));
    table(pool_of(8, 2, 24, 512, 8 * tiles), pool_of(8, 2, 24, 1, 8 * tiles));
}
