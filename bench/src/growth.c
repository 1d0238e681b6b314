/* How the cost grows with T and with N. The offsets are the same few in both pools, so that a larger image alone makes
 * no difference to the cache. */
#include "counts.h"

#include <stdio.h>

enum { TILES = 16, TIMES = 16 };

struct costs {
    double read, write, repair, fail, panel; /* seconds a pass */
    double groups;
};

static struct costs costs_of(struct pool p, uint64_t units)
{
    for (size_t i = 0; i < DRAWN_OFFSETS; i++)
        p.units_at[i] = p.units_at[i] / p.y.u % units * p.y.u;
    struct timed t[] = {{pass_named("read-4K")->work, &p, 0},
                        {pass_named("write-4K")->work, &p, 0},
                        {count_call_named("fail, none failed")->work, &p, 0},
                        {count_call_named("panel")->work, &p, 0}};
    time_in_turns(t, 4);
    p.r = failures(&p, 0, 1);
    struct timed repair = {pass_named("repair")->work, &p, 0};
    time_in_turns(&repair, 1);
    pool_free(&p);
    return (struct costs){t[0].seconds, t[1].seconds, repair.seconds, t[2].seconds, t[3].seconds, p.m.groups};
}

static void row(const char *what, struct costs c)
{
    printf("%-24s %12.2f %12.2f %18.0f %18.2f %10.2f %10.3f\n", what, c.read / DRAWN_OFFSETS * 1e6,
           c.write / DRAWN_OFFSETS * 1e6, c.repair * 1e6, c.repair / c.groups * 1e6, c.fail * 1e6,
           c.panel / count_call_named("panel")->calls * 1e6);
}

void run_growth(void)
{
    uint64_t units = 64;
    printf("\nGrowth, microseconds a call (4 KiB units)\n%-24s %12s %12s %18s %18s %10s %10s\n", "", "read 4 KiB",
           "write 4 KiB", "repair, 1 failed", "the same, a group", "fail", "panel");
    struct costs t1 = costs_of(bench_pool(TILES), units), t16 = costs_of(bench_pool(TILES * TIMES), units);
    row("8+2 over 24, T = 16", t1);
    row("8+2 over 24, T = 256", t16);
    row("4+2 over 24, T = 16", costs_of(pool_of(4, 2, 24, 4096, TILES), units));
    row("16+2 over 24, T = 16", costs_of(pool_of(16, 2, 24, 4096, TILES), units));
    floor_at_most("read of 4 KiB, 16 T / T", t16.read / t1.read, 1.25);
    floor_at_most("write of 4 KiB, 16 T / T", t16.write / t1.write, 1.25);
    floor_at_most("repair, 16 T / T, over 16: linear but for the cache", t16.repair / t1.repair / TIMES, 2.0);
    floor_at_most("panel, 16 T / T", t16.panel / t1.panel, 1.25);
}
