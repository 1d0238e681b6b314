/* Products of bytes by themselves, and the calls in which most of them are made: the reads of a byte that is lost. */
#include "products.h"

#include "pools.h"
#include "twin.h"

#include <stdio.h>
#include <string.h>

/* Of the crate bench_products, which stands in no shipped archive. */
void splicebell_bench_products(const uint8_t *a, size_t a_len, const uint8_t *b, size_t b_len, uint8_t *out,
                               size_t out_len);

void draw_pairs(struct pairs *p)
{
    fill(p->a, PAIRS, 1);
    fill(p->b, PAIRS, 2);
}

void our_products(void *context)
{
    struct pairs *p = context;
    splicebell_bench_products(p->a, PAIRS, p->b, PAIRS, p->out, PAIRS);
}

void twin_makes_products(void *context)
{
    struct pairs *p = context;
    twin_products(p->a, p->b, p->out, PAIRS);
}

/* Eight steps without a branch, one product at a time as in a small system: not as vectors. */
__attribute__((optimize("no-tree-vectorize"))) void shifted_products(void *context)
{
    struct pairs *p = context;
    for (size_t i = 0; i < PAIRS; i++) {
        uint8_t a = p->a[i], b = p->b[i], sum = 0;
        for (int step = 0; step < 8; step++) {
            sum ^= a & -(b & 1);
            a = (uint8_t)(a << 1) ^ (0x1d & -(a >> 7));
            b >>= 1;
        }
        p->out[i] = sum;
    }
}

static void product_table(void)
{
    static struct pairs ours, shifted, twins;
    struct timed t[] = {{our_products, &ours, 0}, {shifted_products, &shifted, 0}, {twin_makes_products, &twins, 0}};
    draw_pairs(&ours);
    shifted = twins = ours;
    for (size_t i = 0; i < 3; i++)
        t[i].work(t[i].context);
    must(memcmp(ours.out, shifted.out, PAIRS) == 0 && memcmp(ours.out, twins.out, PAIRS) == 0, "the same products");
    time_in_turns(t, 3);
    printf("\nProducts of drawn bytes, millions a second; in brackets ours / that one\n%10s %24s %28s\n", "ours",
           "shifting steps", "Rust twin, 65,536 entries");
    printf("%10.0f %15.0f (%5.2f) %19.0f (%5.2f)\n", PAIRS / t[0].seconds / 1e6, PAIRS / t[1].seconds / 1e6,
           t[1].seconds / t[0].seconds, PAIRS / t[2].seconds / 1e6, t[2].seconds / t[0].seconds);
    floor_at_least("products / shifting steps", t[1].seconds / t[0].seconds, 2.0);
}

static bool is_failed(const struct pool *p, uint64_t offset)
{
    uint64_t target = splicebell_map_offset(p->y, offset).image / (p->m.frames * p->y.u);
    for (uint64_t i = 0; i < p->r.k; i++)
        if (p->r.failed[i] == target)
            return true;
    return false;
}

/* Draws offsets at which a unit begins that lies on a failed target. */
static void draw_lost_units(struct pool *p)
{
    uint64_t state = 6;
    for (size_t i = 0; i < DRAWN_OFFSETS;) {
        uint64_t offset = drawn(&state) % (p->m.capacity / p->y.u) * p->y.u;
        if (is_failed(p, offset))
            p->units_at[i++] = offset;
    }
}

static void lost_row(uint64_t n, uint64_t k, uint64_t failed)
{
    struct pool p = pool_of(n, k, 24, 512, 8);
    p.r = failures(&p, 0, failed);
    draw_lost_units(&p);
    struct pool others[ANSWERERS];
    struct timed t[ANSWERERS];
    const struct pass *pass = pass_named("read-1");
    printf("%2d+%d %7d", (int)n, (int)k, (int)failed);
    for (size_t i = 0; i < ANSWERERS; i++) {
        others[i] = p;
        others[i].calls = answerers[i];
        t[i] = (struct timed){pass->work, &others[i], 0};
        pass->work(&others[i]);
        for (size_t j = 0; j < DRAWN_OFFSETS; j++)
            must(p.out[p.units_at[j]] == p.file[p.units_at[j]], "the byte that was written");
    }
    time_in_turns(t, ANSWERERS);
    for (size_t i = 0; i < ANSWERERS; i++) {
        double us = t[i].seconds / DRAWN_OFFSETS * 1e6;
        printf(i ? " %10.2f (%5.2f)" : " %10.2f", us, t[i].seconds / t[0].seconds);
    }
    printf("\n");
    pool_free(&p);
}

static void lost_table(void)
{
    printf("\nA read of 1 byte that is lost (units of 512), microseconds; in brackets that one / ours\n%4s %7s", "code",
           "failed");
    for (size_t i = 0; i < ANSWERERS; i++)
        printf(i ? " %18s" : " %10s", answerers[i]->name);
    printf("\n");
    lost_row(8, 2, 1);
    lost_row(8, 2, 2);
    lost_row(10, 3, 3);
    lost_row(16, 3, 3);
}

void run_products(void)
{
    product_table();
    lost_table();
}
