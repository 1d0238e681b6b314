/* What repair by a plan costs beside plain repair. A plan is tested and then run, entry by entry; plain repair walks
 * over all groups, each once. Where entries are scattered, nearly each leads to another tile than the one before it. */
#include "plans.h"

#include <stdio.h>
#include <stdlib.h>
#include <string.h>

/* The record is not moved on, so every pass finds the same contents missing. */
static void repair_plainly(void *context)
{
    const struct planned *x = context;
    const struct pool *p = x->pool;
    splicebell_repaired answer = x->calls->repair(p->y, p->r, p->image, p->m.image);
    must(answer.refusal == 0 && answer.count == p->r.waiting, "all repaired");
}

static void draw(void *context)
{
    const struct planned *x = context;
    const struct pool *p = x->pool;
    splicebell_drawn answer = x->calls->draw_plan(p->y, p->r, p->image, p->m.image, x->plan, x->length);
    must(answer.refusal == 0 && answer.length == x->length, "a plan drawn");
}

static void check(void *context)
{
    const struct planned *x = context;
    const struct pool *p = x->pool;
    must(x->calls->check_plan(p->y, p->r, p->image, p->m.image, x->plan, x->length) == 0, "a plan accepted");
}

static void repair_by_plan(void *context)
{
    const struct planned *x = context;
    const struct pool *p = x->pool;
    splicebell_repaired answer = x->calls->repair_by(p->y, p->r, p->image, p->m.image, x->plan, x->length);
    must(answer.refusal == 0 && answer.count == p->r.waiting, "all repaired by a plan");
}

/* The first is what the others are compared with. */
const struct plan_call plan_calls[] = {
    {"repair", repair_plainly, false, 0},
    {"our plan drawn", draw, false, 0},
    {"our plan checked", check, false, 0.3},
    {"repair by our plan", repair_by_plan, false, 1.3},
    {"scattered plan checked", check, true, 0},
    {"repair by a scattered plan", repair_by_plan, true, 0},
};
enum { CALLS = sizeof plan_calls / sizeof *plan_calls };
const size_t plan_call_count = CALLS;

const struct plan_call *plan_call_named(const char *what)
{
    for (size_t i = 0; i < CALLS; i++)
        if (strcmp(plan_calls[i].what, what) == 0)
            return &plan_calls[i];
    must(false, what);
    return NULL;
}

static size_t entry_size(const struct pool *p)
{
    return p->y.n + 2;
}

static void exchange(uint64_t *a, uint64_t *b, size_t count)
{
    for (size_t i = 0; i < count; i++) {
        uint64_t was = a[i];
        a[i] = b[i];
        b[i] = was;
    }
}

/* The same order every time. */
static void scatter(struct planned *x)
{
    size_t size = entry_size(x->pool);
    uint64_t state = 13;
    for (size_t left = x->length / size; left > 1; left--)
        exchange(x->plan + (left - 1) * size, x->plan + drawn(&state) % left * size, size);
}

struct planned planned_for(const struct pool *p, bool scattered, const struct answerer *a)
{
    struct planned x = {.pool = p, .calls = &our_calls, .length = p->r.waiting * entry_size(p)};
    x.plan = room(x.length * sizeof *x.plan);
    draw(&x);
    if (scattered)
        scatter(&x);
    x.calls = a;
    return x;
}

/* ---- before they are timed */

/* A copy of the pool's image is repaired by the plan: answer and image must be those of plain repair. */
static void compare_repaired(const struct planned *x, splicebell_repaired wanted, const uint8_t *repaired)
{
    const struct pool *p = x->pool;
    uint8_t *image = image_like(p);
    splicebell_repaired answer = x->calls->repair_by(p->y, p->r, image, p->m.image, x->plan, x->length);
    must(memcmp(&answer, &wanted, sizeof answer) == 0, "the same answer from repair by a plan and from plain repair");
    must(memcmp(image, repaired, p->m.image) == 0, "the same image from repair by a plan and from plain repair");
    free(image);
}

static void must_refuse(const struct planned *x, uint8_t *image, const uint64_t *plan, size_t length)
{
    const struct pool *p = x->pool;
    const splicebell_repaired wanted = {SPLICEBELL_BAD_PLAN, 0, p->r};
    splicebell_repaired answer = x->calls->repair_by(p->y, p->r, image, p->m.image, plan, length);
    must(memcmp(&answer, &wanted, sizeof answer) == 0, "number 15 and the record as it was for a plan not accepted");
    must(x->calls->check_plan(p->y, p->r, image, p->m.image, plan, length) == wanted.refusal, "number 15 from a check");
}

/* A number too few; the missing content as its own source; one content named twice and another not at all. */
static void compare_refused(const struct planned *x)
{
    size_t bytes = x->length * sizeof *x->plan, size = entry_size(x->pool);
    uint8_t *image = image_like(x->pool);
    uint64_t *plan = room(bytes);
    must_refuse(x, image, x->plan, x->length - 1);
    memcpy(plan, x->plan, bytes);
    plan[2] = plan[1];
    must_refuse(x, image, plan, x->length);
    memcpy(plan, x->plan + size, size * sizeof *plan);
    must_refuse(x, image, plan, x->length);
    must(memcmp(image, x->pool->image, x->pool->m.image) == 0, "the image as it was after plans are refused");
    free(image);
    free(plan);
}

/* Whoever draws it, the plan must be ours, and a buffer that is a number too short must stay as it was. */
static void compare_drawn(const struct planned *x)
{
    const struct pool *p = x->pool;
    size_t bytes = x->length * sizeof *x->plan;
    uint64_t *plan = room(bytes), *untouched = room(bytes);
    splicebell_drawn short_of = x->calls->draw_plan(p->y, p->r, p->image, p->m.image, plan, x->length - 1);
    must(short_of.refusal == SPLICEBELL_BAD_BUFFER_LENGTH && short_of.length == 0, "number 5 for too short a buffer");
    must(memcmp(plan, untouched, bytes) == 0, "too short a buffer as it was");
    struct planned again = {p, x->calls, plan, x->length};
    draw(&again);
    must(memcmp(plan, x->plan, bytes) == 0, "the same plan, whoever draws it");
    free(plan);
    free(untouched);
}

static void compare(const struct pool *p)
{
    uint8_t *repaired = image_like(p);
    splicebell_repaired wanted = splicebell_repair(p->y, p->r, repaired, p->m.image);
    must(memcmp(repaired, p->image, p->m.image) != 0, "another image once it is repaired");
    for (size_t a = 0; a < ANSWERERS; a++) {
        struct planned in_order = planned_for(p, false, answerers[a]), scattered = planned_for(p, true, answerers[a]);
        compare_drawn(&in_order);
        compare_refused(&in_order);
        compare_repaired(&in_order, wanted, repaired);
        compare_repaired(&scattered, wanted, repaired);
        free(in_order.plan);
        free(scattered.plan);
    }
    free(repaired);
}

/* ---- the tables */

/* Seconds of one call; all are timed in turns, since each is compared with the first. */
static void time_all(const struct pool *p, double seconds[CALLS][ANSWERERS])
{
    struct planned planned[CALLS][ANSWERERS];
    struct timed t[CALLS * ANSWERERS];
    for (size_t c = 0; c < CALLS; c++)
        for (size_t a = 0; a < ANSWERERS; a++) {
            planned[c][a] = planned_for(p, plan_calls[c].scattered, answerers[a]);
            t[c * ANSWERERS + a] = (struct timed){plan_calls[c].work, &planned[c][a], 0};
        }
    time_in_turns(t, CALLS * ANSWERERS);
    for (size_t c = 0; c < CALLS; c++)
        for (size_t a = 0; a < ANSWERERS; a++) {
            seconds[c][a] = t[c * ANSWERERS + a].seconds;
            free(planned[c][a].plan);
        }
}

static void row(const struct pool *p, const struct plan_call *c, const double seconds[ANSWERERS], double repair)
{
    double of_repair = seconds[0] / repair;
    printf("%-36s %10.0f %10.2f", c->what, seconds[0] * 1e6, of_repair);
    for (size_t a = 1; a < ANSWERERS; a++)
        printf(" %10.0f (%9.2f)", seconds[a] * 1e6, seconds[a] / seconds[0]);
    printf("\n");
    char name[80];
    snprintf(name, sizeof name, "%s / plain repair, %d failed", c->what, (int)p->r.k);
    if (c->most > 0 && p->y.u == 4096)
        floor_at_most(name, of_repair, c->most);
}

static void table(const struct pool *p)
{
    double seconds[CALLS][ANSWERERS];
    time_all(p, seconds);
    printf("\nRepair by a plan on a pool of %.0f MB: %d+%d over %d, units of %d bytes, %d failed, %d entries\n"
           "in units of 4 KiB wanted at most %.2f of the repair for our plan checked, %.2f for repair by it\n"
           "%-36s %10s %10s", p->m.image / 1e6, (int)p->y.n, (int)p->y.k, (int)p->y.p, (int)p->y.u, (int)p->r.k,
           (int)p->r.waiting, plan_call_named("our plan checked")->most, plan_call_named("repair by our plan")->most,
           "microseconds a call", "ours", "/ repair");
    for (size_t a = 1; a < ANSWERERS; a++)
        printf(" %10s (it / ours)", answerers[a]->name);
    printf("\n");
    for (size_t c = 0; c < CALLS; c++)
        row(p, &plan_calls[c], seconds[c], seconds[0][0]);
}

/* All is compared before anything is timed: a timed repair leaves the spares filled, and then one that stores nothing
 * could not be told. */
static void tables(struct pool p)
{
    enum { MOST_FAILED = 2 };
    for (uint64_t failed = 1; failed <= MOST_FAILED; failed++) {
        p.r = failures(&p, 0, failed);
        compare(&p);
    }
    for (uint64_t failed = 1; failed <= MOST_FAILED; failed++) {
        p.r = failures(&p, 0, failed);
        table(&p);
    }
    pool_free(&p);
}

/* Two pools of one size, the second in units of 512 bytes: there an entry costs more beside the bytes that it mends. */
void run_plans(void)
{
    uint64_t tiles = options.quick || options.emulated ? 341 : 2730;
    tables(bench_pool(tiles));
    tables(pool_of(8, 2, 24, 512, 8 * tiles));
}
