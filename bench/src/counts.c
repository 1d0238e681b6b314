/* What the count of missing units costs. A fail walks over the frames of one target, and so does an audit for each that
 * waits: these are W/P times as many as the groups. A repair walks over all groups, also where nothing is missing. */
#include "counts.h"

#include "twin.h"

#include <stdio.h>
#include <string.h>

enum { PANELS = 256 };

static void repair_nothing(void *context)
{
    const struct pool *p = context;
    splicebell_repaired x = p->calls->repair(p->y, p->r, p->image, p->m.image);
    must(x.refusal == 0 && x.count == 0, "a repair that finds nothing missing");
}

/* The record is not moved on, so it is the same target every time. */
static void fail_next(void *context)
{
    const struct pool *p = context;
    must(p->calls->fail(p->y, p->r, p->image, p->m.image, failing(p->r.k)).refusal == 0, "fail accepted");
}

static void audit(void *context)
{
    const struct pool *p = context;
    must(p->calls->audit(p->y, p->r, p->image, p->m.image) == 0, "the count found true");
}

static void show_panel(void *context)
{
    const struct pool *p = context;
    for (size_t i = 0; i < PANELS; i++)
        must(p->calls->panel(p->y, p->r, p->image, p->m.image).waiting == p->r.waiting, "the record's count shown");
}

/* The first is what the others are compared with. */
const struct count_call count_calls[] = {
    {"repair of nothing, none failed", repair_nothing, 0, 0, 1, false},
    {"repair of nothing, one repaired", repair_nothing, 1, 0, 1, false},
    {"fail, none failed", fail_next, 0, 0, 1, true},
    {"fail, one repaired", fail_next, 1, 0, 1, true},
    {"audit, one waiting", audit, 0, 1, 1, true},
    {"audit, two waiting", audit, 0, 2, 1, false},
    {"audit, one repaired, one waiting", audit, 1, 1, 1, true},
    {"panel", show_panel, 0, 1, PANELS, false},
};
enum { CALLS = sizeof count_calls / sizeof *count_calls };
const size_t count_call_count = CALLS;

const struct count_call *count_call_named(const char *what)
{
    for (size_t i = 0; i < CALLS; i++)
        if (strcmp(count_calls[i].what, what) == 0)
            return &count_calls[i];
    must(false, what);
    return NULL;
}

bool has_call(const struct answerer *a, const struct count_call *c)
{
    return c->work == audit ? a->audit != NULL : c->work == show_panel ? a->panel != NULL : true;
}

struct pool pool_for(const struct pool *p, const struct count_call *c, const struct answerer *a)
{
    struct pool pool = *p;
    pool.r = failures(p, c->repaired, c->waiting);
    pool.calls = a;
    return pool;
}

/* ---- before they are timed */

static void audits_must_answer(const struct pool *p, splicebell_record r, uint64_t refusal)
{
    must(splicebell_audit(p->y, r, p->image, p->m.image) == refusal, "the number that an audit must answer");
    must(twin_audit(p->y, r, p->image, p->m.image) == refusal, "the number that the twin's audit must answer");
}

/* The count must be that of a repair, which goes over the groups; audits must find it true, and no count beside it; the
 * panel must show it; and ours and the twin must raise it alike. */
static void compare(const struct pool *p, uint64_t repaired, uint64_t waiting)
{
    splicebell_record r = failures(p, repaired, waiting), wrong = r;
    must(splicebell_repair(p->y, r, p->image, p->m.image).count == r.waiting, "as many repaired as were counted");
    audits_must_answer(p, r, 0);
    wrong.waiting = r.waiting + 1;
    audits_must_answer(p, wrong, SPLICEBELL_WRONG_COUNT);
    wrong.waiting = r.waiting - 1;
    if (r.waiting)
        audits_must_answer(p, wrong, SPLICEBELL_WRONG_COUNT);
    splicebell_counts shown = splicebell_panel(p->y, r, p->image, p->m.image), had = {0, r.waiting, r.k, r.q};
    must(memcmp(&shown, &had, sizeof shown) == 0, "the record's numbers shown");
    if (r.k == p->y.k)
        return;
    splicebell_failed ours = splicebell_fail(p->y, r, p->image, p->m.image, failing(r.k));
    splicebell_failed theirs = twin_fail(p->y, r, p->image, p->m.image, failing(r.k));
    must(memcmp(&ours, &theirs, sizeof ours) == 0, "the same record from ours and the twin");
}

/* ---- the tables */

/* What a walk over one target may cost, in times of one over all groups: half as much again as its share of steps. */
static double bound(const struct pool *p)
{
    return 1.5 * p->m.w / p->y.p;
}

/* Seconds of one call; all are timed in turns, since each is compared with the first. */
static void time_all(const struct pool *p, double seconds[CALLS][ANSWERERS])
{
    static struct pool pools[CALLS * ANSWERERS];
    struct timed t[CALLS * ANSWERERS];
    size_t count = 0;
    for (size_t c = 0; c < CALLS; c++)
        for (size_t a = 0; a < ANSWERERS; a++)
            if (has_call(answerers[a], &count_calls[c])) {
                pools[count] = pool_for(p, &count_calls[c], answerers[a]);
                t[count] = (struct timed){count_calls[c].work, &pools[count], 0};
                count++;
            }
    time_in_turns(t, count);
    count = 0;
    for (size_t c = 0; c < CALLS; c++)
        for (size_t a = 0; a < ANSWERERS; a++)
            if (has_call(answerers[a], &count_calls[c]))
                seconds[c][a] = t[count++].seconds / count_calls[c].calls;
}

static void row(const struct pool *p, const struct count_call *c, const double seconds[ANSWERERS], double repair)
{
    double of_repair = seconds[0] / repair;
    printf("%-36s %10.3f %10.2f", c->what, seconds[0] * 1e6, of_repair);
    for (size_t a = 1; a < ANSWERERS; a++)
        if (has_call(answerers[a], c))
            printf(" %10.3f (%9.2f)", seconds[a] * 1e6, seconds[a] / seconds[0]);
        else
            printf(" %10s (%9s)", "-", "-");
    printf("\n");
    char name[80];
    snprintf(name, sizeof name, "%s / a repair of nothing, %d+%d over %d", c->what, (int)p->y.n, (int)p->y.k,
             (int)p->y.p);
    if (c->walks)
        floor_at_most(name, of_repair, bound(p));
}

static void table(struct pool p)
{
    double seconds[CALLS][ANSWERERS];
    for (uint64_t failed = 0; failed <= p.y.k; failed++)
        for (uint64_t repaired = 0; repaired <= failed; repaired++)
            compare(&p, repaired, failed - repaired);
    time_all(&p, seconds);
    printf("\nThe count of missing units on a pool of %.0f MB: %d+%d over %d, 4 KiB units, T = %d, L = %d\n"
           "a fail, and an audit with one target waiting: wanted at most %.2f of the first repair (1.5 W/P)\n"
           "%-36s %10s %10s", p.m.image / 1e6, (int)p.y.n, (int)p.y.k, (int)p.y.p, (int)p.y.t, (int)p.m.l,
           bound(&p), "microseconds a call", "ours", "/ repair");
    for (size_t a = 1; a < ANSWERERS; a++)
        printf(" %10s (it / ours)", answerers[a]->name);
    printf("\n");
    for (size_t c = 0; c < CALLS; c++)
        row(&p, &count_calls[c], seconds[c], seconds[0][0]);
    pool_free(&p);
}

/* Two pools of one size: in the first a tile has one row, in the second nine. */
void run_counts(void)
{
    bool small = options.quick || options.emulated;
    table(bench_pool(small ? 341 : 2730));
    table(pool_of(5, 2, 23, 4096, small ? 40 : 316));
}
