/* Encode and rebuild of one group in a buffer that fits the cache. */
#include "coders.h"

#include <stdio.h>
#include <stdlib.h>
#include <string.h>

enum { MOST_CODERS = 8 };

enum operation { ENCODE, REBUILD_ONE, REBUILD_ALL };

static const struct {
    uint64_t n, k;
} codes[] = {{4, 1}, {8, 2}, {10, 3}, {16, 3}};
static const uint64_t units[] = {512, 4096};

static work work_of(const struct coder *c, enum operation op)
{
    return op == ENCODE ? c->encode : c->rebuild;
}

/* Every coder must give the same bytes as ours: encoded, and rebuilt after the lost units were spoilt. */
static void compare(const struct coder *c, enum operation op, const struct group *g)
{
    struct group theirs = *g;
    theirs.buf = room(g->length);
    memcpy(theirs.buf, g->buf, g->length);
    uint64_t spoilt_from = op == ENCODE ? g->y.n : 0;
    for (uint64_t unit = spoilt_from; unit < g->y.n + g->y.k; unit++)
        if (op == ENCODE || is_missing(g, unit))
            memset(theirs.buf + unit * g->y.u, 0xa5, g->y.u);
    work_of(c, op)(&theirs);
    char what[60];
    snprintf(what, sizeof what, "the same bytes as ours, from %s", c->name);
    must(memcmp(theirs.buf, g->buf, g->length) == 0, what);
    free(theirs.buf);
}

static void judge(enum operation op, const struct group *g, const char *peer, double ratio)
{
    bool own = strcmp(peer, "ISA-L own") == 0, by_16 = !own && strncmp(peer, "ISA-L", 5) == 0;
    char what[80];
    int n = g->y.n, k = g->y.k;
    if (op == ENCODE && k > 1 && by_16) {
        snprintf(what, sizeof what, "encode %d+%d / %s", n, k, peer);
        floor_at_least(what, ratio, 1.0);
    } else if (op == ENCODE && k > 1 && own) {
        snprintf(what, sizeof what, "encode %d+%d / %s", n, k, peer);
        floor_at_least(what, ratio, 0.85);
    } else if (op == ENCODE && k == 1 && own) {
        snprintf(what, sizeof what, "encode %d+%d / %s", n, k, peer);
        floor_at_least(what, ratio, 1.5);
    } else if (op == REBUILD_ONE && by_16) {
        snprintf(what, sizeof what, "rebuild %d+%d, one lost / %s", n, k, peer);
        floor_at_least(what, ratio, 1.0);
    } else if (op == REBUILD_ALL && k > 1 && by_16) {
        snprintf(what, sizeof what, "rebuild %d+%d, %d lost / %s", n, k, k, peer);
        floor_at_least(what, ratio, 0.6);
    } else if (op == REBUILD_ALL && k > 1 && own) {
        snprintf(what, sizeof what, "rebuild %d+%d, %d lost / %s", n, k, k, peer);
        floor_at_least(what, ratio, 0.7);
    }
}

static void row(enum operation op, struct group *g)
{
    struct timed t[MOST_CODERS];
    for (size_t i = 0; i < coder_count; i++) {
        if (coders[i]->prepare)
            coders[i]->prepare(g);
        compare(coders[i], op, g);
        t[i] = (struct timed){work_of(coders[i], op), g, 0};
    }
    time_in_turns(t, coder_count);
    double bytes = (op == ENCODE ? g->y.n : g->lost) * (double)g->y.u;
    printf("%2d+%d %5d", (int)g->y.n, (int)g->y.k, (int)g->y.u);
    for (size_t i = 0; i < coder_count; i++) {
        double ratio = t[i].seconds / t[0].seconds;
        printf(i ? " %8.0f (%5.2f)" : " %9.0f", rate(bytes, t[i].seconds), ratio);
        if (g->y.u == 4096)
            judge(op, g, coders[i]->name, ratio);
    }
    printf("\n");
}

static void table(enum operation op, const char *title)
{
    printf("\n%s\n%4s %5s", title, "code", "unit");
    for (size_t i = 0; i < coder_count; i++)
        printf(i ? " %16s" : " %9s", coders[i]->name);
    printf("\n");
    for (size_t c = 0; c < sizeof codes / sizeof *codes; c++)
        for (size_t u = 0; u < sizeof units / sizeof *units; u++) {
            struct group g = group_of(codes[c].n, codes[c].k, units[u], op == REBUILD_ALL ? codes[c].k : 1);
            ours.encode(&g);
            row(op, &g);
            free(g.buf);
        }
}

void run_codes(void)
{
    table(ENCODE, "Encode, MB/s of data; in brackets ours / that one");
    table(REBUILD_ONE, "Rebuild of one lost data unit, MB/s of rebuilt bytes; in brackets ours / that one");
    table(REBUILD_ALL, "Rebuild of K lost data units, MB/s of rebuilt bytes; in brackets ours / that one");
}
