#include "coders.h"

#include "before.h"
#include "twin.h"

#include <stdlib.h>

static uint8_t product(uint8_t a, uint8_t b)
{
    uint8_t sum = 0;
    for (; b; b >>= 1) {
        if (b & 1)
            sum ^= a;
        a = (uint8_t)(a << 1) ^ (a & 128 ? 0x1d : 0);
    }
    return sum;
}

static uint8_t inverse(uint8_t a)
{
    uint8_t b = 1;
    while (product(a, b) != 1)
        b++;
    return b;
}

uint8_t coefficient(unsigned i, unsigned j)
{
    return product(product(32 ^ j, 32 + i), inverse(product((32 + i) ^ j, 32)));
}

bool is_missing(const struct group *g, uint64_t unit)
{
    for (size_t i = 0; i < g->lost; i++)
        if (g->missing[i] == unit)
            return true;
    return false;
}

void sources_of(const struct group *g, unsigned sources[MOST_N])
{
    size_t found = 0;
    for (unsigned c = 0; found < g->y.n; c++)
        if (!is_missing(g, c))
            sources[found++] = c;
}

/* Loses every other data unit, from unit 1 on where there are enough of them. */
struct group group_of(uint64_t n, uint64_t k, uint64_t u, size_t lost)
{
    struct group g = {.y = {n, k, n + 2 * k, u, 1, 0, 1}, .length = (n + k) * u, .lost = lost};
    g.buf = room(g.length);
    fill(g.buf, g.length, n + k + u);
    for (size_t i = 0; i < lost; i++)
        g.missing[i] = (1 + 2 * i) % n;
    return g;
}

static void our_encode(void *context)
{
    struct group *g = context;
    must(splicebell_encode(g->y, g->buf, g->length) == 0, "encode accepted");
}

static void our_rebuild(void *context)
{
    struct group *g = context;
    must(splicebell_rebuild(g->y, g->missing, g->lost, g->buf, g->length) == 0, "rebuild accepted");
}

static void twin_encodes(void *context)
{
    struct group *g = context;
    twin_encode(g->y, g->buf, g->length);
}

static void twin_rebuilds(void *context)
{
    struct group *g = context;
    twin_rebuild(g->y, g->missing, g->lost, g->buf, g->length);
}

#ifdef WITH_BEFORE
static void before_encodes(void *context)
{
    struct group *g = context;
    must(before_encode(without_edition(g->y), g->buf, g->length) == 0, "encode accepted");
}

static void before_rebuilds(void *context)
{
    struct group *g = context;
    must(before_rebuild(without_edition(g->y), g->missing, g->lost, g->buf, g->length) == 0, "rebuild accepted");
}

static const struct coder before = {"before", NULL, before_encodes, before_rebuilds};
#endif

const struct coder ours = {"ours", NULL, our_encode, our_rebuild};
const struct coder twin = {"Rust twin", NULL, twin_encodes, twin_rebuilds};

struct span span_of(uint64_t n, uint64_t k, uint64_t u, size_t groups, size_t lost)
{
    struct span s = {.group = group_of(n, k, u, lost), .groups = groups};
    s.bytes = room(groups * s.group.length);
    fill(s.bytes, groups * s.group.length, 3);
    free(s.group.buf);
    return s;
}

void span_free(struct span *s)
{
    free(s->bytes);
}

static void over_span(struct span *s, work work)
{
    for (size_t i = 0; i < s->groups; i++) {
        s->group.buf = s->bytes + i * s->group.length;
        work(&s->group);
    }
}

void encode_span(void *context)
{
    over_span(context, our_encode);
}

void rebuild_span(void *context)
{
    over_span(context, our_rebuild);
}

const struct coder *const coders[] = {
    &ours,
#ifdef WITH_BEFORE
    &before,
#endif
    &twin,
#ifdef WITH_ISAL
    &isal_by_16,
    &isal_own,
#endif
#ifdef WITH_JERASURE
    &jerasure,
#endif
#ifdef WITH_ZFEC
    &zfec,
#endif
};
const size_t coder_count = sizeof coders / sizeof *coders;
