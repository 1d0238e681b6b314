/* Those who encode and rebuild one group: ours, the twin, and the peers that are there. */
#ifndef CODERS_H
#define CODERS_H

#include "bench.h"
#include "splicebell.h"

enum { MOST_N = 16, MOST_K = 3 };

/* One group in a buffer, and the units of it that count as lost when it is rebuilt: data units only. */
struct group {
    splicebell_layout y;
    uint8_t *buf;
    size_t length;
    uint64_t missing[MOST_K];
    size_t lost;
};

struct coder {
    const char *name;
    void (*prepare)(const struct group *g); /* makes matrices and tables, outside the timing; may be NULL */
    work encode, rebuild;                   /* their context is a struct group */
};

extern const struct coder *const coders[];
extern const size_t coder_count;
extern const struct coder ours, twin, isal_by_16, isal_own, jerasure, zfec;

/* The coefficient a(i, j) of document 01. */
uint8_t coefficient(unsigned i, unsigned j);

bool is_missing(const struct group *g, uint64_t unit);

/* The N lowest units that are not lost, which a rebuild reads. */
void sources_of(const struct group *g, unsigned sources[MOST_N]);

struct group group_of(uint64_t n, uint64_t k, uint64_t u, size_t lost);

/* Many groups in one buffer, so that encode and rebuild stream through memory as the calls on a large pool do. */
struct span {
    struct group group;
    uint8_t *bytes;
    size_t groups;
};

struct span span_of(uint64_t n, uint64_t k, uint64_t u, size_t groups, size_t lost);
void span_free(struct span *s);

/* Ours, over all groups of a span, which is the context. */
void encode_span(void *context);
void rebuild_span(void *context);

#endif
