/* A pool image in memory, and passes over it that are timed or counted. */
#ifndef POOLS_H
#define POOLS_H

#include "bench.h"
#include "splicebell.h"

/* Who answers the pool's calls: ours, the twin, or an earlier archive. The twin's panel, which it has not, is NULL. */
struct answerer {
    const char *name;
    uint64_t (*read)(splicebell_layout, splicebell_record, const uint8_t *, size_t, uint64_t, uint8_t *, size_t);
    uint64_t (*write)(splicebell_layout, splicebell_record, uint8_t *, size_t, uint64_t, const uint8_t *, size_t);
    splicebell_repaired (*repair)(splicebell_layout, splicebell_record, uint8_t *, size_t);
    splicebell_failed (*fail)(splicebell_layout, splicebell_record, const uint8_t *, size_t, uint64_t);
    uint64_t (*audit)(splicebell_layout, splicebell_record, const uint8_t *, size_t);
    splicebell_counts (*panel)(splicebell_layout, splicebell_record, const uint8_t *, size_t);
    uint64_t (*check_plan)(splicebell_layout, splicebell_record, const uint8_t *, size_t, const uint64_t *, size_t);
    splicebell_repaired (*repair_by)(splicebell_layout, splicebell_record, uint8_t *, size_t, const uint64_t *, size_t);
    splicebell_drawn (*draw_plan)(splicebell_layout, splicebell_record, const uint8_t *, size_t, uint64_t *, size_t);
};
extern const struct answerer our_calls, twin_calls;

extern const struct answerer *const answerers[ANSWERERS];

enum { DRAWN_OFFSETS = 256 };

struct pool {
    splicebell_layout y;
    splicebell_numbers m;
    splicebell_record r;
    const struct answerer *calls;
    uint8_t *image;
    uint8_t *file;                      /* what is written: as long as the file */
    uint8_t *out;                       /* where it is read to: as long as the file */
    uint64_t units_at[DRAWN_OFFSETS];   /* drawn offsets at which a unit begins */
    uint64_t rebuilt;                   /* units that the last repair stored */
};

/* A pass over a pool: its bytes are those written, read or rebuilt by one pass, and its calls those of the pool. */
struct pass {
    const char *name;
    work work; /* its context is a struct pool */
    double (*bytes)(const struct pool *p);
    double (*calls)(const struct pool *p);
};
extern const struct pass passes[];
extern const size_t pass_count;
const struct pass *pass_named(const char *name);

/* The bench's pool: 8+2 over 24 targets, units of 4 KiB, edition 1, full of drawn bytes. */
struct pool pool_of(uint64_t n, uint64_t k, uint64_t p, uint64_t u, uint64_t t);
struct pool bench_pool(uint64_t tiles);
void pool_free(struct pool *p);

/* A copy of the pool's image, in room of its own. */
uint8_t *image_like(const struct pool *p);

/* The target that fails as the i-th, from 0 on. */
uint64_t failing(uint64_t i);

/* A record of failed targets, the first of them repaired, by our calls on the pool: so its count is the true one. */
splicebell_record failures(const struct pool *p, uint64_t repaired, uint64_t waiting);

#endif
