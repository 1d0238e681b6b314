/* A swapped drive taken back, as a piece of work that is timed or counted. */
#ifndef SWAPS_H
#define SWAPS_H

#include "pools.h"

/* Who takes it back: ours or the twin. An earlier archive has no such call. */
struct swapper {
    const char *name;
    splicebell_swapped (*call)(splicebell_layout, splicebell_record, uint8_t *, size_t, uint64_t);
};
extern const struct swapper our_swapper, twin_swapper;

struct swap {
    struct pool pool; /* its failed targets are all repaired */
    const struct swapper *swapper;
    uint64_t target; /* the one of them that comes back */
};

/* The pool with some targets failed and repaired, of which the `back`th, from 0 on, comes back. */
struct swap swap_of(const struct pool *p, uint64_t failed, uint64_t back, const struct swapper *swapper);

/* A piece of work, whose context is a struct swap. The record is not moved on, so every call moves as many units; with
 * more than one target in the list a second call finds other bytes there. */
void take_back(void *context);

/* Where the contents that move begin in the image, before and after. */
struct routes {
    struct route {
        uint64_t from, to;
    } *units;
    size_t count;
    uint64_t still; /* groups of which no content moves */
};

/* By what looks answer under the two lists. The caller frees the units. */
struct routes routes_of(const struct swap *x);

#endif
