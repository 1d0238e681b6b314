/* A pool moved to the other edition, as a piece of work that is timed or counted. */
#ifndef MOVES_H
#define MOVES_H

#include "pools.h"

/* Who moves it: ours or the twin. An earlier archive has no such call. */
struct mover {
    const char *name;
    uint64_t (*call)(splicebell_layout, splicebell_record, const uint8_t *, size_t, uint8_t *, size_t);
};
extern const struct mover our_move, twin_move;

struct move {
    struct pool pool; /* the old one, of either edition */
    const struct mover *mover;
    uint8_t *into; /* as long as the pool's image */
};

/* The pool's file in the other edition, in an image of its own that was written and not moved. */
struct pool in_other_edition(const struct pool *p);

/* The move of a pool of which some targets have failed and none is repaired. */
struct move move_of(const struct pool *p, uint64_t failed, const struct mover *mover, uint8_t *into);

/* A piece of work, whose context is a struct move. */
void move_whole_pool(void *context);

#endif
