/* Repair by a proposed plan, and the plan itself, as pieces of work that are timed or counted. */
#ifndef PLANS_H
#define PLANS_H

#include "pools.h"

/* A pool with failed targets, a plan for it, and who answers. */
struct planned {
    const struct pool *pool;
    const struct answerer *calls;
    uint64_t *plan; /* in room of its own */
    size_t length;
};

struct plan_call {
    const char *what;
    work work;      /* its context is a struct planned */
    bool scattered; /* by the entries of our plan in another order, the same every time */
    double most;    /* of a plain repair's time, wanted in units of 4 KiB; 0 where nothing is */
};
extern const struct plan_call plan_calls[];
extern const size_t plan_call_count;
const struct plan_call *plan_call_named(const char *what);

/* Our plan for the pool as its record has it, its entries scattered or as they are drawn. */
struct planned planned_for(const struct pool *p, bool scattered, const struct answerer *a);

#endif
