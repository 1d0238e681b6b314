/* The calls that raise, test and show the count of missing units, as pieces of work that are timed or counted. */
#ifndef COUNTS_H
#define COUNTS_H

#include "pools.h"

struct count_call {
    const char *what;
    work work;                  /* its context is a struct pool */
    uint64_t repaired, waiting; /* failed targets of the record that it is made with */
    double calls;               /* of the pool, by one piece of work */
    bool walks;                 /* over the frames of one target */
};
extern const struct count_call count_calls[];
extern const size_t count_call_count;
const struct count_call *count_call_named(const char *what);

bool has_call(const struct answerer *a, const struct count_call *c);

/* The same pool, with the record that a call is made with, and who answers it. */
struct pool pool_for(const struct pool *p, const struct count_call *c, const struct answerer *a);

#endif
