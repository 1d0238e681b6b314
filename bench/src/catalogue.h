/* A catalogue in memory, and pieces of work on it that are timed or counted. */
#ifndef CATALOGUE_H
#define CATALOGUE_H

#include "bench.h"
#include "splicebell.h"

/* Who answers the catalogue's calls: ours, the twin, or an earlier archive. */
struct cataloguer {
    const char *name;
    splicebell_found (*lookup)(const splicebell_entry *, size_t, size_t, splicebell_key);
    splicebell_changed (*insert)(splicebell_entry *, size_t, size_t, splicebell_entry);
    splicebell_changed (*take_out)(splicebell_entry *, size_t, size_t, splicebell_entry);
    splicebell_page (*listing)(const splicebell_entry *, size_t, size_t, splicebell_key, splicebell_wide *, size_t);
};
extern const struct cataloguer our_catalogue, twin_catalogue;
extern const struct cataloguer *const cataloguers[ANSWERERS]; /* ours first */

struct catalogue {
    const struct cataloguer *calls;
    splicebell_entry *slots; /* one more than there are records */
    size_t slot_count, n;
    uint64_t state; /* of the drawn keys */
};

/* Of two devices, with the same file numbers each. They are even, so that odd ones are new keys. n is even too. */
struct catalogue catalogue_of(const struct cataloguer *calls, size_t n);

/* What record i of the catalogue begins as, and a record of a new key behind it. */
splicebell_entry first_record(const struct catalogue *c, size_t i);
splicebell_entry new_record(const struct catalogue *c, size_t i);

/* A number of 64 bits as a pair, and back. Pairs have the order of the numbers, which neither word has alone. */
splicebell_wide pair_of(uint64_t number);
uint64_t number_of(splicebell_wide pair);

/* One call of each, at a drawn key; but the second inserts a new key and deletes it again, and the last gives a count
 * above the slots. */
void look_up(void *catalogue);
void insert_and_delete(void *catalogue);
void list_16(void *catalogue);
void look_up_beyond(void *catalogue);

#endif
