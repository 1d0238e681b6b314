/* Lists of writes, each in one call, beside the same writes one after the other and the plain Rust twin. */
#include "pools.h"
#include "twin.h"

#include <stdio.h>
#include <stdlib.h>
#include <string.h>

enum { LISTS = 256, MOST_RANGES = 64 };

static const uint64_t session_lengths[] = {4096, 8, 64}; /* photograph, weight and tag */
static const uint64_t tag_lengths[] = {[0 ... MOST_RANGES - 1] = 64};

struct kind {
    const char *what;
    const uint64_t *lengths;
    size_t count;
    bool beside; /* each range begins where the one before it ends, all in one tile */
    bool floor;
};

static const struct kind kinds[] = {
    {"3 ranges, at random", session_lengths, 3, false, true},
    {"3 ranges, in one tile", session_lengths, 3, true, true},
    {"64 ranges, at random", tag_lengths, MOST_RANGES, false, false},
    {"64 ranges, in one tile", tag_lengths, MOST_RANGES, true, false},
};

/* Lists of one kind. The bytes to be written are the pool's file from its beginning, one list after the other. */
struct lists {
    const struct pool *p;
    splicebell_list_written (*call)(splicebell_layout, splicebell_record, uint8_t *, size_t, const splicebell_range *,
                                    size_t, const uint8_t *, size_t);
    uint8_t *image;
    splicebell_range *ranges; /* `count` for each list */
    size_t count, length;     /* ranges and bytes of each list */
};

/* A drawn offset at which a unit begins, but not the last of its tile: so there is room in the tile beside it. */
static uint64_t drawn_unit(const struct pool *p, uint64_t *state)
{
    uint64_t units_of_tile = p->m.capacity / p->y.t / p->y.u;
    uint64_t tile = drawn(state) % p->y.t, unit = drawn(state) % (units_of_tile - 1);
    return (tile * units_of_tile + unit) * p->y.u;
}

static struct lists lists_of(const struct pool *p, const struct kind *k)
{
    struct lists l = {.p = p, .call = splicebell_write_list, .image = p->image, .count = k->count};
    l.ranges = room(LISTS * k->count * sizeof *l.ranges);
    uint64_t state = 11;
    for (size_t i = 0; i < LISTS; i++) {
        uint64_t at = drawn_unit(p, &state);
        l.length = 0;
        for (size_t j = 0; j < k->count; j++) {
            uint64_t offset = k->beside ? at + l.length : drawn_unit(p, &state);
            l.ranges[i * k->count + j] = (splicebell_range){offset, k->lengths[j]};
            l.length += k->lengths[j];
        }
    }
    must(LISTS * l.length <= p->m.capacity, "a file with the bytes of all lists");
    return l;
}

static void write_lists(void *context)
{
    const struct lists *l = context;
    const struct pool *p = l->p;
    for (size_t i = 0; i < LISTS; i++)
        must(l->call(p->y, p->r, l->image, p->m.image, l->ranges + i * l->count, l->count, p->file + i * l->length,
                     l->length).refusal == 0, "a list written");
}

static void write_one_by_one(void *context)
{
    const struct lists *l = context;
    const struct pool *p = l->p;
    const uint8_t *bytes = p->file;
    for (size_t i = 0; i < LISTS * l->count; i++) {
        splicebell_range range = l->ranges[i];
        must(splicebell_write(p->y, p->r, l->image, p->m.image, range.offset, bytes, range.length) == 0,
             "a range written");
        bytes += range.length;
    }
}

/* A call for each list, a call for each range and the twin must leave the same image, and another than there was. */
static void compare(const struct lists *ours, const struct lists *theirs)
{
    struct lists once = *ours, again = *ours;
    size_t size = ours->p->m.image;
    once.image = image_like(ours->p);
    write_lists(&once);
    must(memcmp(once.image, ours->p->image, size) != 0, "another image once the lists are written");
    again.image = image_like(ours->p);
    write_one_by_one(&again);
    must(memcmp(once.image, again.image, size) == 0, "the same image from lists and from writes one by one");
    again.call = theirs->call;
    memcpy(again.image, ours->p->image, size);
    write_lists(&again);
    must(memcmp(once.image, again.image, size) == 0, "the same image from our lists and the twin's");
    free(once.image);
    free(again.image);
}

/* Ours and the twin must refuse a list alike, and leave the image as it was. */
static void compare_refused(const struct pool *p, const splicebell_range *ranges, size_t count, size_t length,
                            splicebell_list_written wanted)
{
    static const char what[] = "the same refusal of a list from ours and the twin";
    uint8_t *image = image_like(p);
    splicebell_list_written ours = splicebell_write_list(p->y, p->r, image, p->m.image, ranges, count, p->file, length);
    splicebell_list_written theirs = twin_write_list(p->y, p->r, image, p->m.image, ranges, count, p->file, length);
    must(ours.refusal == wanted.refusal && ours.range == wanted.range, what);
    must(theirs.refusal == wanted.refusal && theirs.range == wanted.range, what);
    must(memcmp(image, p->image, p->m.image) == 0, "the image as it was after a list is refused");
    free(image);
}

/* Of too many ranges, of ranges outside behind one that could be written, and of a byte too few. */
static void compare_refusals(const struct pool *p)
{
    struct lists l = lists_of(p, &kinds[0]);
    compare_refused(p, l.ranges, MOST_RANGES + 1, p->m.capacity, (splicebell_list_written){4, 0});
    compare_refused(p, l.ranges, l.count, l.length - 1, (splicebell_list_written){5, 0});
    l.ranges[2].length = UINT64_MAX;
    compare_refused(p, l.ranges, l.count, l.length, (splicebell_list_written){4, 3});
    l.ranges[1].offset = p->m.capacity + 1;
    compare_refused(p, l.ranges, l.count, l.length, (splicebell_list_written){4, 2});
    free(l.ranges);
}

static void row(const struct pool *p, const struct kind *k, const char *size)
{
    struct lists ours = lists_of(p, k), theirs = ours;
    theirs.call = twin_write_list;
    compare(&ours, &theirs);
    struct timed t[] = {{write_lists, &ours, 0}, {write_one_by_one, &ours, 0}, {write_lists, &theirs, 0}};
    time_in_turns(t, 3);
    double us = 1e6 / LISTS, of_writes = t[0].seconds / t[1].seconds;
    char name[80];
    snprintf(name, sizeof name, "%s, %d missing", k->what, (int)p->r.k);
    printf("%-36s %9.2f %12.2f (%5.2f) %12.2f (%5.2f)\n", name, t[0].seconds * us, t[1].seconds * us, of_writes,
           t[2].seconds * us, t[0].seconds / t[2].seconds);
    snprintf(name, sizeof name, "a list / its writes, %s, %d missing, %s", k->what, (int)p->r.k, size);
    if (k->floor)
        floor_at_most(name, of_writes, 1.0);
    free(ours.ranges);
}

static void table(uint64_t tiles)
{
    struct pool p = bench_pool(tiles);
    char size[20];
    snprintf(size, sizeof size, "%.0f MB", p.m.image / 1e6);
    printf("\nLists of writes on a pool of %s (8+2 over 24, 4 KiB units): 3 ranges of 4096, 8 and 64 bytes, 64 of 64\n"
           "%-36s %9s %20s %20s\n", size, "microseconds a list (a list / it)", "a list", "one by one", "Rust twin");
    compare_refusals(&p);
    for (uint64_t missing = 0; missing <= 1; missing++) {
        p.r = failures(&p, 0, missing);
        for (size_t i = 0; i < sizeof kinds / sizeof *kinds; i++)
            row(&p, &kinds[i], size);
    }
    pool_free(&p);
}

void run_lists(void)
{
    table(20);
    table(options.quick || options.emulated ? 341 : 2730);
}
