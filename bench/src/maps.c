/* Permutations of tiles, and offsets of the file to places, in edition 1 and in edition 2. */
#include "before.h"
#include "bench.h"
#include "splicebell.h"
#include "twin.h"

#include <stdio.h>
#include <string.h>

enum { CALLS = 4096, EDITIONS = 2 };

/* Who answers, ours first. An earlier archive has edition 1 alone. */
struct mapper {
    const char *name;
    uint64_t editions;
    splicebell_entries (*permute)(splicebell_layout, uint64_t);
    splicebell_mapped (*map)(splicebell_layout, uint64_t);
};

#ifdef WITH_BEFORE
static splicebell_entries permute_before(splicebell_layout y, uint64_t tile)
{
    return before_tile_permutation(without_edition(y), tile);
}

static splicebell_mapped map_before(splicebell_layout y, uint64_t offset)
{
    return before_map_offset(without_edition(y), offset);
}
#endif

static const struct mapper mappers[ANSWERERS] = {
    {"ours", 2, splicebell_tile_permutation, splicebell_map_offset},
    {"twin", 2, twin_tile_permutation, twin_map_offset},
#ifdef WITH_BEFORE
    {"before", 1, permute_before, map_before},
#endif
};

/* Calls of one kind, at drawn tiles or offsets. */
struct asked {
    splicebell_layout y;
    const struct mapper *who;
    const uint64_t *at;
    uint64_t sum; /* of what was answered, so that no answer is left out by the compiler */
};

static void permute_all(void *context)
{
    struct asked *a = context;
    for (size_t i = 0; i < CALLS; i++)
        a->sum += a->who->permute(a->y, a->at[i]).entries[0];
}

static void map_all(void *context)
{
    struct asked *a = context;
    for (size_t i = 0; i < CALLS; i++)
        a->sum += a->who->map(a->y, a->at[i]).image;
}

/* Answers whether the two editions have different permutations. */
static bool compare_permutations(splicebell_layout y, uint64_t tile)
{
    splicebell_entries ours[EDITIONS];
    for (y.edition = 1; y.edition <= EDITIONS; y.edition++) {
        ours[y.edition - 1] = splicebell_tile_permutation(y, tile);
        must(ours[y.edition - 1].refusal == 0, "a tile inside");
        for (size_t i = 1; i < ANSWERERS; i++) {
            splicebell_entries theirs = mappers[i].permute(y, tile);
            bool same = memcmp(&theirs, &ours[y.edition - 1], sizeof theirs) == 0;
            must(same || y.edition > mappers[i].editions, "the same permutation");
        }
    }
    return memcmp(&ours[0], &ours[1], sizeof *ours) != 0;
}

static void compare_places(splicebell_layout y, uint64_t offset)
{
    for (y.edition = 1; y.edition <= EDITIONS; y.edition++) {
        splicebell_mapped ours = splicebell_map_offset(y, offset);
        must(ours.refusal == 0, "an offset inside");
        for (size_t i = 1; i < ANSWERERS; i++) {
            splicebell_mapped theirs = mappers[i].map(y, offset);
            bool same = memcmp(&theirs, &ours, sizeof theirs) == 0;
            must(same || y.edition > mappers[i].editions, "the same place");
        }
    }
}

/* A line of the table. All are timed in turns. */
static void row(const char *what, splicebell_layout y, const uint64_t *at, work work)
{
    struct asked asked[ANSWERERS * EDITIONS];
    struct timed t[ANSWERERS * EDITIONS];
    size_t count = 0;
    for (size_t i = 0; i < ANSWERERS; i++)
        for (y.edition = 1; y.edition <= mappers[i].editions; y.edition++) {
            asked[count] = (struct asked){y, &mappers[i], at, 0};
            t[count] = (struct timed){work, &asked[count], 0};
            count++;
        }
    time_in_turns(t, count);
    printf("%-26s %9.1f", what, t[0].seconds / CALLS * 1e9);
    for (size_t i = 1; i < count; i++) {
        bool is_ours = asked[i].who == asked[0].who;
        double beside = t[is_ours ? 0 : asked[i].y.edition - 1].seconds;
        printf(" %9.1f (%5.2f)", t[i].seconds / CALLS * 1e9, t[i].seconds / beside);
        must(asked[i].sum != 0, "targets and places beyond 0");
    }
    printf("\n");
}

static void heading(void)
{
    printf("\nPermutations and places, nanoseconds a call, by edition. In brackets: ours in edition 2 / in edition 1;\n"
           "any other / ours in that edition\n%-26s", "");
    for (size_t i = 0; i < ANSWERERS; i++)
        for (unsigned edition = 1; edition <= mappers[i].editions; edition++)
            printf(i + edition == 1 ? " %7s %u" : " %15s %u", mappers[i].name, edition);
    printf("\n");
}

static void permutations(uint64_t targets)
{
    splicebell_layout y = {1, 1, targets, 1, CALLS, 7, 1};
    uint64_t tiles[CALLS];
    bool differ = false;
    for (size_t i = 0; i < CALLS; i++) {
        tiles[i] = i;
        differ |= compare_permutations(y, i);
    }
    must(differ, "other permutations in edition 2");
    char what[40];
    snprintf(what, sizeof what, "permutation, P = %d", (int)targets);
    row(what, y, tiles, permute_all);
}

static void places(bool at_random)
{
    splicebell_layout y = {8, 2, 24, 4096, 2730, 7, 1};
    uint64_t offsets[CALLS], capacity = splicebell_measure(y).numbers.capacity, state = 9;
    for (size_t i = 0; i < CALLS; i++) {
        offsets[i] = at_random ? drawn(&state) % capacity : i * 512;
        compare_places(y, offsets[i]);
    }
    row(at_random ? "offset to place, at random" : "the same in file order", y, offsets, map_all);
}

void run_maps(void)
{
    heading();
    permutations(3);
    permutations(8);
    permutations(24);
    permutations(64);
    places(true);
    places(false);
}
