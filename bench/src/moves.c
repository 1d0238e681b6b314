/* What a move between editions costs. It copies data, works out parity and clears spares, all at other places. Beside it
 * stand our encode over as many groups, which works out the same parity and stores nothing else, and a plain copy of the
 * image, which stores as many bytes. */
#include "moves.h"

#include "coders.h"
#include "twin.h"

#include <stdio.h>
#include <stdlib.h>
#include <string.h>

const struct mover our_move = {"ours", splicebell_move_edition}, twin_move = {"Rust twin", twin_move_edition};
static const struct mover *const movers[] = {&our_move, &twin_move};
enum { MOVERS = sizeof movers / sizeof *movers };

/* Of our encode's speed, in units of 4 KiB. */
static const double wanted_of_encode = 0.5;

static splicebell_layout other_edition(splicebell_layout y)
{
    y.edition = 3 - y.edition;
    return y;
}

/* Stores the pool's file in an image of the other edition, in which nothing has failed. */
static void write_other(const struct pool *p, uint8_t *image)
{
    const splicebell_record none = {0};
    uint64_t refusal = splicebell_write(other_edition(p->y), none, image, p->m.image, 0, p->file, p->m.capacity);
    must(refusal == 0, "the file written in the other edition");
}

struct pool in_other_edition(const struct pool *p)
{
    struct pool other = *p;
    other.y = other_edition(p->y);
    other.image = room(p->m.image);
    write_other(p, other.image);
    return other;
}

struct move move_of(const struct pool *p, uint64_t failed, const struct mover *mover, uint8_t *into)
{
    struct move x = {.pool = *p, .mover = mover, .into = into};
    x.pool.r = failures(p, 0, failed);
    return x;
}

void move_whole_pool(void *context)
{
    const struct move *x = context;
    const struct pool *p = &x->pool;
    must(x->mover->call(p->y, p->r, p->image, p->m.image, x->into, p->m.image) == 0, "a pool moved");
}

static void copy_image(void *context)
{
    const struct move *x = context;
    memcpy(x->into, x->pool.image, x->pool.m.image);
}

/* ---- before they are timed */

/* The new image must be that of the file written into zeros, whatever the failed targets hold, and the old image must
 * stay. */
static void compare(const struct pool *p, uint64_t failed)
{
    size_t length = p->m.image, drive = length / p->y.p;
    uint8_t *old = image_like(p), *before = room(length), *wanted = calloc(length, 1), *into = room(length);
    must(wanted != NULL, "memory");
    write_other(p, wanted);
    for (uint64_t i = 0; i < failed; i++)
        memset(old + failing(i) * drive, 0xee, drive);
    memcpy(before, old, length);
    for (size_t m = 0; m < MOVERS; m++) {
        struct move x = move_of(p, failed, movers[m], into);
        x.pool.image = old;
        memset(into, 0xff, length);
        move_whole_pool(&x);
        must(memcmp(into, wanted, length) == 0, "the file in the other edition, whoever moves it");
        must(memcmp(old, before, length) == 0, "the old image as it was");
    }
    free(old);
    free(before);
    free(wanted);
    free(into);
}

static void compare_all(struct pool p)
{
    struct pool other = in_other_edition(&p);
    for (uint64_t failed = 0; failed <= p.y.k; failed++) {
        compare(&p, failed);
        compare(&other, failed);
    }
    free(other.image);
    pool_free(&p);
}

/* ---- the tables */

static const struct {
    uint64_t from;
    bool all_missing; /* K targets have failed, else none */
} rows[] = {{1, false}, {2, false}, {1, true}, {2, true}};
enum { ROWS = sizeof rows / sizeof *rows };

struct times {
    double moves[ROWS][MOVERS], encode, copy; /* seconds of one call */
};

/* All in turns, since each is compared with the last two. */
static struct times time_all(const struct pool pools[2])
{
    struct move moves[ROWS][MOVERS];
    struct timed t[ROWS * MOVERS + 2];
    const struct pool *p = pools;
    uint8_t *into = room(p->m.image);
    struct span span = span_of(p->y.n, p->y.k, p->y.u, p->m.groups, 1);
    for (size_t r = 0; r < ROWS; r++)
        for (size_t m = 0; m < MOVERS; m++) {
            moves[r][m] = move_of(&pools[rows[r].from - 1], rows[r].all_missing ? p->y.k : 0, movers[m], into);
            t[r * MOVERS + m] = (struct timed){move_whole_pool, &moves[r][m], 0};
        }
    t[ROWS * MOVERS] = (struct timed){encode_span, &span, 0};
    t[ROWS * MOVERS + 1] = (struct timed){copy_image, &moves[0][0], 0};
    time_in_turns(t, ROWS * MOVERS + 2);
    struct times took = {.encode = t[ROWS * MOVERS].seconds, .copy = t[ROWS * MOVERS + 1].seconds};
    for (size_t r = 0; r < ROWS; r++)
        for (size_t m = 0; m < MOVERS; m++)
            took.moves[r][m] = t[r * MOVERS + m].seconds;
    span_free(&span);
    free(into);
    return took;
}

static void row(const struct pool *p, size_t r, const struct times *took)
{
    char what[50], name[80];
    const double *seconds = took->moves[r];
    double of_encode = took->encode / seconds[0];
    snprintf(what, sizeof what, "edition %d to %d, %d missing", (int)rows[r].from, 3 - (int)rows[r].from,
             rows[r].all_missing ? (int)p->y.k : 0);
    printf("%-36s %10.0f %10.2f %10.2f", what, seconds[0] * 1e6, of_encode, took->copy / seconds[0]);
    for (size_t m = 1; m < MOVERS; m++)
        printf(" %10.0f (%9.2f)", seconds[m] * 1e6, seconds[m] / seconds[0]);
    printf("\n");
    snprintf(name, sizeof name, "a move / our encode, %s", what);
    if (p->y.u == 4096)
        floor_at_least(name, of_encode, wanted_of_encode);
}

static void table(struct pool p)
{
    struct pool pools[] = {p, in_other_edition(&p)};
    struct times took = time_all(pools);
    printf("\nA move between editions on a pool of %.0f MB: %d+%d over %d, units of %d bytes\n"
           "in units of 4 KiB wanted at least %.2f of the speed of our encode over as many groups\n"
           "%-36s %10s %10s %10s", p.m.image / 1e6, (int)p.y.n, (int)p.y.k, (int)p.y.p, (int)p.y.u, wanted_of_encode,
           "microseconds a call", "ours", "of encode", "of memcpy");
    for (size_t m = 1; m < MOVERS; m++)
        printf(" %10s (it / ours)", movers[m]->name);
    printf("\n");
    for (size_t r = 0; r < ROWS; r++)
        row(&p, r, &took);
    printf("%-36s %10.0f\n%-36s %10.0f\n", "our encode over as many groups", took.encode * 1e6,
           "memcpy of the image", took.copy * 1e6);
    free(pools[1].image);
    pool_free(&p);
}

/* Two pools of one size, the second in units of 512 bytes: there eight times as many units are found and stored. */
void run_moves(void)
{
    uint64_t tiles = options.quick || options.emulated ? 341 : 2730;
    compare_all(bench_pool(6));
    compare_all(pool_of(8, 2, 24, 512, 6));
    table(bench_pool(tiles));
    table(pool_of(8, 2, 24, 512, 8 * tiles));
}
