/* Prints how alike the permutations of two tiles are, in each edition. Every permutation is asked of the library.
 *
 *     editions [--seed SEED] [--pairs COUNT] [PART]...
 *
 * The parts: shifts, alike, apart, loads; without one, all of these. tiles: where each unit of a small row lies. */
#include "editions.h"
#include "splicebell.h"

#include <inttypes.h>
#include <math.h>
#include <stdio.h>
#include <stdlib.h>
#include <string.h>

/* Pairs are taken from the first tiles of a row in turn. Above HIGHEST_WORKED the columns shared take too long to work
 * out. A row's load is taken over ROW_TILES tiles. */
enum { TILES = 8, HIGHEST_WORKED = 8, HIGHEST_DISTANCE = 12, ROW_TILES = 600, ROWS = 100 };

static uint64_t seed = 1;
static long pairs = 500000;

void must(bool so, const char *what)
{
    if (so)
        return;
    fprintf(stderr, "editions: failed: %s\n", what);
    exit(1);
}

/* Exchange k is that of entry P-k. */
static void print_shifts(void)
{
    printf("Neighbouring tiles' states after n advances: their difference, what part of 2^64 it is, and which\n"
           "exchange draws then\n");
    printf("%3s %21s %8s %10s %10s\n", "n", "difference", "part", "edition 1", "edition 2");
    for (int n = 1; n < HIGHEST_P + extra_advances(EDITIONS); n++) {
        printf("%3d %21" PRIu64 " %8.5f", n, difference(n), shift(n));
        for (int e = 1; e <= EDITIONS; e++) {
            int exchange = n - extra_advances(e);
            if (exchange >= 1 && exchange < HIGHEST_P)
                printf(" %10d", exchange);
            else
                printf(" %10s", "-");
        }
        printf("\n");
    }
}

/* Which pairs of tiles are compared: cookies 0, 1, 2, .. or drawn ones. */
struct choice {
    int edition, p;
    uint64_t distance;
    bool small;
    long count;
};

/* Over the pairs: how often the permutation is the same, how often its last column is, and the columns shared. */
struct alike {
    double same, last, shared, same_error, shared_error;
};

static double standard_error(double mean, double mean_of_squares, long count)
{
    return sqrt((mean_of_squares - mean * mean) / (double)count);
}

static struct alike measured(struct choice c)
{
    uint64_t state = seed;
    double same = 0, last = 0, shared = 0, squares = 0;
    for (long i = 0; i < c.count; i++) {
        uint8_t a[TARGETS], b[TARGETS];
        uint64_t cookie = c.small ? (uint64_t)(i / TILES) : drawn(&state), tile = (uint64_t)(i % TILES);
        tile_permutation(c.edition, c.p, cookie, tile, a);
        tile_permutation(c.edition, c.p, cookie, tile + c.distance, b);
        int columns = 0;
        for (int t = 0; t < c.p; t++)
            columns += a[t] == b[t];
        same += columns == c.p;
        last += a[c.p - 1] == b[c.p - 1];
        shared += columns;
        squares += columns * columns;
    }
    double n = (double)c.count;
    return (struct alike){same / n, last / n, shared / n, standard_error(same / n, same / n, c.count),
                          standard_error(shared / n, squares / n, c.count)};
}

static double factorial(int p)
{
    return p < 2 ? 1 : p * factorial(p - 1);
}

static void print_alike_row(int p, int e)
{
    struct alike few = measured((struct choice){e, p, 1, true, pairs});
    struct alike many = measured((struct choice){e, p, 1, false, pairs});
    printf("%3d %8d  %8.5f %8.5f %8.5f %8.5f  %7.4f %7.4f %7.4f", p, e, few.same, many.same, many.same_error,
           same_by_shifts(e, p), few.shared, many.shared, many.shared_error);
    if (p <= HIGHEST_WORKED)
        printf(" %7.4f", shared_by_shifts(e, p));
    else
        printf(" %7s", "-");
    printf("  %7.4f %7.4f\n", many.last, last_by_shifts(e, p));
}

static void print_alike(void)
{
    printf("Neighbouring tiles, %ld pairs with cookies 0, 1, 2, .. and as many with drawn ones, seed %" PRIu64 ".\n"
           "Edition 0: independent permutations. The error is the standard error with drawn cookies.\n",
           pairs, seed);
    printf("%3s %8s  %-35s  %-31s  %s\n", "", "", "same permutation", "columns shared", "last column same");
    printf("%3s %8s  %8s %8s %8s %8s  %7s %7s %7s %7s  %7s %7s\n", "P", "edition", "0,1,2..", "drawn", "error",
           "worked", "0,1,2..", "drawn", "error", "worked", "drawn", "worked");
    for (int p = LOWEST_P; p <= HIGHEST_P; p++) {
        printf("%3d %8d  %8s %8s %8s %8.5f  %7s %7s %7s %7.4f  %7s %7.4f\n", p, 0, "-", "-", "-", 1 / factorial(p),
               "-", "-", "-", 1.0, "-", 1.0 / p);
        for (int e = 1; e <= EDITIONS; e++)
            print_alike_row(p, e);
    }
}

static void print_apart(void)
{
    long count = pairs / 10;
    printf("Tiles so far apart: columns shared (1 where independent), %ld pairs of drawn cookies\n%3s %8s", count, "P",
           "edition");
    for (int d = 1; d <= HIGHEST_DISTANCE; d++)
        printf(" %5d", d);
    printf("\n");
    for (int p = LOWEST_P; p <= HIGHEST_P; p++)
        for (int e = 1; e <= EDITIONS; e++) {
            printf("%3d %8d", p, e);
            for (int d = 1; d <= HIGHEST_DISTANCE; d++)
                printf(" %5.2f", measured((struct choice){e, p, (uint64_t)d, false, count}).shared);
            printf("\n");
        }
}

/* Of one row: how often the target that a column lies on most often has it, over how often it would if all had it
 * equally often; the average of the columns. Edition 0: independent permutations. */
static double load_of_row(int edition, int p, uint64_t *state)
{
    long held[TARGETS][TARGETS] = {{0}};
    uint64_t cookie = drawn(state);
    for (uint64_t tile = 0; tile < ROW_TILES; tile++) {
        uint8_t a[TARGETS];
        if (edition == 0)
            independent_permutation(p, state, a);
        else
            tile_permutation(edition, p, cookie, tile, a);
        for (int t = 0; t < p; t++)
            held[t][a[t]]++;
    }
    double sum = 0;
    for (int t = 0; t < p; t++) {
        long most = 0;
        for (int target = 0; target < p; target++)
            most = held[t][target] > most ? held[t][target] : most;
        sum += (double)most * p / ROW_TILES;
    }
    return sum / p;
}

static void print_loads(void)
{
    printf("Rows of %d tiles: how often a column lies on the target that has it most often, over its even share. The\n"
           "average of the columns of a row: that of %d rows with drawn cookies, and the highest of them\n",
           ROW_TILES, ROWS);
    printf("%3s  %15s  %15s  %15s\n", "P", "independent", "edition 1", "edition 2");
    for (int p = LOWEST_P; p <= HIGHEST_P; p++) {
        printf("%3d", p);
        for (int e = 0; e <= EDITIONS; e++) {
            uint64_t state = seed;
            double sum = 0, highest = 0;
            for (int row = 0; row < ROWS; row++) {
                double load = load_of_row(e, p, &state);
                sum += load;
                highest = load > highest ? load : highest;
            }
            printf("  %7.3f %7.3f", sum / ROWS, highest);
        }
        printf("\n");
    }
}

static void print_units(splicebell_layout y)
{
    uint64_t frames = splicebell_measure(y).numbers.frames;
    for (uint64_t frame = 0; frame < frames; frame++)
        for (uint64_t target = 0; target < y.p; target++) {
            splicebell_held held = splicebell_find_unit(y, frame, target);
            must(held.refusal == 0, "a unit is found");
            printf("unit %" PRIu64 " %" PRIu64 " %" PRIu64 " %" PRIu64 " %" PRIu64 "\n", y.edition, frame, target,
                   held.group, held.unit);
        }
}

/* Document 01's row of four targets, but with two tiles. */
static void print_tiles(void)
{
    printf("N=1 K=1 P=4 U=4 T=2 cookie 0\n"
           "unit EDITION FRAME TARGET GROUP UNIT, permutation EDITION TILE ENTRY..\n");
    for (int e = 1; e <= EDITIONS; e++) {
        splicebell_layout y = {.n = 1, .k = 1, .p = 4, .u = 4, .t = 2, .cookie = 0};
        y.edition = (uint64_t)e;
        print_units(y);
        for (uint64_t tile = 0; tile < y.t; tile++) {
            uint8_t a[TARGETS];
            tile_permutation(e, (int)y.p, y.cookie, tile, a);
            printf("permutation %d %" PRIu64 " %d %d %d %d\n", e, tile, a[0], a[1], a[2], a[3]);
        }
    }
}

static const struct part {
    const char *name;
    void (*print)(void);
    bool by_itself; /* printed only where it is named */
} parts[] = {{"shifts", print_shifts, false},
             {"alike", print_alike, false},
             {"apart", print_apart, false},
             {"loads", print_loads, false},
             {"tiles", print_tiles, true}};
enum { PARTS = sizeof parts / sizeof *parts };

static void print_part(const char *name)
{
    for (int i = 0; i < PARTS; i++)
        if (strcmp(parts[i].name, name) == 0) {
            parts[i].print();
            return;
        }
    must(false, "the parts are shifts, alike, apart, loads, tiles");
}

int main(int argc, char **argv)
{
    int at = 1;
    for (; at + 1 < argc && argv[at][0] == '-'; at += 2) {
        unsigned long long value = strtoull(argv[at + 1], NULL, 10);
        if (strcmp(argv[at], "--seed") == 0)
            seed = value;
        else if (strcmp(argv[at], "--pairs") == 0)
            pairs = (long)value;
        else
            must(false, "the options are --seed and --pairs");
    }
    must(seed != 0 && pairs >= 10, "a seed from 1 on and 10 pairs or more");
    for (int i = at; i < argc; i++)
        print_part(argv[i]);
    for (int i = 0; i < PARTS && at == argc; i++) {
        if (parts[i].by_itself)
            continue;
        parts[i].print();
        printf("\n");
    }
    return 0;
}
