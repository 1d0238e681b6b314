/* How alike the permutations of two tiles are, in each edition: what the parts share. */
#ifndef EDITIONS_H
#define EDITIONS_H

#include <stdbool.h>
#include <stdint.h>

enum { LOWEST_P = 3, HIGHEST_P = 12, EDITIONS = 2, TARGETS = 64 };

/* Document 01's numbers. */
#define SPREAD UINT64_C(11400714819323198485)
#define MULTIPLIER UINT64_C(6364136223846793005)
#define INCREMENT UINT64_C(1442695040888963407)

/* Ends the program with a message where something that must be so is not. */
void must(bool so, const char *what);

static inline void exchange(uint8_t *entries, int i, int j)
{
    uint8_t held = entries[i];
    entries[i] = entries[j];
    entries[j] = held;
}

/* ---- permutations.c */

/* The next of a row of drawn numbers: any 64 bits but 0. The state must not be 0. */
uint64_t drawn(uint64_t *state);

/* The advances after the start that are not an exchange's. */
int extra_advances(int edition);

/* The target of each column of a tile, as the library answers it; ends the program where the plain rendering of the
 * documents' words differs. */
void tile_permutation(int edition, int p, uint64_t cookie, uint64_t tile, uint8_t entries[TARGETS]);

/* A permutation that has nothing to do with any other: each of its exchanges has a drawn number of its own. */
void independent_permutation(int p, uint64_t *state, uint8_t entries[TARGETS]);

/* ---- shifts.c: what follows from the generator alone */

/* By how much the states of neighbouring tiles differ after so many advances, whatever the cookie and the tile. */
uint64_t difference(int advances);

/* The same as a part of 2^64. */
double shift(int advances);

/* How often neighbouring tiles have the same permutation, the same last column, and how many columns they share, if
 * draws are shifted as said and otherwise independent. The third takes time in proportion to 2^P * P!. */
double same_by_shifts(int edition, int p);
double last_by_shifts(int edition, int p);
double shared_by_shifts(int edition, int p);

#endif
