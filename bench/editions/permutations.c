#include "editions.h"
#include "splicebell.h"

#include <string.h>

static const uint64_t half = 4294967296; /* 2^32 */

/* Marsaglia's xorshift with Vigna's multiplier. Not the generator that is measured, whose multiplier the rest of the
 * bench draws with. */
uint64_t drawn(uint64_t *state)
{
    *state ^= *state >> 12;
    *state ^= *state << 25;
    *state ^= *state >> 27;
    return *state * 2685821657736338717u;
}

/* "Begin with entry t = t. For i = P-1 down to 1: [..] exchange entries i and j." The j are given, by i. */
static void exchanged(int p, const int *js, uint8_t entries[TARGETS])
{
    for (int t = 0; t < TARGETS; t++)
        entries[t] = (uint8_t)t;
    for (int i = p - 1; i >= 1; i--)
        exchange(entries, i, js[i]);
}

/* "j = ((state div 2^32)*(i+1)) div 2^32" */
static int j_of(uint64_t state, int i)
{
    return (int)(state / half * (uint64_t)(i + 1) / half);
}

/* "One advance: state = (6364136223846793005*state + 1442695040888963407) mod 2^64" */
static uint64_t advanced(uint64_t state)
{
    return MULTIPLIER * state + INCREMENT;
}

/* "In edition 2 the generator is advanced four extra times after the start" */
int extra_advances(int edition)
{
    return edition == 2 ? 4 : 0;
}

/* "start = (cookie + 11400714819323198485*tile) mod 2^64", the extra advances, "then the exchanges go as before, each
 * with its own advance". */
static void plain_permutation(int edition, int p, uint64_t cookie, uint64_t tile, uint8_t entries[TARGETS])
{
    int js[TARGETS];
    uint64_t state = cookie + SPREAD * tile;
    for (int extra = extra_advances(edition); extra > 0; extra--)
        state = advanced(state);
    for (int i = p - 1; i >= 1; i--) {
        state = advanced(state);
        js[i] = j_of(state, i);
    }
    exchanged(p, js, entries);
}

void tile_permutation(int edition, int p, uint64_t cookie, uint64_t tile, uint8_t entries[TARGETS])
{
    splicebell_layout y = {.n = 1, .k = 0, .u = 1, .t = 65536, .cookie = cookie};
    y.p = (uint64_t)p;
    y.edition = (uint64_t)edition;
    splicebell_entries answered = splicebell_tile_permutation(y, tile);
    must(answered.refusal == 0, "a permutation is answered");
    plain_permutation(edition, p, cookie, tile, entries);
    must(memcmp(answered.entries, entries, TARGETS) == 0, "the library's permutation is that of the documents' words");
}

void independent_permutation(int p, uint64_t *state, uint8_t entries[TARGETS])
{
    int js[TARGETS];
    for (int i = p - 1; i >= 1; i--)
        js[i] = j_of(drawn(state), i);
    exchanged(p, js, entries);
}
