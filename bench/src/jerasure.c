/* jerasure, w = 8, with this product's coefficients. Its decoding inverts the matrix in each call, as ours does. */
#include "coders.h"

#include <jerasure.h>

static int matrix[MOST_K * MOST_N], erasures[MOST_K + 1];

static void prepare(const struct group *g)
{
    for (unsigned i = 0; i < g->y.k; i++)
        for (unsigned j = 0; j < g->y.n; j++)
            matrix[i * g->y.n + j] = coefficient(i, j);
    for (size_t i = 0; i < g->lost; i++)
        erasures[i] = g->missing[i];
    erasures[g->lost] = -1;
}

static void units_of(const struct group *g, char *units[MOST_N + MOST_K])
{
    for (unsigned c = 0; c < g->y.n + g->y.k; c++)
        units[c] = (char *)g->buf + c * g->y.u;
}

static void encode(void *context)
{
    struct group *g = context;
    char *units[MOST_N + MOST_K];
    units_of(g, units);
    jerasure_matrix_encode(g->y.n, g->y.k, 8, matrix, units, units + g->y.n, g->y.u);
}

static void rebuild(void *context)
{
    struct group *g = context;
    char *units[MOST_N + MOST_K];
    units_of(g, units);
    int row_0_is_ones = 1;
    must(jerasure_matrix_decode(g->y.n, g->y.k, 8, matrix, row_0_is_ones, erasures, units, units + g->y.n, g->y.u) == 0,
         "jerasure decodes");
}

const struct coder jerasure = {"jerasure", prepare, encode, rebuild};
