/* zfec's C code, with this product's coefficients laid over its own. Its decoding inverts the matrix in each call. */
#include "coders.h"

#include <fec.h>

static fec_t *code;
static unsigned sources[MOST_N];

static void prepare(const struct group *g)
{
    if (code)
        fec_free(code);
    code = fec_new(g->y.n, g->y.n + g->y.k);
    for (unsigned i = 0; i < g->y.k; i++)
        for (unsigned j = 0; j < g->y.n; j++)
            code->enc_matrix[(g->y.n + i) * g->y.n + j] = coefficient(i, j);
    /* zfec wants each data unit that is there at its own index, and parity in the places of the lost ones */
    unsigned parity = g->y.n;
    for (unsigned j = 0; j < g->y.n; j++)
        sources[j] = is_missing(g, j) ? parity++ : j;
}

static void encode(void *context)
{
    struct group *g = context;
    const gf *data[MOST_N];
    gf *parity[MOST_K];
    unsigned numbers[MOST_K];
    for (unsigned j = 0; j < g->y.n; j++)
        data[j] = g->buf + j * g->y.u;
    for (unsigned i = 0; i < g->y.k; i++) {
        parity[i] = g->buf + (g->y.n + i) * g->y.u;
        numbers[i] = g->y.n + i;
    }
    fec_encode(code, data, parity, numbers, g->y.k, g->y.u);
}

static void rebuild(void *context)
{
    struct group *g = context;
    const gf *from[MOST_N];
    gf *to[MOST_K];
    for (unsigned j = 0; j < g->y.n; j++)
        from[j] = g->buf + sources[j] * g->y.u;
    size_t found = 0;
    for (unsigned j = 0; j < g->y.n; j++)
        if (is_missing(g, j))
            to[found++] = g->buf + j * g->y.u;
    fec_decode(code, from, to, sources, g->y.u);
}

const struct coder zfec = {"zfec", prepare, encode, rebuild};
