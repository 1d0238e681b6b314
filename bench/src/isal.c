/* ISA-L, with this product's coefficients. Its tables, and for a rebuild the inverse of its matrix, are made outside
 * the timing. */
#include "coders.h"

#include <isa-l.h>
#include <string.h>

/* Its path of 16 bytes a step. The header does not name the one for Arm. */
#ifdef __aarch64__
extern void ec_encode_data_neon(int len, int k, int rows, unsigned char *tables, unsigned char **data,
                                unsigned char **coding);
#define BY_16 ec_encode_data_neon
#define BY_16_NAME "ISA-L NEON"
#else
#define BY_16 ec_encode_data_sse
#define BY_16_NAME "ISA-L SSE"
#endif

typedef void (*isal_encode)(int len, int k, int rows, unsigned char *tables, unsigned char **data,
                            unsigned char **coding);

static unsigned char encode_tables[32 * MOST_N * MOST_K], rebuild_tables[32 * MOST_N * MOST_K];
static unsigned sources[MOST_N];

static void row_of(const struct group *g, unsigned unit, unsigned char row[MOST_N])
{
    for (unsigned j = 0; j < g->y.n; j++)
        row[j] = unit < g->y.n ? unit == j : coefficient(unit - g->y.n, j);
}

static void prepare(const struct group *g)
{
    int n = g->y.n, k = g->y.k;
    unsigned char matrix[MOST_N * MOST_N], inverse[MOST_N * MOST_N], rows[MOST_K * MOST_N];
    for (int i = 0; i < k; i++)
        row_of(g, n + i, rows + i * n);
    ec_init_tables(n, k, rows, encode_tables);
    sources_of(g, sources);
    for (int i = 0; i < n; i++)
        row_of(g, sources[i], matrix + i * n);
    must(gf_invert_matrix(matrix, inverse, n) == 0, "a matrix that has an inverse");
    for (size_t i = 0; i < g->lost; i++)
        memcpy(rows + i * n, inverse + g->missing[i] * n, n);
    ec_init_tables(n, g->lost, rows, rebuild_tables);
}

static void encode_by(isal_encode encode, const struct group *g)
{
    unsigned char *units[MOST_N + MOST_K];
    for (unsigned c = 0; c < g->y.n + g->y.k; c++)
        units[c] = g->buf + c * g->y.u;
    encode(g->y.u, g->y.n, g->y.k, encode_tables, units, units + g->y.n);
}

static void rebuild_by(isal_encode encode, const struct group *g)
{
    unsigned char *from[MOST_N], *to[MOST_K];
    for (unsigned j = 0; j < g->y.n; j++)
        from[j] = g->buf + sources[j] * g->y.u;
    for (unsigned i = 0; i < g->lost; i++)
        to[i] = g->buf + g->missing[i] * g->y.u;
    encode(g->y.u, g->y.n, g->lost, rebuild_tables, from, to);
}

static void by_16_encode(void *context)
{
    encode_by(BY_16, context);
}

static void by_16_rebuild(void *context)
{
    rebuild_by(BY_16, context);
}

static void own_encode(void *context)
{
    encode_by(ec_encode_data, context);
}

static void own_rebuild(void *context)
{
    rebuild_by(ec_encode_data, context);
}

const struct coder isal_by_16 = {BY_16_NAME, prepare, by_16_encode, by_16_rebuild};
const struct coder isal_own = {"ISA-L own", prepare, own_encode, own_rebuild};
