/* The starts of neighbouring tiles differ by SPREAD, and an advance multiplies by MULTIPLIER and adds: so after n
 * advances the states differ by MULTIPLIER^n * SPREAD, and the draws are shifted by that part of the range. */
#include "editions.h"

uint64_t difference(int advances)
{
    uint64_t d = SPREAD;
    while (advances-- > 0)
        d *= MULTIPLIER;
    return d;
}

double shift(int advances)
{
    return (double)difference(advances) / 18446744073709551616.0;
}

/* A draw below n and the neighbour's: the neighbour's is whole(s) or whole(s)+1 further on, round the range, the second
 * with the chance rest(s), where s = n * shift. */
static int whole(double s)
{
    return (int)s;
}

static double rest(double s)
{
    return s - whole(s);
}

/* The chance that both draw the same. */
static double same_draw(double s, int n)
{
    return (whole(s) == 0 ? 1 - rest(s) : 0) + (whole(s) + 1 == n ? rest(s) : 0);
}

/* n * shift at the exchange of entry i. */
static double steps_at(int edition, int p, int i)
{
    return (i + 1) * shift(p - i + extra_advances(edition));
}

/* Other draws make another permutation. */
double same_by_shifts(int edition, int p)
{
    double all = 1;
    for (int i = p - 1; i >= 1; i--)
        all *= same_draw(steps_at(edition, p, i), i + 1);
    return all;
}

/* The first exchange alone sets entry P-1. */
double last_by_shifts(int edition, int p)
{
    return same_draw(steps_at(edition, p, p - 1), p);
}

/* Of the columns up to i, how many two tiles share on average, whose exchanges above i have been made. */
static double shared_below(int edition, int p, int i, uint8_t *a, uint8_t *b)
{
    if (i == 0)
        return a[0] == b[0];
    double s = steps_at(edition, p, i), sum = 0;
    for (int j = 0; j <= i; j++)
        for (int more = 0; more <= 1; more++) {
            int k = (j + whole(s) + more) % (i + 1);
            exchange(a, i, j);
            exchange(b, i, k);
            sum += (more ? rest(s) : 1 - rest(s)) * ((a[i] == b[i]) + shared_below(edition, p, i - 1, a, b));
            exchange(b, i, k);
            exchange(a, i, j);
        }
    return sum / (i + 1);
}

double shared_by_shifts(int edition, int p)
{
    uint8_t a[TARGETS], b[TARGETS];
    for (int t = 0; t < p; t++)
        a[t] = b[t] = (uint8_t)t;
    return shared_below(edition, p, p - 1, a, b);
}
