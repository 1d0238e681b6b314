/* Drawn pairs of bytes, and who makes their products. */
#ifndef PRODUCTS_H
#define PRODUCTS_H

#include "bench.h"

enum { PAIRS = 4096 };

struct pairs {
    uint8_t a[PAIRS], b[PAIRS], out[PAIRS];
};
void draw_pairs(struct pairs *p);

/* Pieces of work, whose context is a struct pairs: by our tables, by shifting steps, by the twin's table of all of
 * them. */
void our_products(void *context);
void shifted_products(void *context);
void twin_makes_products(void *context);

#endif
