/* A pool in memory as image and as text, and the two calls between them. */
#ifndef TEXTS_H
#define TEXTS_H

#include "bench.h"
#include "splicebell.h"

/* Who answers: ours, or the twin. */
struct text_calls {
    uint64_t (*write)(splicebell_layout, const uint8_t *, size_t, uint8_t *, size_t);
    splicebell_text_read (*read)(splicebell_layout, const uint8_t *, size_t, uint8_t *, size_t);
};
extern const struct text_calls our_text_calls, twin_text_calls;

struct text {
    splicebell_layout y;
    const struct text_calls *calls;
    uint8_t *image, *text;
    size_t image_len, text_len;
};

/* Drawn bytes on 24 targets of 8+2, and their text. */
struct text text_of(uint64_t unit, uint64_t tiles);
void text_free(struct text *t);

/* Pieces of work, whose context is a struct text: from the image to the text, and back. */
void write_whole_text(void *context);
void read_whole_text(void *context);

#endif
