/* A pool of 34 MB as text, written and read back, beside the plain Rust twin. */
#include "texts.h"

#include "twin.h"

#include <stdio.h>
#include <stdlib.h>
#include <string.h>

const struct text_calls our_text_calls = {splicebell_write_text, splicebell_read_text};
const struct text_calls twin_text_calls = {twin_write_text, twin_read_text};

enum { TILES_OF_4K = 341 };

struct text text_of(uint64_t unit, uint64_t tiles)
{
    struct text t = {.y = {8, 2, 24, unit, tiles, 7, 1}, .calls = &our_text_calls};
    splicebell_measured m = splicebell_measure(t.y);
    must(m.refusal == 0, "a layout within its bounds");
    t.image_len = m.numbers.image;
    t.text_len = t.image_len / unit * (11 + 2 * unit);
    t.image = room(t.image_len);
    t.text = room(t.text_len);
    fill(t.image, t.image_len, unit);
    write_whole_text(&t);
    return t;
}

void text_free(struct text *t)
{
    free(t->image);
    free(t->text);
}

void write_whole_text(void *context)
{
    struct text *t = context;
    must(t->calls->write(t->y, t->image, t->image_len, t->text, t->text_len) == 0, "a text written");
}

void read_whole_text(void *context)
{
    struct text *t = context;
    must(t->calls->read(t->y, t->text, t->text_len, t->image, t->image_len).refusal == 0, "a text read");
}

/* Ours and the twin must make the same text and the same image. */
static void compare_sound(const struct text *t)
{
    struct text ours = *t, theirs = *t;
    ours.calls = &our_text_calls;
    theirs.calls = &twin_text_calls;
    theirs.text = room(t->text_len);
    write_whole_text(&ours);
    write_whole_text(&theirs);
    must(memcmp(ours.text, theirs.text, t->text_len) == 0, "the same text from ours and the twin");
    ours.image = room(t->image_len);
    theirs.image = room(t->image_len);
    read_whole_text(&ours);
    read_whole_text(&theirs);
    must(memcmp(ours.image, t->image, t->image_len) == 0, "the image back from our text");
    must(memcmp(theirs.image, t->image, t->image_len) == 0, "the image back from the twin's text");
    free(ours.image);
    text_free(&theirs);
}

/* They must refuse a text alike, and leave the whole image zeros. */
static void compare_wrong(const struct text *t, size_t text_len, const char *what)
{
    uint8_t *ours = room(t->image_len), *theirs = room(t->image_len);
    splicebell_text_read a = splicebell_read_text(t->y, t->text, text_len, ours, t->image_len);
    splicebell_text_read b = twin_read_text(t->y, t->text, text_len, theirs, t->image_len);
    must(a.refusal == 12 && b.refusal == 12 && a.line == b.line, what);
    must(memcmp(ours, theirs, t->image_len) == 0, what);
    must(ours[0] == 0 && memcmp(ours, ours + 1, t->image_len - 1) == 0, what); /* zeros */
    free(ours);
    free(theirs);
}

/* At one place of every kind, in a line in the middle: each of the head, digits near both ends, the newline. Then a
 * text that lacks its last newline. */
static void compare_refusals(struct text *t)
{
    size_t line = 11 + 2 * t->y.u, from = t->text_len / line / 2 * line;
    size_t places[] = {0, 1, 2, 3, 8, 9, 10, 11, 17, line - 19, line - 2, line - 1};
    static const uint8_t wrong[] = {0, '/', ':', '@', 'A', 'F', '`', 'g', 0x80, 200, 255};
    for (size_t i = 0; i < sizeof places / sizeof *places; i++) {
        uint8_t *at = t->text + from + places[i], right = *at;
        *at = wrong[i % sizeof wrong];
        compare_wrong(t, t->text_len, "the same first wrong line from ours and the twin");
        *at = right;
    }
    compare_wrong(t, t->text_len - 1, "the same of a text that is cut");
}

static void row(const char *what, uint64_t unit, work work, const struct text *t)
{
    struct text ours = *t, theirs = *t;
    ours.calls = &our_text_calls;
    theirs.calls = &twin_text_calls;
    struct timed timed[] = {{work, &ours, 0}, {work, &theirs, 0}};
    time_in_turns(timed, 2);
    double ratio = timed[1].seconds / timed[0].seconds;
    char name[80];
    snprintf(name, sizeof name, "%s, units of %d bytes", what, (int)unit);
    printf("%-46s %12.0f %12.0f (%5.2f)\n", name, rate(t->text_len, timed[0].seconds),
           rate(t->text_len, timed[1].seconds), ratio);
    snprintf(name, sizeof name, "%s / the twin, units of %d bytes", what, (int)unit);
    floor_at_least(name, ratio, 0.8);
}

void run_texts(void)
{
    printf("\nA pool of 34 MB as text (8+2 over 24), MB/s of text\n%-46s %12s %20s\n", "", "ours",
           "Rust twin (ours / it)");
    for (uint64_t unit = 4096; unit >= 512; unit /= 8) {
        struct text t = text_of(unit, TILES_OF_4K * (4096 / unit));
        compare_sound(&t);
        compare_refusals(&t);
        row("a pool written as text", unit, write_whole_text, &t);
        row("a text read as a pool", unit, read_whole_text, &t);
        text_free(&t);
    }
}
