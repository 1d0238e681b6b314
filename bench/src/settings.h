/* A row's settings as text, and pieces of work on them that are timed or counted. */
#ifndef SETTINGS_H
#define SETTINGS_H

#include "bench.h"
#include "splicebell.h"

/* Who answers: ours, or the twin. */
struct setting_calls {
    const char *name;
    splicebell_added (*add)(uint64_t, splicebell_layout, uint8_t *, size_t, size_t);
    splicebell_settings (*newest)(const uint8_t *, size_t, size_t);
    splicebell_settings (*newest_old)(const uint8_t *, size_t, size_t);
};
extern const struct setting_calls our_settings, twin_settings;

struct settings {
    const struct setting_calls *calls;
    struct setting {
        uint64_t version;
        splicebell_layout y;
    } *records;
    size_t lines;
    uint8_t *text; /* their lines, the newest last */
    size_t text_len;
};

/* Drawn layouts, of which the newest has this version and edition 1. Before it both versions come in turns, and in
 * version 2 both editions. */
struct settings settings_of(const struct setting_calls *calls, size_t lines, uint64_t version);
void settings_free(struct settings *s);

/* Pieces of work, whose context is a struct settings: all lines added, one after the other; the newest read. */
void add_all(void *context);
void read_newest(void *context);
void read_newest_old(void *context);

#endif
