/* What it costs to read a row's settings, and to add a line to them. A reader goes over the whole text, since a
 * malformed line anywhere is refused; an add looks at no line. Beside them stand the search for the newlines and a copy
 * of the text. */
#include "settings.h"

#include "twin.h"

#include <stdio.h>
#include <stdlib.h>
#include <string.h>

const struct setting_calls our_settings = {
    "ours", splicebell_add_settings, splicebell_newest_settings, splicebell_newest_settings_old};
const struct setting_calls twin_settings = {
    "Rust twin", twin_add_settings, twin_newest_settings, twin_newest_settings_old};
static const struct setting_calls *const sides[] = {&our_settings, &twin_settings};
enum { SIDES = sizeof sides / sizeof *sides };

enum { LINE_1 = 41, LINE_2 = 44 };

/* ---- records, and their lines */

static size_t line_length(const struct setting *x)
{
    return x->version == 1 ? LINE_1 : LINE_2;
}

static struct setting drawn_setting(uint64_t version, bool newest, uint64_t *state)
{
    splicebell_layout y = {.n = 1 + drawn(state) % 16, .k = drawn(state) % 4, .edition = 1};
    uint64_t width = y.n + 2 * y.k;
    y.p = width + drawn(state) % (65 - width);
    y.u = 1 + drawn(state) % 4096;
    y.t = 1 + drawn(state) % 65536;
    y.cookie = drawn(state) << 32 ^ drawn(state);
    if (version == 2 && !newest)
        y.edition = 1 + drawn(state) % 2;
    return (struct setting){version, y};
}

/* By C's own hex digits, so that neither of the two that are compared has made it. */
static void print_line(const struct setting *x, uint8_t *at)
{
    char line[LINE_2 + 1];
    const splicebell_layout *y = &x->y;
    int length = snprintf(line, sizeof line, "%02x %02x %02x %02x %04x %06x %016llx", (int)x->version, (int)y->n,
                          (int)y->k, (int)y->p, (int)y->u, (int)y->t, (unsigned long long)y->cookie);
    if (x->version == 2)
        length += snprintf(line + length, sizeof line - length, " %02x", (int)y->edition);
    line[length] = '\n';
    memcpy(at, line, line_length(x));
}

struct settings settings_of(const struct setting_calls *calls, size_t lines, uint64_t version)
{
    struct settings s = {.calls = calls, .lines = lines};
    uint64_t state = 23;
    s.records = room(lines * sizeof *s.records);
    s.text = room(lines * LINE_2);
    for (size_t i = 0; i < lines; i++) {
        uint64_t turn = (lines - 1 - i) % 2 == 0 ? version : 3 - version;
        s.records[i] = drawn_setting(turn, i + 1 == lines, &state);
        print_line(&s.records[i], s.text + s.text_len);
        s.text_len += line_length(&s.records[i]);
    }
    return s;
}

void settings_free(struct settings *s)
{
    free(s->records);
    free(s->text);
}

/* ---- the pieces of work */

void add_all(void *context)
{
    struct settings *s = context;
    size_t used = 0;
    for (size_t i = 0; i < s->lines; i++) {
        splicebell_added a = s->calls->add(s->records[i].version, s->records[i].y, s->text, s->text_len, used);
        must(a.refusal == 0, "a line added");
        used = a.used;
    }
}

void read_newest(void *context)
{
    const struct settings *s = context;
    must(s->calls->newest(s->text, s->text_len, s->text_len).refusal == 0, "settings read");
}

void read_newest_old(void *context)
{
    const struct settings *s = context;
    must(s->calls->newest_old(s->text, s->text_len, s->text_len).refusal == 0, "settings read by the old reader");
}

/* The text cut into its lines, and nothing read of them. */
static void find_newlines(void *context)
{
    const struct settings *s = context;
    const uint8_t *at = s->text, *end = s->text + s->text_len;
    size_t found = 0;
    for (; at < end; found++)
        at = (const uint8_t *)memchr(at, '\n', (size_t)(end - at)) + 1;
    must(found == s->lines, "a newline a line");
}

struct copy {
    const struct settings *settings;
    uint8_t *into;
};

static void copy_text(void *context)
{
    const struct copy *c = context;
    memcpy(c->into, c->settings->text, c->settings->text_len);
}

/* ---- before they are timed */

/* Both readers of both must answer alike; what ours answered. */
static splicebell_settings told_alike(const struct settings *s, size_t length, size_t used)
{
    splicebell_settings new = splicebell_newest_settings(s->text, length, used);
    splicebell_settings old = splicebell_newest_settings_old(s->text, length, used);
    splicebell_settings twin_new = twin_newest_settings(s->text, length, used);
    splicebell_settings twin_old = twin_newest_settings_old(s->text, length, used);
    must(memcmp(&new, &twin_new, sizeof new) == 0, "the same answer of a reader from ours and the twin");
    must(memcmp(&old, &twin_old, sizeof old) == 0, "the same answer of the old reader from ours and the twin");
    splicebell_settings wanted = new;
    if (new.layout.edition == 2)
        wanted = (splicebell_settings){.refusal = SPLICEBELL_UNKNOWN_EDITION};
    must(memcmp(&old, &wanted, sizeof old) == 0, "the same layout from the old reader, or none");
    return new;
}

/* Up to each line, that line's layout; cut anywhere within one, that line. */
static void compare_readings(const struct settings *s)
{
    size_t used = 0;
    must(told_alike(s, s->text_len, 0).refusal == SPLICEBELL_NO_SUCH_RECORD, "no settings at all");
    must(told_alike(s, s->text_len, s->text_len + 1).refusal == SPLICEBELL_BAD_BUFFER_LENGTH, "more than the buffer");
    for (size_t i = 0; i < s->lines; i++) {
        splicebell_settings cut = told_alike(s, s->text_len, used + 1 + i % (line_length(&s->records[i]) - 1));
        must(cut.refusal == SPLICEBELL_WRONG_LINE && cut.line == i + 1, "the line that is cut");
        used += line_length(&s->records[i]);
        splicebell_settings told = told_alike(s, s->text_len, used);
        must(told.refusal == 0 && memcmp(&told.layout, &s->records[i].y, sizeof told.layout) == 0, "the newest layout");
    }
}

/* Every byte of the two lines in the middle, of one version each, changed to each of these. Some make another right
 * line; what counts is that all say the same. */
static void compare_damages(const struct settings *s)
{
    static const uint8_t others[] = {0,   '\n', ' ', '/', '0', '1', '2', '3', '9',
                                     ':', 'A',  'F', '`', 'a', 'f', 'g', 200};
    size_t from = 0;
    for (size_t i = 0; i < s->lines / 2; i++)
        from += line_length(&s->records[i]);
    for (size_t place = from; place < s->text_len && place < from + LINE_1 + LINE_2; place++) {
        uint8_t *at = s->text + place, right = *at;
        for (size_t i = 0; i < sizeof others; i++) {
            *at = others[i];
            told_alike(s, s->text_len, s->text_len);
        }
        *at = right;
    }
}

/* Both must answer so, and change nothing but the line that is added where the text has it. */
static void add_alike(const struct settings *s, struct setting x, size_t length, size_t used, splicebell_added wanted)
{
    uint8_t *buffer = room(s->text_len);
    for (size_t r = 0; r < SIDES; r++) {
        memset(buffer, '.', s->text_len);
        splicebell_added a = sides[r]->add(x.version, x.y, buffer, length, used);
        must(memcmp(&a, &wanted, sizeof a) == 0, "the answer of an add from ours and the twin");
        size_t added = wanted.used - used;
        if (added > 0)
            must(memcmp(buffer + used, s->text + used, added) == 0, "the line that was added");
        for (size_t i = 0; i < s->text_len; i++)
            must(buffer[i] == '.' || (i >= used && i < used + added), "no other byte changed");
    }
    free(buffer);
}

/* Every line where it belongs, in a buffer that ends with it or goes on, and in one that is a byte too short; a used
 * length above the buffer; and numbers and versions that are refused. */
static void compare_adds(const struct settings *s)
{
    size_t used = 0;
    for (size_t i = 0; i < s->lines; i++) {
        struct setting x = s->records[i], no_version = x, other_edition = x, other_targets = x;
        size_t end = used + line_length(&x);
        add_alike(s, x, end, used, (splicebell_added){0, end});
        add_alike(s, x, s->text_len, used, (splicebell_added){0, end});
        add_alike(s, x, end - 1, used, (splicebell_added){SPLICEBELL_CATALOGUE_FULL, used});
        add_alike(s, x, end, end + 1, (splicebell_added){SPLICEBELL_BAD_BUFFER_LENGTH, end + 1});
        no_version.version = i % 2 == 0 ? 0 : 3;
        other_edition.y.edition = x.version == 1 ? 2 : 3;
        other_targets.y.p = i % 2 == 0 ? 65 : x.y.n + 2 * x.y.k - 1;
        add_alike(s, no_version, s->text_len, used, (splicebell_added){SPLICEBELL_BAD_LAYOUT, used});
        add_alike(s, other_edition, s->text_len, used, (splicebell_added){SPLICEBELL_BAD_LAYOUT, used});
        add_alike(s, other_targets, s->text_len, used, (splicebell_added){SPLICEBELL_BAD_LAYOUT, used});
        used = end;
    }
}

static void compare(size_t lines, uint64_t version)
{
    struct settings s = settings_of(&our_settings, lines, version);
    compare_readings(&s);
    compare_damages(&s);
    compare_adds(&s);
    settings_free(&s);
}

/* ---- the tables */

static const struct {
    const char *what;
    work work;
} works[] = {
    {"the newest read", read_newest},
    {"the newest read, by the old reader", read_newest_old},
    {"all added, one after the other", add_all},
};
enum { WORKS = sizeof works / sizeof *works };

/* What stands beside them, and neither reads nor makes a number. */
enum { NEWLINES, COPY, BESIDE };
static const char *const beside[BESIDE] = {"memchr, newline after newline", "memcpy of the text"};

static void row(const struct settings *s, const char *what, const struct timed *ours, const struct timed *theirs)
{
    printf("%-36s %10.2f %9.0f", what, ours->seconds / s->lines * 1e9, rate(s->text_len, ours->seconds));
    if (theirs)
        printf(" %10.2f (%9.2f)", theirs->seconds / s->lines * 1e9, theirs->seconds / ours->seconds);
    printf("\n");
}

static void table(const char *what, size_t lines, uint64_t version)
{
    struct settings s[SIDES];
    struct timed t[WORKS * SIDES + BESIDE], *others = t + WORKS * SIDES;
    for (size_t r = 0; r < SIDES; r++)
        s[r] = settings_of(sides[r], lines, version);
    for (size_t w = 0; w < WORKS; w++)
        for (size_t r = 0; r < SIDES; r++)
            t[w * SIDES + r] = (struct timed){works[w].work, &s[r], 0};
    struct copy copy = {&s[0], room(s[0].text_len)};
    others[NEWLINES] = (struct timed){find_newlines, &s[0], 0};
    others[COPY] = (struct timed){copy_text, &copy, 0};
    time_in_turns(t, WORKS * SIDES + BESIDE);
    printf("\nSettings: %s, %zu bytes\n%-36s %10s %9s %10s (it / ours)\n", what, s[0].text_len, "nanoseconds a line",
           "ours", "MB/s", twin_settings.name);
    for (size_t w = 0; w < WORKS; w++)
        row(&s[0], works[w].what, &t[w * SIDES], &t[w * SIDES + 1]);
    for (size_t b = 0; b < BESIDE; b++)
        row(&s[0], beside[b], &others[b], NULL);
    free(copy.into);
    for (size_t r = 0; r < SIDES; r++)
        settings_free(&s[r]);
}

void run_settings(void)
{
    compare(100, 1);
    compare(100, 2);
    compare(1, 1);
    compare(1, 2);
    table("1000 lines, both versions in turns", 1000, 2);
    table("one line of version 1", 1, 1);
    table("one line of version 2", 1, 2);
}
