/* A kiosk's day, called from C. The Rust program in ../rust tells the same in the same words. */
#include "splicebell.h"

#include <inttypes.h>
#include <stdio.h>
#include <stdlib.h>
#include <string.h>

#if SPLICEBELL_INTERFACE != 4
#error "written for another header: docs/ABI.md, The interface's number, says what has changed"
#endif

/* The row's settings, a line of version 1: two data units, one parity unit and one spare a group, over five drives;
 * units of eight bytes, one tile, the cookie 7. */
static const char fitted[] = "01 02 01 05 0008 000001 0000000000000007\n";
static const char first[] = "Mrs Abel: a red suitcase";
static const char second[] = "Mr Zorn: two skis";
static const char weight[] = "7.4 kg";
static const char tag[] = "tag 0217";
enum { SECOND_AT = 24, WEIGHT_AT = 48, TAG_AT = 56, TOO_FAR = 76, LOST = 2, LOST_LATER = 4 };
enum { FRAMES = 4, ENTRY = 2 + 2 }; /* of a drive; the numbers of an entry of a plan */
enum { LINE_OF_VERSION_2 = 44 };

typedef struct pool {
    splicebell_layout layout;
    splicebell_record record;
    uint8_t *image;
    size_t length;
} pool;

/* A plan of repair. An entry has a group, the lost unit of it, and the two units to rebuild that from. No drive loses
 * more units than it has frames. */
typedef struct plan {
    uint64_t numbers[FRAMES * ENTRY];
    size_t length;
} plan;

/* The row's settings as text, with room for one line more. */
typedef struct settings {
    uint8_t text[sizeof fitted - 1 + LINE_OF_VERSION_2];
    size_t used;
} settings;

static void accepted(uint64_t refusal) {
    if (refusal != SPLICEBELL_ACCEPTED) {
        fprintf(stderr, "refused with %" PRIu64 "\n", refusal);
        exit(EXIT_FAILURE);
    }
}

/* The layout that the row has by the newest line of its settings. */
static splicebell_layout newest(const settings *s) {
    splicebell_settings told = splicebell_newest_settings(s->text, sizeof s->text, s->used);
    accepted(told.refusal);
    return told.layout;
}

static void store(pool p, uint64_t at, const char *photograph) {
    const uint8_t *bytes = (const uint8_t *)photograph;
    accepted(splicebell_write(p.layout, p.record, p.image, p.length, at, bytes, strlen(photograph)));
    printf("A kiosk stores \"%s\" at %" PRIu64 ".\n", photograph, at);
}

static void show(pool p, uint64_t at, size_t bytes) {
    char photograph[64] = {0};
    accepted(splicebell_read(p.layout, p.record, p.image, p.length, at, (uint8_t *)photograph, bytes));
    printf("The claims desk reads \"%s\" at %" PRIu64 ".\n", photograph, at);
}

/* What the service panel shows, once an audit has found its count true. */
static void panel(pool p) {
    accepted(splicebell_audit(p.layout, p.record, p.image, p.length));
    splicebell_counts shown = splicebell_panel(p.layout, p.record, p.image, p.length);
    accepted(shown.refusal);
    printf("The service panel shows units that wait for repair: %" PRIu64 ", drives failed: %" PRIu64
           ", repaired: %" PRIu64 ".\n", shown.waiting, shown.failed, shown.repaired);
}

static void dump(pool p, uint64_t frames) {
    uint8_t line[11 + 2 * 8];
    for (uint64_t target = 0; target < p.layout.p; target++) {
        for (uint64_t frame = 0; frame < frames; frame++) {
            accepted(splicebell_hex_line(p.layout, p.image, p.length, target, frame, line, sizeof line));
            fwrite(line, 1, sizeof line, stdout);
        }
    }
}

static int all_zeros(const uint8_t *bytes, size_t length) {
    for (size_t i = 0; i < length; i++) {
        if (bytes[i] != 0) {
            return 0;
        }
    }
    return 1;
}

/* The last session's photograph, weight and tag in one call. */
static splicebell_list_written store_session(pool p, uint64_t tag_at) {
    const splicebell_range ranges[] = {
        {SECOND_AT, strlen(second)}, {WEIGHT_AT, strlen(weight)}, {tag_at, strlen(tag)}};
    char bytes[64];
    int length = snprintf(bytes, sizeof bytes, "%s%s%s", second, weight, tag);
    return splicebell_write_list(p.layout, p.record, p.image, p.length, ranges, 3, (const uint8_t *)bytes,
                                 (size_t)length);
}

/* All of a session is stored, or nothing. */
static void end_session(pool p) {
    splicebell_list_written refused = store_session(p, TOO_FAR);
    uint8_t photograph[sizeof second - 1];
    accepted(splicebell_read(p.layout, p.record, p.image, p.length, SECOND_AT, photograph, sizeof photograph));
    printf("A session with its tag at %d is refused with %" PRIu64 " at range %" PRIu64 ", and %s of it is stored.\n",
           TOO_FAR, refused.refusal, refused.range,
           all_zeros(photograph, sizeof photograph) ? "nothing" : "something");
    accepted(store_session(p, TAG_AT).refusal);
    printf("Then \"%s\" is stored at %d, \"%s\" at %d, \"%s\" at %d, in one call.\n", second, SECOND_AT, weight,
           WEIGHT_AT, tag, TAG_AT);
}

/* A drive dies. */
static pool lose(pool p, uint64_t target) {
    splicebell_failed failed = splicebell_fail(p.layout, p.record, p.image, p.length, target);
    accepted(failed.refusal);
    p.record = failed.record;
    size_t drive = p.length / p.layout.p;
    memset(p.image + target * drive, 0xff, drive);
    printf("Drive %" PRIu64 " dies, and what stood on it is lost.\n", target);
    panel(p);
    return p;
}

/* The row controller takes the groups in an order of its own: our plan with its last entry first. */
static plan propose(pool p) {
    plan ours, other = {.length = 0};
    splicebell_drawn drawn = splicebell_draw_plan(p.layout, p.record, p.image, p.length, ours.numbers, FRAMES * ENTRY);
    accepted(drawn.refusal);
    printf("The row controller plans the repair:\n");
    for (uint64_t left = drawn.length; left > 0; left -= ENTRY) {
        const uint64_t *entry = ours.numbers + left - ENTRY;
        memcpy(other.numbers + other.length, entry, ENTRY * sizeof *entry);
        other.length += ENTRY;
        printf("of group %" PRIu64 " unit %" PRIu64 ", from the units %" PRIu64 " and %" PRIu64 "\n", entry[0],
               entry[1], entry[2], entry[3]);
    }
    return other;
}

/* A plan that would read a lost unit is refused; an accepted one leaves what plain repair leaves. */
static splicebell_repaired repair_by(pool p, plan proposed) {
    plan wrong = proposed;
    wrong.numbers[2] = wrong.numbers[1];
    printf("With the lost unit as its own source, that is refused with %" PRIu64 ".\n",
           splicebell_check_plan(p.layout, p.record, p.image, p.length, wrong.numbers, wrong.length));
    accepted(splicebell_check_plan(p.layout, p.record, p.image, p.length, proposed.numbers, proposed.length));
    uint8_t *copy = malloc(p.length);
    if (copy == NULL) {
        exit(EXIT_FAILURE);
    }
    memcpy(copy, p.image, p.length);
    accepted(splicebell_repair(p.layout, p.record, copy, p.length).refusal);
    splicebell_repaired repaired =
        splicebell_repair_by(p.layout, p.record, p.image, p.length, proposed.numbers, proposed.length);
    printf("As it is, it leaves %s repair without a plan.\n",
           memcmp(copy, p.image, p.length) == 0 ? "the same bytes as" : "other bytes than");
    free(copy);
    return repaired;
}

/* What stood on the dead drive is stored on the others. */
static pool repair(pool p) {
    printf("A new drive %d is refused with %" PRIu64 " before the row is repaired.\n", LOST,
           splicebell_swap(p.layout, p.record, p.image, p.length, LOST).refusal);
    splicebell_repaired repaired = repair_by(p, propose(p));
    accepted(repaired.refusal);
    p.record = repaired.record;
    printf("The row is repaired: %" PRIu64 " units were missing.\n", repaired.count);
    panel(p);
    show(p, 0, strlen(first));
    show(p, SECOND_AT, strlen(second));
    return p;
}

/* Field staff mail the row as text; the desk takes it back, and refuses a copy that was spoilt. */
static void mail(pool p, uint64_t frames) {
    size_t line = 11 + 2 * p.layout.u, lines = p.layout.p * frames, length = lines * line;
    uint8_t *text = malloc(length), *copy = malloc(p.length);
    if (text == NULL || copy == NULL) {
        exit(EXIT_FAILURE);
    }
    accepted(splicebell_write_text(p.layout, p.image, p.length, text, length));
    printf("The row is mailed as a text of %zu lines.\n", lines);
    accepted(splicebell_read_text(p.layout, text, length, copy, p.length).refusal);
    printf("The copy read from it is %s.\n", memcmp(copy, p.image, p.length) == 0 ? "the same" : "another");

    text[6 * line + 2] = '\t';
    splicebell_text_read wrong = splicebell_read_text(p.layout, text, length, copy, p.length);
    printf("With a tab in it, it is refused with %" PRIu64 " at line %" PRIu64 ", and the copy %s.\n", wrong.refusal,
           wrong.line, all_zeros(copy, p.length) ? "is zeros" : "still holds bytes");
    free(copy);
    free(text);
}

/* The same file in the other edition, in an image of its own; nothing has failed there. */
static pool moved(pool p, uint8_t *image) {
    pool other = {.layout = p.layout, .image = image, .length = p.length};
    other.layout.edition = 3 - p.layout.edition;
    accepted(splicebell_move_edition(p.layout, p.record, p.image, p.length, image, p.length));
    return other;
}

/* The row is upgraded in a second image, and from there moved back and forth. */
static void upgrade(pool p) {
    uint8_t *images = malloc(3 * p.length);
    if (images == NULL) {
        exit(EXIT_FAILURE);
    }
    pool upgraded = moved(p, images);
    printf("The row is upgraded to edition %" PRIu64 ", in a second image.\n", upgraded.layout.edition);
    panel(upgraded);
    show(upgraded, 0, strlen(first));
    show(upgraded, SECOND_AT, strlen(second));

    pool back = moved(upgraded, images + p.length), again = moved(back, images + 2 * p.length);
    printf("Moved back to edition %" PRIu64 ", and to edition %" PRIu64 " again, it has %s bytes.\n",
           back.layout.edition, again.layout.edition,
           memcmp(again.image, upgraded.image, p.length) == 0 ? "the same" : "other");
    size_t too_short = p.length - 1;
    uint64_t refusal = splicebell_move_edition(p.layout, p.record, p.image, p.length, images, too_short);
    printf("Into an image that is a byte too short a move is refused with %" PRIu64 ", and that image %s.\n", refusal,
           all_zeros(images, too_short) ? "is zeros" : "still holds bytes");
    free(images);
}

/* Whether every data and parity unit stands at its own place with the bytes that it had there. */
static int same_units(pool p, const uint8_t *before, uint64_t groups) {
    for (uint64_t group = 0; group < groups; group++) {
        for (uint64_t unit = 0; unit < p.layout.n + p.layout.k; unit++) {
            splicebell_placed place = splicebell_find_place(p.layout, group, unit);
            accepted(place.refusal);
            if (memcmp(p.image + place.begins, before + place.begins, p.layout.u) != 0) {
                return 0;
            }
        }
    }
    return 1;
}

/* A new drive, with anything on it, is put in for the dead one. */
static pool take_back(pool p, uint64_t target) {
    size_t drive = p.length / p.layout.p;
    memset(p.image + target * drive, 0xee, drive);
    splicebell_swapped swapped = splicebell_swap(p.layout, p.record, p.image, p.length, target);
    accepted(swapped.refusal);
    p.record = swapped.record;
    printf("In the afternoon drive %" PRIu64 " is swapped for a new one, and taken back.\n", target);
    panel(p);
    return p;
}

/* The row is whole again, so another drive may die. */
static pool afternoon(pool p, const uint8_t *before, uint64_t groups) {
    printf("While drive %d is dead, the death of drive %d is refused with %" PRIu64 ".\n", LOST, LOST_LATER,
           splicebell_fail(p.layout, p.record, p.image, p.length, LOST_LATER).refusal);
    p = take_back(p, LOST);
    printf("All data and parity units are %s before it died.\n",
           same_units(p, before, groups) ? "what they were" : "not what they were");
    printf("To take it back again is refused with %" PRIu64 ".\n",
           splicebell_swap(p.layout, p.record, p.image, p.length, LOST).refusal);
    p = lose(p, LOST_LATER);
    show(p, 0, strlen(first));
    show(p, SECOND_AT, strlen(second));
    show(p, TAG_AT, strlen(tag));
    return p;
}

/* The row is upgraded for good. Its settings tell so in a line of version 2, which a reader of version 1 refuses: it
 * would look for the photographs at the places that they had. */
static void evening(pool p, settings *s) {
    uint8_t *image = malloc(p.length);
    if (image == NULL) {
        exit(EXIT_FAILURE);
    }
    pool upgraded = moved(p, image);
    splicebell_added added = splicebell_add_settings(2, upgraded.layout, s->text, sizeof s->text, s->used);
    accepted(added.refusal);
    s->used = added.used;
    printf("In the evening the row is upgraded for good. Its settings are now:\n");
    fwrite(s->text, 1, s->used, stdout);
    upgraded.layout = newest(s);
    printf("By these it has edition %" PRIu64 ".\n", upgraded.layout.edition);
    show(upgraded, 0, strlen(first));
    printf("A reader of version 1 refuses them with %" PRIu64 ".\n",
           splicebell_newest_settings_old(s->text, sizeof s->text, s->used).refusal);
    free(image);
}

int main(void) {
    settings s = {.used = sizeof fitted - 1};
    memcpy(s.text, fitted, s.used);
    splicebell_layout row = newest(&s);
    splicebell_measured measured = splicebell_measure(row);
    accepted(measured.refusal);
    pool p = {.layout = row, .image = calloc(measured.numbers.image, 1), .length = measured.numbers.image};
    uint8_t *before = malloc(p.length);
    if (p.image == NULL || before == NULL) {
        return EXIT_FAILURE;
    }
    printf("By its settings a row has %" PRIu64 " drives, and holds a file of %" PRIu64 " bytes.\n", row.p,
           measured.numbers.capacity);
    store(p, 0, first);
    end_session(p);

    memcpy(before, p.image, p.length);
    p = lose(p, LOST);
    show(p, 0, strlen(first));
    show(p, SECOND_AT, strlen(second));
    show(p, TAG_AT, strlen(tag));
    p = repair(p);
    printf("The drives now, each line a drive, a frame and its bytes:\n");
    dump(p, measured.numbers.frames);
    mail(p, measured.numbers.frames);
    upgrade(p);
    p = afternoon(p, before, measured.numbers.groups);
    evening(p, &s);
    free(before);
    free(p.image);
    return EXIT_SUCCESS;
}
