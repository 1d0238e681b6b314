/* The catalogue's calls over few records and many, beside the plain Rust twin and an earlier archive. */
#include "catalogue.h"

#include <stdio.h>
#include <stdlib.h>
#include <string.h>

enum { LISTED = 16 };
enum call { LOOKUP, INSERT, DELETE, LISTING, CALLS };

struct asked {
    enum call call;
    size_t n;
    splicebell_entry record; /* or its key alone */
    size_t room;             /* of a listing's output */
};

/* What any call answers, in words alone, so that all bytes are compared. What a call does not answer is 0. */
struct answered {
    uint64_t refusal, count, more;
    splicebell_wide number; /* a cob, or the next file */
    splicebell_wide out[LISTED];
};

static void answer_listing(const struct catalogue *c, const struct asked *a, struct answered *x)
{
    for (size_t i = 0; i < LISTED; i++)
        x->out[i] = pair_of(1000 + i);
    splicebell_key from = {a->record.device, a->record.file};
    splicebell_page p = c->calls->listing(c->slots, c->slot_count, a->n, from, x->out, a->room);
    x->refusal = p.refusal;
    x->count = p.count;
    x->more = p.more;
    x->number = p.next;
}

static struct answered answer(const struct catalogue *c, const struct asked *a)
{
    struct answered x = {0};
    if (a->call == LISTING) {
        answer_listing(c, a, &x);
    } else if (a->call == LOOKUP) {
        splicebell_key key = {a->record.device, a->record.file};
        splicebell_found f = c->calls->lookup(c->slots, c->slot_count, a->n, key);
        x.refusal = f.refusal;
        x.number = f.cob;
    } else {
        splicebell_changed g = (a->call == INSERT ? c->calls->insert : c->calls->take_out)(
            c->slots, c->slot_count, a->n, a->record);
        x.refusal = g.refusal;
        x.count = g.count;
    }
    return x;
}

/* All must answer alike, with this refusal, and hold the same records afterwards. */
static void ask(struct catalogue *all, struct asked a, uint64_t refusal)
{
    struct answered ours = answer(&all[0], &a);
    must(ours.refusal == refusal, "the refusal that a catalogue's call must give");
    for (size_t i = 1; i < ANSWERERS; i++) {
        struct answered theirs = answer(&all[i], &a);
        must(memcmp(&ours, &theirs, sizeof ours) == 0, "the same answer of a catalogue's call from all");
        size_t bytes = all->slot_count * sizeof *all->slots;
        must(memcmp(all[0].slots, all[i].slots, bytes) == 0, "the same records left by all");
    }
}

static void compare_reads(struct catalogue *all)
{
    size_t n = all->n, places[] = {0, n / 2 - 3, n / 2, n - 1};
    for (size_t i = 0; i < sizeof places / sizeof *places; i++) {
        splicebell_entry here = first_record(all, places[i]), behind = new_record(all, places[i]);
        ask(all, (struct asked){LOOKUP, n, here, 0}, 0);
        ask(all, (struct asked){LOOKUP, n, behind, 0}, SPLICEBELL_NO_SUCH_RECORD);
        ask(all, (struct asked){LISTING, n, here, LISTED}, 0);
        ask(all, (struct asked){LISTING, n, here, 2}, 0);
        ask(all, (struct asked){LISTING, n, behind, 0}, 0);
    }
}

/* Each begins and ends with the first n records. */
static void compare_changes(struct catalogue *all)
{
    size_t n = all->n, places[] = {0, n / 2, n - 1};
    for (size_t i = 0; i < sizeof places / sizeof *places; i++) {
        splicebell_entry old = first_record(all, places[i]), new = new_record(all, places[i]), other = old;
        other.cob = pair_of(9000000);
        ask(all, (struct asked){DELETE, n, new, 0}, SPLICEBELL_NO_SUCH_RECORD);
        ask(all, (struct asked){INSERT, n, new, 0}, 0);
        ask(all, (struct asked){INSERT, n + 1, new_record(all, 1), 0}, SPLICEBELL_CATALOGUE_FULL);
        ask(all, (struct asked){INSERT, n + 1, other, 0}, 0);
        ask(all, (struct asked){DELETE, n + 1, old, 0}, SPLICEBELL_NO_SUCH_RECORD);
        ask(all, (struct asked){DELETE, n + 1, other, 0}, 0);
        ask(all, (struct asked){INSERT, n, old, 0}, 0);
        ask(all, (struct asked){DELETE, n + 1, new, 0}, 0);
    }
}

static void refused_by_all_calls(struct catalogue *all, size_t n)
{
    for (enum call call = 0; call < CALLS; call++)
        ask(all, (struct asked){call, n, first_record(all, 1), LISTED}, SPLICEBELL_BAD_CATALOGUE);
}

static void put_everywhere(struct catalogue *all, size_t i, splicebell_entry e)
{
    for (size_t j = 0; j < ANSWERERS; j++)
        all[j].slots[i] = e;
}

/* Counts above the slots, also where all of those records rise; then two neighbours with one key, and in each other's
 * place, at the beginning, in the middle and at the end. */
static void compare_refusals(struct catalogue *all)
{
    size_t n = all->n, places[] = {1, n / 2, n - 1};
    refused_by_all_calls(all, SIZE_MAX);
    for (size_t j = 0; j < ANSWERERS; j++)
        all[j].slot_count -= 2;
    refused_by_all_calls(all, n);
    for (size_t j = 0; j < ANSWERERS; j++)
        all[j].slot_count += 2;
    for (size_t i = 0; i < sizeof places / sizeof *places; i++) {
        splicebell_entry lower = all->slots[places[i] - 1], higher = all->slots[places[i]];
        put_everywhere(all, places[i], lower);
        refused_by_all_calls(all, n);
        put_everywhere(all, places[i] - 1, higher);
        refused_by_all_calls(all, n);
        put_everywhere(all, places[i] - 1, lower);
        put_everywhere(all, places[i], higher);
    }
}

/* A line of the table; answers the twin's time over ours. */
static double row(const char *what, struct catalogue *all, work work)
{
    struct timed t[ANSWERERS];
    for (size_t i = 0; i < ANSWERERS; i++)
        t[i] = (struct timed){work, &all[i], 0};
    time_in_turns(t, ANSWERERS);
    printf("%-26s %9zu %12.0f (%5.2f)", what, all->n, 1 / t[0].seconds, t[0].seconds / all->n * 1e9);
    for (size_t i = 1; i < ANSWERERS; i++)
        printf(" %13.0f (%5.2f)", 1 / t[i].seconds, t[i].seconds / t[0].seconds);
    printf("\n");
    return t[TWIN].seconds / t[0].seconds;
}

static void rows(size_t n, bool large)
{
    static const struct {
        const char *what;
        work work;
    } kinds[] = {{"lookup", look_up}, {"insert and delete: pairs", insert_and_delete}, {"listing of 16", list_16}};
    struct catalogue all[ANSWERERS];
    for (size_t i = 0; i < ANSWERERS; i++)
        all[i] = catalogue_of(cataloguers[i], n);
    compare_reads(all);
    compare_changes(all);
    compare_refusals(all);
    for (size_t i = 0; i < sizeof kinds / sizeof *kinds; i++) {
        double ratio = row(kinds[i].what, all, kinds[i].work);
        char name[80];
        snprintf(name, sizeof name, "%s / the twin, catalogue of %zu records", kinds[i].what, n);
        if (large)
            floor_at_least(name, ratio, 0.5);
    }
    if (large)
        row("lookup, count too large", all, look_up_beyond);
    for (size_t i = 0; i < ANSWERERS; i++)
        free(all[i].slots);
}

void run_catalogue(void)
{
    printf("\nCatalogue, calls a second. Each goes over all records to test their order, but for a count too large\n"
           "%-26s %9s %20s", "", "records", "ours (ns a record)");
    for (size_t i = 1; i < ANSWERERS; i++)
        printf(" %9s (ours / it)", cataloguers[i]->name);
    printf("\n");
    rows(100, false);
    rows(10000, false);
    rows(1000000, true);
}
