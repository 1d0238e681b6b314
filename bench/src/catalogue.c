#include "catalogue.h"

#include "before.h"
#include "twin.h"

const struct cataloguer our_catalogue = {
    "ours", splicebell_lookup, splicebell_insert, splicebell_delete, splicebell_listing,
};
const struct cataloguer twin_catalogue = {"Rust twin", twin_lookup, twin_insert, twin_delete, twin_listing};

splicebell_wide pair_of(uint64_t number)
{
    return (splicebell_wide){number / 32, number % 32};
}

uint64_t number_of(splicebell_wide pair)
{
    return pair.first * 32 + pair.second;
}

#ifdef WITH_BEFORE
static const struct cataloguer before_catalogue = {
    "before", before_lookup, before_insert, before_delete, before_listing,
};
#endif

const struct cataloguer *const cataloguers[ANSWERERS] = {
    &our_catalogue,
    &twin_catalogue,
#ifdef WITH_BEFORE
    &before_catalogue,
#endif
};

splicebell_entry first_record(const struct catalogue *c, size_t i)
{
    size_t half = c->n / 2;
    return (splicebell_entry){1 + i / half, pair_of(2 * (i % half)), pair_of(i + 1)};
}

splicebell_entry new_record(const struct catalogue *c, size_t i)
{
    splicebell_entry e = first_record(c, i);
    e.file = pair_of(number_of(e.file) + 1);
    return e;
}

struct catalogue catalogue_of(const struct cataloguer *calls, size_t n)
{
    struct catalogue c = {.calls = calls, .slot_count = n + 1, .n = n};
    c.slots = room(c.slot_count * sizeof *c.slots);
    for (size_t i = 0; i < n; i++)
        c.slots[i] = first_record(&c, i);
    c.slots[n] = (splicebell_entry){0};
    return c;
}

static splicebell_key key_of(splicebell_entry e)
{
    return (splicebell_key){e.device, e.file};
}

void look_up(void *catalogue)
{
    struct catalogue *c = catalogue;
    uint64_t i = drawn(&c->state) % c->n;
    splicebell_found f = c->calls->lookup(c->slots, c->slot_count, c->n, key_of(first_record(c, i)));
    must(f.refusal == 0 && number_of(f.cob) == i + 1, "the record that was asked for");
}

void list_16(void *catalogue)
{
    struct catalogue *c = catalogue;
    splicebell_wide out[16];
    uint64_t i = drawn(&c->state) % c->n;
    splicebell_page p = c->calls->listing(c->slots, c->slot_count, c->n, key_of(first_record(c, i)), out, 16);
    must(p.refusal == 0 && number_of(out[0]) == i + 1, "the records that were asked for");
}

void insert_and_delete(void *catalogue)
{
    struct catalogue *c = catalogue;
    splicebell_entry e = new_record(c, drawn(&c->state) % c->n);
    splicebell_changed a = c->calls->insert(c->slots, c->slot_count, c->n, e);
    must(a.refusal == 0 && a.count == c->n + 1, "a record more");
    a = c->calls->take_out(c->slots, c->slot_count, a.count, e);
    must(a.refusal == 0 && a.count == c->n, "a record fewer");
}

void look_up_beyond(void *catalogue)
{
    struct catalogue *c = catalogue;
    splicebell_found f = c->calls->lookup(c->slots, c->slot_count, SIZE_MAX, key_of(first_record(c, 0)));
    must(f.refusal == SPLICEBELL_BAD_CATALOGUE, "a count above the slots refused");
}
