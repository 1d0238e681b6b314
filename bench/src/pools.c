#include "pools.h"

#include "before.h"
#include "twin.h"

#include <stdlib.h>
#include <string.h>

const struct answerer our_calls = {
    "ours", splicebell_read, splicebell_write, splicebell_repair, splicebell_fail, splicebell_audit, splicebell_panel,
    splicebell_check_plan, splicebell_repair_by, splicebell_draw_plan,
};
const struct answerer twin_calls = {
    "Rust twin", twin_read, twin_write, twin_repair, twin_fail, twin_audit, NULL,
    twin_check_plan, twin_repair_by, twin_draw_plan,
};

#ifdef WITH_BEFORE
static uint64_t read_before(splicebell_layout y, splicebell_record r, const uint8_t *image, size_t image_len,
                            uint64_t offset, uint8_t *out, size_t out_len)
{
    return before_read(without_edition(y), r, image, image_len, offset, out, out_len);
}

static uint64_t write_before(splicebell_layout y, splicebell_record r, uint8_t *image, size_t image_len,
                             uint64_t offset, const uint8_t *bytes, size_t bytes_len)
{
    return before_write(without_edition(y), r, image, image_len, offset, bytes, bytes_len);
}

static splicebell_repaired repair_before(splicebell_layout y, splicebell_record r, uint8_t *image, size_t image_len)
{
    return before_repair(without_edition(y), r, image, image_len);
}

static splicebell_failed fail_before(splicebell_layout y, splicebell_record r, const uint8_t *image, size_t image_len,
                                     uint64_t target)
{
    return before_fail(without_edition(y), r, image, image_len, target);
}

static uint64_t audit_before(splicebell_layout y, splicebell_record r, const uint8_t *image, size_t image_len)
{
    return before_audit(without_edition(y), r, image, image_len);
}

static splicebell_counts panel_before(splicebell_layout y, splicebell_record r, const uint8_t *image, size_t image_len)
{
    return before_panel(without_edition(y), r, image, image_len);
}

static uint64_t check_plan_before(splicebell_layout y, splicebell_record r, const uint8_t *image, size_t image_len,
                                  const uint64_t *plan, size_t plan_len)
{
    return before_check_plan(without_edition(y), r, image, image_len, plan, plan_len);
}

static splicebell_repaired repair_by_before(splicebell_layout y, splicebell_record r, uint8_t *image, size_t image_len,
                                            const uint64_t *plan, size_t plan_len)
{
    return before_repair_by(without_edition(y), r, image, image_len, plan, plan_len);
}

static splicebell_drawn draw_plan_before(splicebell_layout y, splicebell_record r, const uint8_t *image,
                                         size_t image_len, uint64_t *plan, size_t plan_len)
{
    return before_draw_plan(without_edition(y), r, image, image_len, plan, plan_len);
}

static const struct answerer before_calls = {
    "before", read_before, write_before, repair_before, fail_before, audit_before, panel_before,
    check_plan_before, repair_by_before, draw_plan_before,
};
#endif

const struct answerer *const answerers[ANSWERERS] = {
    &our_calls,
    &twin_calls,
#ifdef WITH_BEFORE
    &before_calls,
#endif
};

enum { GROUPS_A_CALL = 32 };

struct pool pool_of(uint64_t n, uint64_t k, uint64_t p, uint64_t u, uint64_t t)
{
    struct pool pool = {.y = {n, k, p, u, t, 7, 1}, .calls = &our_calls};
    splicebell_measured m = splicebell_measure(pool.y);
    must(m.refusal == 0, "a layout within its bounds");
    pool.m = m.numbers;
    pool.image = room(m.numbers.image);
    pool.file = room(m.numbers.capacity);
    pool.out = room(m.numbers.capacity);
    fill(pool.file, m.numbers.capacity, t);
    uint64_t state = 5;
    for (size_t i = 0; i < DRAWN_OFFSETS; i++)
        pool.units_at[i] = drawn(&state) % (m.numbers.capacity / u) * u;
    uint64_t refusal = splicebell_write(pool.y, pool.r, pool.image, pool.m.image, 0, pool.file, pool.m.capacity);
    must(refusal == 0, "the first write accepted");
    return pool;
}

struct pool bench_pool(uint64_t tiles)
{
    return pool_of(8, 2, 24, 4096, tiles);
}

void pool_free(struct pool *p)
{
    free(p->image);
    free(p->file);
    free(p->out);
}

uint8_t *image_like(const struct pool *p)
{
    uint8_t *image = room(p->m.image);
    memcpy(image, p->image, p->m.image);
    return image;
}

uint64_t failing(uint64_t i)
{
    static const uint64_t targets[] = {5, 11, 17};
    must(i < sizeof targets / sizeof *targets, "room in the record");
    return targets[i];
}

static splicebell_record with_failures(const struct pool *p, splicebell_record r, uint64_t count)
{
    for (; count; count--) {
        splicebell_failed f = splicebell_fail(p->y, r, p->image, p->m.image, failing(r.k));
        must(f.refusal == 0, "fail accepted");
        r = f.record;
    }
    return r;
}

splicebell_record failures(const struct pool *p, uint64_t repaired, uint64_t waiting)
{
    splicebell_record r = with_failures(p, (splicebell_record){0}, repaired);
    splicebell_repaired x = splicebell_repair(p->y, r, p->image, p->m.image);
    must(x.refusal == 0, "repair accepted");
    return with_failures(p, x.record, waiting);
}

static uint64_t group_bytes(const struct pool *p)
{
    return p->y.n * p->y.u;
}

static void write_in_steps(const struct pool *p, uint64_t step)
{
    for (uint64_t at = 0; at < p->m.capacity; at += step) {
        uint64_t length = p->m.capacity - at < step ? p->m.capacity - at : step;
        must(p->calls->write(p->y, p->r, p->image, p->m.image, at, p->file + at, length) == 0, "write accepted");
    }
}

static void read_in_steps(const struct pool *p, uint64_t step)
{
    for (uint64_t at = 0; at < p->m.capacity; at += step) {
        uint64_t length = p->m.capacity - at < step ? p->m.capacity - at : step;
        must(p->calls->read(p->y, p->r, p->image, p->m.image, at, p->out + at, length) == 0, "read accepted");
    }
}

static void write_groups(void *context)
{
    write_in_steps(context, GROUPS_A_CALL * group_bytes(context));
}

static void write_group_by_group(void *context)
{
    write_in_steps(context, group_bytes(context));
}

static void read_groups(void *context)
{
    read_in_steps(context, GROUPS_A_CALL * group_bytes(context));
}

static void read_group_by_group(void *context)
{
    read_in_steps(context, group_bytes(context));
}

static void write_at_random(const struct pool *p, size_t length)
{
    for (size_t i = 0; i < DRAWN_OFFSETS; i++) {
        uint64_t at = p->units_at[i];
        must(p->calls->write(p->y, p->r, p->image, p->m.image, at, p->file + at, length) == 0, "write accepted");
    }
}

static void read_at_random(const struct pool *p, size_t length)
{
    for (size_t i = 0; i < DRAWN_OFFSETS; i++) {
        uint64_t at = p->units_at[i];
        must(p->calls->read(p->y, p->r, p->image, p->m.image, at, p->out + at, length) == 0, "read accepted");
    }
}

static void write_units(void *context)
{
    write_at_random(context, ((struct pool *)context)->y.u);
}

static void read_units(void *context)
{
    read_at_random(context, ((struct pool *)context)->y.u);
}

static void write_bytes(void *context)
{
    write_at_random(context, 1);
}

static void read_bytes(void *context)
{
    read_at_random(context, 1);
}

/* The record is not moved on, so every pass finds the same contents missing. */
static void repair(void *context)
{
    struct pool *p = context;
    splicebell_repaired answer = p->calls->repair(p->y, p->r, p->image, p->m.image);
    must(answer.refusal == 0, "repair accepted");
    p->rebuilt = answer.count;
}

static void copy(void *context)
{
    struct pool *p = context;
    uint64_t step = GROUPS_A_CALL * group_bytes(p);
    for (uint64_t at = 0; at < p->m.capacity; at += step)
        memcpy(p->out + at, p->file + at, p->m.capacity - at < step ? p->m.capacity - at : step);
}

static double whole_file(const struct pool *p)
{
    return p->m.capacity;
}

static double calls_by_groups(const struct pool *p)
{
    return (p->m.groups + GROUPS_A_CALL - 1) / GROUPS_A_CALL;
}

static double calls_group_by_group(const struct pool *p)
{
    return p->m.groups;
}

static double drawn_units(const struct pool *p)
{
    return DRAWN_OFFSETS * (double)p->y.u;
}

static double drawn_count(const struct pool *p)
{
    (void)p;
    return DRAWN_OFFSETS;
}

static double rebuilt_bytes(const struct pool *p)
{
    return p->rebuilt * (double)p->y.u;
}

static double one_call(const struct pool *p)
{
    (void)p;
    return 1;
}

const struct pass passes[] = {
    {"write-groups", write_groups, whole_file, calls_by_groups},
    {"write-group-by-group", write_group_by_group, whole_file, calls_group_by_group},
    {"read-groups", read_groups, whole_file, calls_by_groups},
    {"read-group-by-group", read_group_by_group, whole_file, calls_group_by_group},
    {"write-4K", write_units, drawn_units, drawn_count},
    {"read-4K", read_units, drawn_units, drawn_count},
    {"write-1", write_bytes, drawn_count, drawn_count},
    {"read-1", read_bytes, drawn_count, drawn_count},
    {"repair", repair, rebuilt_bytes, one_call},
    {"copy", copy, whole_file, calls_by_groups},
};
const size_t pass_count = sizeof passes / sizeof *passes;

const struct pass *pass_named(const char *name)
{
    for (size_t i = 0; i < pass_count; i++)
        if (strcmp(passes[i].name, name) == 0)
            return &passes[i];
    must(false, name);
    return NULL;
}
