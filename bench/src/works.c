/* Pieces of work by name, for counting what they execute. The names say who does it:
 *
 *     product:ours                    of one pair of bytes
 *     encode:8+2:4096:ours            code, bytes of a unit
 *     rebuild:8+2:4096:2:ours         and how many units are lost
 *     pool:repair:8+2:20:1:ours       a pass over a pool on 24 targets: code, tiles, failures
 *     map:ours
 *     catalogue:lookup:10000:ours     records
 *     text:write:4096:ours            bytes of a unit, of a pool of 20 tiles
 *     count:panel:8+2:24:20:ours      a call about the count of missing units: code, targets, tiles
 *     plan:repair:8+2:20:1:ours       a call about repair by a plan, on 24 targets: code, tiles, failures
 *     move:1 to 2:8+2:4096:20:1:ours  a move between editions, on 24 targets: code, bytes of a unit, tiles, failures
 *     swap:8+2:4096:20:2:1:ours       a drive taken back, on 24 targets: code, bytes of a unit, tiles, failures, and
 *                                     which of them comes back, from 1 on
 *     settings:add:1000:ours          a call about settings of so many lines, the newest of version 2
 */
#include "catalogue.h"
#include "coders.h"
#include "counts.h"
#include "moves.h"
#include "plans.h"
#include "products.h"
#include "settings.h"
#include "swaps.h"
#include "texts.h"
#include "twin.h"

#include <stdio.h>
#include <string.h>

static const struct {
    int n, k;
} codes[] = {{4, 1}, {8, 2}, {10, 3}, {16, 3}};

/* What one call of a work brings, for instructions a byte and a call. */
static int repeat(work work, void *context, long repeats, double bytes, double calls)
{
    for (long i = 0; i < repeats; i++)
        work(context);
    printf("%.0f %.0f\n", bytes, calls);
    return 0;
}

static const struct coder *coder_called(const char *name)
{
    for (size_t i = 0; i < coder_count; i++)
        if (strcmp(coders[i]->name, name) == 0)
            return coders[i];
    must(false, name);
    return NULL;
}

static int work_on_group(const char *name, long repeats)
{
    int n, k, u, lost = 0;
    char who[20];
    bool encode = sscanf(name, "encode:%d+%d:%d:%19[^:]", &n, &k, &u, who) == 4;
    must(encode || sscanf(name, "rebuild:%d+%d:%d:%d:%19[^:]", &n, &k, &u, &lost, who) == 5, name);
    struct group g = group_of(n, k, u, encode ? 1 : lost);
    const struct coder *c = coder_called(who);
    ours.encode(&g);
    if (c->prepare)
        c->prepare(&g);
    return repeat(encode ? c->encode : c->rebuild, &g, repeats, (encode ? n : lost) * (double)u, 1);
}

static int work_on_pool(const char *name, long repeats)
{
    char pass_name[30], who[20];
    int n, k, failed, tiles;
    must(sscanf(name, "pool:%29[^:]:%d+%d:%d:%d:%19[^:]", pass_name, &n, &k, &tiles, &failed, who) == 6, name);
    struct pool p = pool_of(n, k, 24, 4096, tiles);
    const struct pass *pass = pass_named(pass_name);
    p.r = failures(&p, 0, failed);
    p.calls = strcmp(who, "ours") == 0 ? &our_calls : &twin_calls;
    pass->work(&p); /* so that the count of rebuilt units is there */
    return repeat(pass->work, &p, repeats, pass->bytes(&p), pass->calls(&p));
}

struct mapping {
    splicebell_layout y;
    splicebell_mapped (*call)(splicebell_layout, uint64_t);
    uint64_t state;
};

static void map_one(void *context)
{
    struct mapping *m = context;
    must(m->call(m->y, drawn(&m->state) % 100000000).refusal == 0, "an offset inside");
}

static int work_on_map(const char *name, long repeats)
{
    bool is_ours = strcmp(name, "map:ours") == 0;
    struct mapping m = {{8, 2, 24, 4096, 2730, 7, 1}, is_ours ? splicebell_map_offset : twin_map_offset, 9};
    return repeat(map_one, &m, repeats, 1, 1);
}

static int work_on_catalogue(const char *name, long repeats)
{
    char call[20], who[20];
    int n;
    must(sscanf(name, "catalogue:%19[^:]:%d:%19[^:]", call, &n, who) == 3, name);
    struct catalogue c = catalogue_of(strcmp(who, "ours") == 0 ? &our_catalogue : &twin_catalogue, n);
    work work = strcmp(call, "lookup") == 0 ? look_up : strcmp(call, "listing") == 0 ? list_16 : insert_and_delete;
    return repeat(work, &c, repeats, n, 1);
}

static int work_on_text(const char *name, long repeats)
{
    char call[20], who[20];
    int unit;
    must(sscanf(name, "text:%19[^:]:%d:%19[^:]", call, &unit, who) == 3, name);
    struct text t = text_of(unit, 20);
    t.calls = strcmp(who, "ours") == 0 ? &our_text_calls : &twin_text_calls;
    return repeat(strcmp(call, "write") == 0 ? write_whole_text : read_whole_text, &t, repeats, t.text_len, 1);
}

static int work_on_count(const char *name, long repeats)
{
    char what[40], who[20];
    int n, k, targets, tiles;
    must(sscanf(name, "count:%39[^:]:%d+%d:%d:%d:%19[^:]", what, &n, &k, &targets, &tiles, who) == 6, name);
    struct pool p = pool_of(n, k, targets, 4096, tiles);
    const struct count_call *call = count_call_named(what);
    p = pool_for(&p, call, strcmp(who, "ours") == 0 ? &our_calls : &twin_calls);
    return repeat(call->work, &p, repeats, call->calls, call->calls);
}

static int work_on_plan(const char *name, long repeats)
{
    char what[40], who[20];
    int n, k, failed, tiles;
    must(sscanf(name, "plan:%39[^:]:%d+%d:%d:%d:%19[^:]", what, &n, &k, &tiles, &failed, who) == 6, name);
    struct pool p = pool_of(n, k, 24, 4096, tiles);
    p.r = failures(&p, 0, failed);
    const struct plan_call *call = plan_call_named(what);
    struct planned x = planned_for(&p, call->scattered, strcmp(who, "ours") == 0 ? &our_calls : &twin_calls);
    return repeat(call->work, &x, repeats, p.r.waiting * (double)p.y.u, 1);
}

static int work_on_move(const char *name, long repeats)
{
    char who[20];
    int from, to, n, k, unit, tiles, failed;
    must(sscanf(name, "move:%d to %d:%d+%d:%d:%d:%d:%19[^:]", &from, &to, &n, &k, &unit, &tiles, &failed, who) == 8,
         name);
    struct pool p = pool_of(n, k, 24, unit, tiles);
    if (from == 2)
        p = in_other_edition(&p);
    struct move x = move_of(&p, failed, strcmp(who, "ours") == 0 ? &our_move : &twin_move, room(p.m.image));
    return repeat(move_whole_pool, &x, repeats, p.m.capacity, 1);
}

static int work_on_swap(const char *name, long repeats)
{
    char who[20];
    int n, k, unit, tiles, failed, back;
    must(sscanf(name, "swap:%d+%d:%d:%d:%d:%d:%19[^:]", &n, &k, &unit, &tiles, &failed, &back, who) == 7, name);
    struct pool p = pool_of(n, k, 24, unit, tiles);
    struct swap x = swap_of(&p, failed, back - 1, strcmp(who, "ours") == 0 ? &our_swapper : &twin_swapper);
    return repeat(take_back, &x, repeats, routes_of(&x).count * (double)unit, 1);
}

static int work_on_settings(const char *name, long repeats)
{
    char call[20], who[20];
    int lines;
    must(sscanf(name, "settings:%19[^:]:%d:%19[^:]", call, &lines, who) == 3, name);
    struct settings s = settings_of(strcmp(who, "ours") == 0 ? &our_settings : &twin_settings, lines, 2);
    work work = strcmp(call, "add") == 0 ? add_all : strcmp(call, "newest") == 0 ? read_newest : read_newest_old;
    return repeat(work, &s, repeats, lines, 1);
}

static int work_on_pairs(const char *name, long repeats)
{
    static struct pairs p;
    const char *who = strchr(name, ':') + 1;
    draw_pairs(&p);
    work work = strcmp(who, "ours") == 0       ? our_products
                : strcmp(who, "shifting") == 0 ? shifted_products
                                               : twin_makes_products;
    return repeat(work, &p, repeats, PAIRS, PAIRS);
}

int do_work(const char *name, long repeats)
{
    if (strncmp(name, "product:", 8) == 0)
        return work_on_pairs(name, repeats);
    if (strncmp(name, "pool:", 5) == 0)
        return work_on_pool(name, repeats);
    if (strncmp(name, "map:", 4) == 0)
        return work_on_map(name, repeats);
    if (strncmp(name, "catalogue:", 10) == 0)
        return work_on_catalogue(name, repeats);
    if (strncmp(name, "text:", 5) == 0)
        return work_on_text(name, repeats);
    if (strncmp(name, "count:", 6) == 0)
        return work_on_count(name, repeats);
    if (strncmp(name, "plan:", 5) == 0)
        return work_on_plan(name, repeats);
    if (strncmp(name, "move:", 5) == 0)
        return work_on_move(name, repeats);
    if (strncmp(name, "swap:", 5) == 0)
        return work_on_swap(name, repeats);
    if (strncmp(name, "settings:", 9) == 0)
        return work_on_settings(name, repeats);
    return work_on_group(name, repeats);
}

static void list_groups(void)
{
    for (size_t u = 512; u <= 4096; u *= 8)
        for (size_t c = 0; c < sizeof codes / sizeof *codes; c++)
            for (size_t i = 0; i < coder_count; i++) {
                int n = codes[c].n, k = codes[c].k;
                printf("encode:%d+%d:%zu:%s\n", n, k, u, coders[i]->name);
                printf("rebuild:%d+%d:%zu:1:%s\n", n, k, u, coders[i]->name);
                if (k > 1)
                    printf("rebuild:%d+%d:%zu:%d:%s\n", n, k, u, k, coders[i]->name);
            }
}

/* Every pass over the small pool, and three over one of 16 times as many tiles and over others of fewer and more data
 * units a group. */
static void list_pools(void)
{
    for (size_t i = 0; i < pass_count; i++) {
        const char *pass = passes[i].name;
        for (int failed = strcmp(pass, "repair") == 0; failed <= 2; failed++)
            printf("pool:%s:8+2:20:%d:ours\npool:%s:8+2:20:%d:Rust twin\n", pass, failed, pass, failed);
    }
    static const char *const others[] = {"8+2:320", "4+2:20", "16+2:20"};
    for (size_t i = 0; i < sizeof others / sizeof *others; i++) {
        const char *pool = others[i];
        printf("pool:read-4K:%s:0:ours\npool:write-4K:%s:0:ours\npool:repair:%s:1:ours\n", pool, pool, pool);
    }
}

static void list_catalogues(void)
{
    static const char *const calls[] = {"lookup", "insert and delete", "listing"};
    for (size_t i = 0; i < sizeof calls / sizeof *calls; i++)
        for (int n = 100; n <= 10000; n *= 100)
            printf("catalogue:%s:%d:ours\ncatalogue:%s:%d:Rust twin\n", calls[i], n, calls[i], n);
}

/* Over pools of 2 MB, and two of ours over one of 16 times as many tiles. */
static void list_counts(void)
{
    static const char *const pools[] = {"8+2:24:20", "5+2:23:2"};
    for (size_t i = 0; i < sizeof pools / sizeof *pools; i++)
        for (size_t j = 0; j < count_call_count; j++) {
            const struct count_call *c = &count_calls[j];
            printf("count:%s:%s:ours\n", c->what, pools[i]);
            if (has_call(&twin_calls, c))
                printf("count:%s:%s:Rust twin\n", c->what, pools[i]);
        }
    printf("count:fail, none failed:8+2:24:320:ours\ncount:panel:8+2:24:320:ours\n");
}

static void list_plans(void)
{
    for (int failed = 1; failed <= 2; failed++)
        for (size_t i = 0; i < plan_call_count; i++) {
            const char *what = plan_calls[i].what;
            printf("plan:%s:8+2:20:%d:ours\nplan:%s:8+2:20:%d:Rust twin\n", what, failed, what, failed);
        }
}

/* Over pools of 2 MB. */
static void list_moves(void)
{
    static const char *const pools[] = {"8+2:4096:20", "8+2:512:160"}, *const ways[] = {"1 to 2", "2 to 1"};
    for (size_t i = 0; i < sizeof pools / sizeof *pools; i++)
        for (int failed = 0; failed <= 2; failed += 2)
            for (size_t j = 0; j < sizeof ways / sizeof *ways; j++) {
                printf("move:%s:%s:%d:ours\n", ways[j], pools[i], failed);
                printf("move:%s:%s:%d:Rust twin\n", ways[j], pools[i], failed);
            }
}

/* Over pools of 2 MB. */
static void list_swaps(void)
{
    static const char *const pools[] = {"8+2:4096:20", "8+2:512:160"};
    for (size_t i = 0; i < sizeof pools / sizeof *pools; i++)
        for (int failed = 1; failed <= 2; failed++)
            for (int back = 1; back <= failed; back++) {
                printf("swap:%s:%d:%d:ours\n", pools[i], failed, back);
                printf("swap:%s:%d:%d:Rust twin\n", pools[i], failed, back);
            }
}

static void list_settings(void)
{
    static const char *const calls[] = {"newest", "newest old", "add"};
    for (size_t i = 0; i < sizeof calls / sizeof *calls; i++)
        for (int lines = 1; lines <= 1000; lines *= 1000)
            printf("settings:%s:%d:ours\nsettings:%s:%d:Rust twin\n", calls[i], lines, calls[i], lines);
}

int list_works(void)
{
    printf("product:ours\nproduct:shifting\nproduct:Rust twin\n");
    list_groups();
    list_pools();
    printf("map:ours\nmap:Rust twin\n");
    list_catalogues();
    for (int u = 512; u <= 4096; u *= 8)
        printf("text:write:%d:ours\ntext:write:%d:Rust twin\ntext:read:%d:ours\ntext:read:%d:Rust twin\n", u, u, u, u);
    list_counts();
    list_plans();
    list_moves();
    list_swaps();
    list_settings();
    return 0;
}
