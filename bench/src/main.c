#include "bench.h"
#include "splicebell_processor.h"

#include <stdio.h>
#include <stdlib.h>
#include <string.h>

static const struct {
    const char *name;
    void (*run)(void);
} parts[] = {
    {"products", run_products},   {"codes", run_codes}, {"pools", run_pools}, {"maps", run_maps},
    {"catalogue", run_catalogue}, {"texts", run_texts}, {"lists", run_lists}, {"replays", run_replays},
    {"counts", run_counts},       {"plans", run_plans}, {"moves", run_moves}, {"swaps", run_swaps},
    {"settings", run_settings},   {"growth", run_growth},
};
enum { PARTS = sizeof parts / sizeof *parts };

/* What `rt lib` makes of the crate abi has code for one processor, and no call that says which. */
static int print_processor(void)
{
#ifdef WITH_LEVELS
    return puts(splicebell_processor()) < 0;
#else
    return puts("the archive's one processor") < 0;
#endif
}

static int usage(void)
{
    fprintf(stderr, "bench [--quick] [--emulated] [--large-pages] "
                    "[products|codes|pools|maps|catalogue|texts|lists|replays|counts|plans|moves|swaps|settings|growth]"
                    "...\n"
                    "bench --list\nbench --work NAME REPEATS\nbench --processor\n");
    return 2;
}

int main(int argc, char **argv)
{
    bool chosen[PARTS] = {false}, any = false;
    if (argc == 2 && strcmp(argv[1], "--list") == 0)
        return list_works();
    if (argc == 2 && strcmp(argv[1], "--processor") == 0)
        return print_processor();
    if (argc == 4 && strcmp(argv[1], "--work") == 0)
        return do_work(argv[2], atol(argv[3]));
    for (int a = 1; a < argc; a++) {
        bool known = true;
        if (strcmp(argv[a], "--quick") == 0)
            options.quick = true;
        else if (strcmp(argv[a], "--emulated") == 0)
            options.emulated = true;
        else if (strcmp(argv[a], "--large-pages") == 0)
            options.large_pages = true;
        else
            known = false;
        for (size_t i = 0; i < PARTS; i++)
            if (strcmp(argv[a], parts[i].name) == 0)
                any = known = chosen[i] = true;
        if (!known)
            return usage();
    }
    for (size_t i = 0; i < PARTS; i++)
        if (!any || chosen[i]) {
            parts[i].run();
            fflush(stdout);
        }
    floors_print();
    return 0;
}
