/* What all parts of the bench share: options, memory, timing and floors. */
#ifndef BENCH_H
#define BENCH_H

#include <stdbool.h>
#include <stddef.h>
#include <stdint.h>

struct options {
    bool quick;       /* shorter timings and a smaller pool */
    bool emulated;    /* the program runs under an emulator: no time means anything */
    bool large_pages; /* buffers from 2 MiB on are asked for in pages of 2 MiB */
};
extern struct options options;

/* Who answers a call, ours first: also the twin, and an earlier archive where there is one. */
#ifdef WITH_BEFORE
enum { TWIN = 1, ANSWERERS = 3 };
#else
enum { TWIN = 1, ANSWERERS = 2 };
#endif

/* A piece of work: one call of it is timed, or counted, many times. */
typedef void (*work)(void *context);

struct timed {
    work work;
    void *context;
    double seconds; /* of one call, the best of several timings */
};

/* Times several pieces of work in turns, so that what disturbs the machine meanwhile falls on all of them. */
void time_in_turns(struct timed *t, size_t count);

/* Megabytes (of 1,000,000 bytes) a second. */
double rate(double bytes, double seconds);

/* Memory that has been touched, at a whole cache line. */
void *room(size_t bytes);

/* The next of a row of drawn numbers. */
uint64_t drawn(uint64_t *state);
void fill(uint8_t *bytes, size_t length, uint64_t seed);

/* Ends the program with a message where something that must be so is not. */
void must(bool so, const char *what);

/* Notes what was measured against a floor, or against a ceiling; floors_print says which are met. */
void floor_at_least(const char *what, double measured, double wanted);
void floor_at_most(const char *what, double measured, double wanted);
void floors_print(void);

/* The parts. */
void run_products(void);
void run_codes(void);
void run_pools(void);
void run_maps(void);
void run_catalogue(void);
void run_texts(void);
void run_lists(void);
void run_replays(void);
void run_counts(void);
void run_plans(void);
void run_moves(void);
void run_swaps(void);
void run_settings(void);
void run_growth(void);

/* Pieces of work by name, for counting instructions instead of time. Both answer the exit status. */
int list_works(void);
int do_work(const char *name, long repeats);

#endif
