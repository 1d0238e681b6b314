#include "bench.h"

#include <stdio.h>

enum { ROOM = 96 };

static struct {
    char what[80];
    double measured, wanted;
    bool most;
} floors[ROOM];
static size_t count;

static void note(const char *what, double measured, double wanted, bool most)
{
    must(count < ROOM, "room for floors");
    snprintf(floors[count].what, sizeof floors[count].what, "%s", what);
    floors[count].measured = measured;
    floors[count].wanted = wanted;
    floors[count].most = most;
    count++;
}

void floor_at_least(const char *what, double measured, double wanted)
{
    note(what, measured, wanted, false);
}

void floor_at_most(const char *what, double measured, double wanted)
{
    note(what, measured, wanted, true);
}

void floors_print(void)
{
    if (!count)
        return;
    const char *judged = options.emulated ? ": NOT judged, since times under an emulator say nothing" : "";
    printf("\nFloors (4 KiB units)%s\n", judged);
    printf("%-68s %9s %9s\n", "floor", "wanted", "measured");
    for (size_t i = 0; i < count; i++) {
        bool met = floors[i].most ? floors[i].measured <= floors[i].wanted : floors[i].measured >= floors[i].wanted;
        printf("%-68s %s %6.2f %9.2f  %s\n", floors[i].what, floors[i].most ? "<=" : ">=", floors[i].wanted,
               floors[i].measured, options.emulated ? "not judged" : met ? "met" : "NOT MET");
    }
}
