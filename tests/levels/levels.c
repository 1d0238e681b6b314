/* Prints the level that is in use, as every one of several threads finds it. */
#include "splicebell.h"
#include "splicebell_processor.h"

#include <pthread.h>
#include <stdio.h>
#include <string.h>

enum { THREADS = 8 };

static void *found(void *unused)
{
    splicebell_layout y = {.n = 1, .k = 1, .p = 3, .u = 2, .t = 1, .cookie = 0, .edition = 1};
    (void)unused;
    return splicebell_measure(y).numbers.capacity == 2 ? (void *)splicebell_processor() : NULL;
}

int main(void)
{
    pthread_t threads[THREADS];
    for (int i = 0; i < THREADS; i++)
        if (pthread_create(&threads[i], NULL, found, NULL) != 0)
            return 1;
    for (int i = 0; i < THREADS; i++) {
        void *level;
        if (pthread_join(threads[i], &level) != 0 || level == NULL || strcmp(level, splicebell_processor()) != 0)
            return 1;
    }
    return puts(splicebell_processor()) < 0;
}
