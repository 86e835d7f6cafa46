/* times [once]: makes a call of each kind, sound and large, and prints how many microseconds it takes; with `once` it makes each a single time, for a program that
 * counts instructions. The calls are the same everywhere. */
#define _POSIX_C_SOURCE 199309L
#include "random.h"

#include <inttypes.h>
#include <stdio.h>
#include <time.h>

enum { SEED = 5, BATCHES = 40, LEAST_NANOSECONDS = 100000 };

static int64_t now(void)
{
    struct timespec time;
    clock_gettime(CLOCK_MONOTONIC, &time);
    return (int64_t)time.tv_sec * 1000000000 + time.tv_nsec;
}

/* How long so many calls take. */
static int64_t taken(const struct call *call, int calls)
{
    const int64_t start = now();
    int k;
    for (k = 0; k < calls; k++)
        make_plain(call);
    return now() - start;
}

/* The least of some batches, so that other work on the machine has little say. A catalogue that is cut is cut once: the next time there is less to do. */
static double microseconds(const struct call *call)
{
    int64_t least = taken(call, 1);
    int calls = 1, k;
    if (call->kind == 19)
        return (double)least / 1000;
    while (least < LEAST_NANOSECONDS) {
        calls *= 2;
        least = taken(call, calls);
    }
    for (k = 0; k < BATCHES; k++) {
        const int64_t found = taken(call, calls);
        least = found < least ? found : least;
    }
    return (double)least / 1000 / calls;
}

int main(int count, char **words)
{
    struct call call;
    int kind;
    (void)words;
    for (kind = 1; kind < KINDS; kind++) {
        random_large(&call, kind, SEED);
        if (count > 1)
            make_plain(&call);
        else
            printf("%s %.3f", forms[kind].name, microseconds(&call));
        printf("%s refused %" PRId64 "\n", count > 1 ? forms[kind].name : "", *(int64_t *)call.filled[OUT]);
    }
    return 0;
}
