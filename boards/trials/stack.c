/* stack CASES SEED CALLS: the stack that each kind of call took at most, a line each, over the recorded calls, random ones and some with
 * 512 stars. The calls are made in a
 * thread whose stack is ours: it is painted below the caller's frame, and what lost its colour was used. */
#define _GNU_SOURCE
#include "random.h"
#include "reader.h"

#include <inttypes.h>
#include <pthread.h>
#include <stdlib.h>
#include <string.h>

enum { SIZE = 256 * 1024, LARGE = 4 };
static const uint64_t COLOUR = UINT64_C(0xa5a5a5a5a5a5a5a5);

static uint64_t painted[SIZE / 8] __attribute__((aligned(4096)));
static uint64_t most[KINDS];
static const char *cases;
static uint64_t seed, calls;

/* Makes the call on painted stack and notes how deep it went below its caller. */
static __attribute__((noinline)) void measure(const struct call *call)
{
    volatile uint64_t *word;
    volatile uint64_t *const end = (volatile uint64_t *)(stack_pointer() & ~(uintptr_t)7);
    for (word = painted; word < end; word++)
        *word = COLOUR;
    make_plain(call);
    for (word = painted; word < end && *word == COLOUR; word++)
        ;
    if (called_at > (uintptr_t)word && called_at - (uintptr_t)word > most[call->kind])
        most[call->kind] = called_at - (uintptr_t)word;
}

static void *run(void *nothing)
{
    struct call call;
    FILE *file = fopen(cases, "rb");
    uint64_t number;
    if (!file) {
        perror(cases);
        exit(2);
    }
    while (read_call(file, &call, AT_END))
        measure(&call);
    fclose(file);
    for (number = 1; number <= calls; number++) {
        random_call(&call, seed, number);
        measure(&call);
    }
    for (number = 0; number < LARGE * (KINDS - 1); number++) {
        random_large(&call, (int)(1 + number % (KINDS - 1)), seed + number);
        measure(&call);
    }
    return nothing;
}

int main(int count, char **words)
{
    pthread_attr_t attributes;
    pthread_t thread;
    int kind;
    if (count != 4) {
        fprintf(stderr, "usage: stack CASES SEED CALLS\n");
        return 2;
    }
    cases = words[1];
    seed = strtoull(words[2], NULL, 10);
    calls = strtoull(words[3], NULL, 10);
    if (pthread_attr_init(&attributes) || pthread_attr_setstack(&attributes, painted, SIZE) ||
        pthread_create(&thread, &attributes, run, NULL) || pthread_join(thread, NULL)) {
        perror("stack");
        return 2;
    }
    for (kind = 1; kind < KINDS; kind++)
        printf("%s %" PRIu64 "\n", forms[kind].name, most[kind]);
    return 0;
}
