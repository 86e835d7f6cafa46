/* Each buffer has memory of its own, which two ranges of addresses show: one to fill it, and one that can only be read. Both lie between guarded pages. */
#define _GNU_SOURCE
#include "lent.h"

#include <stdio.h>
#include <stdlib.h>
#include <string.h>
#include <sys/mman.h>
#include <unistd.h>

/* The largest buffer: 1,050,000 samples. */
enum { PAGE = 4096, MOST_BYTES = 514 * PAGE };

static uint8_t *to_fill[MOST_BUFFERS + 1];
static uint8_t *to_read[MOST_BUFFERS + 1];

static void must(int holds, const char *what)
{
    if (!holds) {
        perror(what);
        exit(2);
    }
}

/* A range of addresses that shows the file, with a guarded page before it and one behind. */
static uint8_t *shown(int file, int rights)
{
    uint8_t *guard = (uint8_t *)mmap(NULL, MOST_BYTES + 2 * PAGE, PROT_NONE, MAP_PRIVATE | MAP_ANONYMOUS, -1, 0);
    must(guard != MAP_FAILED, "addresses to guard");
    must(mmap(guard + PAGE, MOST_BYTES, rights, MAP_SHARED | MAP_FIXED, file, 0) != MAP_FAILED, "memory to lend");
    return guard + PAGE;
}

static void start(void)
{
    int k;
    must(sysconf(_SC_PAGESIZE) == PAGE, "a page of another size than 4,096 bytes");
    for (k = 0; k <= MOST_BUFFERS; k++) {
        const int file = memfd_create("lent", 0);
        must(file >= 0 && ftruncate(file, MOST_BYTES) == 0, "memory to lend");
        to_fill[k] = shown(file, PROT_READ | PROT_WRITE);
        to_read[k] = shown(file, PROT_READ);
        close(file);
    }
}

void lend(struct call *call, enum side side)
{
    int k;
    if (!to_fill[0])
        start();
    for (k = 0; k <= MOST_BUFFERS; k++) {
        const int used = k == OUT || k < (int)strlen(forms[call->kind].buffers);
        const size_t bytes = used ? (size_t)call->lengths[k] * width_of(call, k) : 0;
        const size_t at = side == AT_END ? MOST_BYTES - bytes : 0;
        must(bytes <= MOST_BYTES, "a buffer that is longer than there is room for");
        call->filled[k] = to_fill[k] + at;
        call->given[k] = bytes == 0 ? NULL : (used && is_written(call, k) ? to_fill[k] : to_read[k]) + at;
    }
}
