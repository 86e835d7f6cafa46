/* Reads the files of recorded calls. */
#include "reader.h"

#include <stdlib.h>
#include <string.h>

/* A buffer as the file has it, before it is known where it will stand. */
static uint8_t read_here[MOST_BUFFERS][8 * 1050000];

uint64_t read_word(FILE *file)
{
    uint64_t word = 0;
    int k;
    for (k = 0; k < 8; k++)
        word = 256 * word + (uint64_t)(getc(file) & 0xff);
    return word;
}

/* One element, high byte first in the file, in the machine's order. */
static void read_element(FILE *file, uint8_t *place, size_t width)
{
    size_t k;
    for (k = 0; k < width; k++)
        place[width - 1 - k] = (uint8_t)getc(file);
}

static void read_buffer(FILE *file, struct call *call, int k)
{
    const size_t width = width_of(call, k);
    const uint64_t length = read_word(file), pattern = read_word(file);
    uint8_t *elements = read_here[k];
    uint64_t i, patches;
    if (length * width > sizeof read_here[k]) {
        fprintf(stderr, "recorded: a buffer of %u elements; the file is another\n", (unsigned)length);
        exit(2);
    }
    for (i = 0; i < pattern; i++)
        read_element(file, elements + i * width, width);
    for (; i < length; i++)
        if (pattern)
            memcpy(elements + i * width, elements + (i - pattern) * width, width);
        else
            memset(elements + i * width, 0, width);
    for (patches = read_word(file); patches > 0; patches--) {
        i = read_word(file);
        read_element(file, elements + i * width, width);
    }
    call->lengths[k] = length;
}

void read_lent(FILE *file, struct call *call, enum side side)
{
    int k;
    for (k = 0; forms[call->kind].buffers[k]; k++)
        read_buffer(file, call, k);
    call->lengths[OUT] = MN_NUMBERS;
    lend(call, side);
    for (k = 0; forms[call->kind].buffers[k]; k++)
        memcpy(call->filled[k], read_here[k], (size_t)call->lengths[k] * width_of(call, k));
}

int read_call(FILE *file, struct call *call, enum side side)
{
    int k;
    call->kind = getc(file);
    if (call->kind <= 0 || call->kind >= KINDS)
        return 0;
    for (k = 0; k < forms[call->kind].scalars; k++)
        call->scalars[k] = read_word(file);
    read_lent(file, call, side);
    return 1;
}
