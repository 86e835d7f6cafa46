/* The archive's calls as data: a kind, its numbers and its buffers, in the order of the file of recorded cases (second/README.md). */
#ifndef CALLS_H
#define CALLS_H

#include "mnemathor.h"

enum { KINDS = 22, MOST_SCALARS = 11, MOST_BUFFERS = 4, OUT = MOST_BUFFERS };

/* A kind's name, how many numbers it takes and how many of the 64 are shown, and a letter for each buffer: b bytes, h 16 bits, i 32 bits, w 64 bits, d doubles.
 * A capital is one that the call writes. */
struct form {
    const char *name;
    int scalars;
    int numbers;
    const char *buffers;
};
extern const struct form forms[KINDS];

/* A call, with the memory that it lends: buffer k has `lengths[k]` elements at `given[k]`, NULL where there are none, and is filled at `filled[k]`. The last is
 * `out` of the archive's functions. */
struct call {
    int kind;
    uint64_t scalars[MOST_SCALARS];
    uint64_t lengths[MOST_BUFFERS + 1];
    void *filled[MOST_BUFFERS + 1];
    void *given[MOST_BUFFERS + 1];
};

/* Bytes of an element, and whether the call writes buffer k. */
size_t width_of(const struct call *call, int k);
int is_written(const struct call *call, int k);

/* Makes the call by the archive's function; its numbers are in what is lent as `out`. `called_at` is the caller's place on the stack, above the arguments. */
void make_plain(const struct call *call);
extern uintptr_t called_at;

/* The stack pointer. */
static inline __attribute__((always_inline)) uintptr_t stack_pointer(void)
{
    uintptr_t place;
#if defined(__x86_64__)
    __asm__ volatile("mov %%rsp, %0" : "=r"(place));
#elif defined(__riscv)
    __asm__ volatile("mv %0, sp" : "=r"(place));
#else
    __asm__ volatile("mov %0, sp" : "=r"(place));
#endif
    return place;
}
/* Makes it by the header's typed call and puts the numbers together from the fields, by name. 0 where the types have no room for such a call. What the header
 * misread makes the last number other than 0. */
int make_typed(const struct call *call, int64_t *numbers);

/* The sum that tells buffers apart (second/README.md). */
uint64_t sum_of(const struct call *call, int k);
/* The line of a call that was made, whose written buffers had these sums before it. */
void show(const struct call *call, const int64_t *numbers, const uint64_t *sums);

/* A double and its bits; bits of any that is no number are all ones. */
double float_of(uint64_t bits);
uint64_t bits_of(double number);

#endif
