/* The files of recorded calls (second/README.md). */
#ifndef READER_H
#define READER_H

#include "lent.h"

#include <stdio.h>

/* The next number of 8 bytes, high byte first. */
uint64_t read_word(FILE *file);
/* The next buffers, as a call of its kind has them, lent at this side with their elements in the machine's order of bytes. */
void read_lent(FILE *file, struct call *call, enum side side);
/* The next call, lent with its buffers at this side; 0 at the end. */
int read_call(FILE *file, struct call *call, enum side side);

#endif
