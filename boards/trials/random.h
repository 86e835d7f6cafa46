/* Random calls, each made from a seed and its number alone: one text, so that every board makes the same. */
#ifndef RANDOM_H
#define RANDOM_H

#include "lent.h"

/* Call `number` of the seed, lent at one side or the other. */
void random_call(struct call *call, uint64_t seed, uint64_t number);
/* A sound call of a kind, with 512 stars where it takes a catalogue and a frame of 200 x 160 where it takes one. */
void random_large(struct call *call, int kind, uint64_t seed);
/* Whether it is to be made by the header's typed call, where that can make it. */
int by_header(uint64_t number);

#endif
