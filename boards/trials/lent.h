/* Memory to lend, between pages that may not be touched. */
#ifndef LENT_H
#define LENT_H

#include "calls.h"

/* How a call's buffers stand between the guarded pages: flush against the one behind them, or the one before. */
enum side { AT_END, AT_START };

/* Gives every buffer of the call, by its lengths, and `out` their places. What the call does not write is lent by addresses that can only be read. */
void lend(struct call *call, enum side side);

#endif
