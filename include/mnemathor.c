/* The calls of mnemathor.h as symbols, for callers that cannot include it. */
#define MN_FUNCTION
#include "mnemathor.h"

/* What the shared object was made from: the hash of the sources, as ./library finds it. */
#ifdef MN_MADE_FROM
extern const char mn_made_from[];
const char mn_made_from[] = MN_MADE_FROM;
#endif
