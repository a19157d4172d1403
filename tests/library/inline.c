/* The inline calls, for both.c. */
#define RIGNOLDA_INLINE
#define MAKE_CALL inlined
#include "calls.h"
