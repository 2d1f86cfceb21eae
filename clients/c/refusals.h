/* Requests of the library for memory that are refused, for tests. The linker hands the requests over (`--wrap`). */
#ifndef REFUSALS_H
#define REFUSALS_H

#include <stdbool.h>

/* The request that is refused, counted from `refusals_begin`, and whether all after it are refused too. */
extern int refusals_turn;
extern bool refusals_go_on;

void refusals_begin(void);

/* Refuses no more. Returns whether the request of this turn was made. */
bool refusals_end(void);

#endif
