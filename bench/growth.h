/* How the joins' cost grows with their lists. */
#ifndef GROWTH_H
#define GROWTH_H

#include "timing.h"

/* Joins of ten times as many intervals, and of more lists: the time for one step should stay. */
void bench_growth(uint32_t *cells, size_t room);

/* Probing, where one list grows and the other stays: times, and the cells that are looked at. Ends the program where more are than may be. */
void bench_probing(uint32_t *ours, uint32_t *theirs, size_t room);

#endif
