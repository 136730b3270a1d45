/* What it costs to ask by rule 2. */
#ifndef RULES_H
#define RULES_H

#include "timing.h"

/* Questions that mean the same by both rules, by either; beside an older archive where there is one, by both too. */
void bench_rules(const struct corpus *corpora, size_t count, uint32_t *cells, uint32_t *other_cells, size_t room);

#endif
