/* The starts of histories: drawn, noted and counted. */
#ifndef STARTS_H
#define STARTS_H

#include "history.h"

/* A settled pair. */
void start_with_pair(struct history *history);

/* A region with no good copy. Pages of copies may stand there, some of this table. */
void start_bare(struct history *history, struct table *table);

#endif
