/*
 * The making of a first pair, up to its primary: attempts by the six lines of the header's "A chip's first pair of
 * tables". In each a block that is not readable as bad is erased and the primary's pages are written there. Power is
 * cut in steps and between them, and steps fail; then the next attempt follows, at the same block or at another, with
 * the same table or with another. After every event the region is read, and what is found is judged.
 */
#ifndef BRINGUP_H
#define BRINGUP_H

#include "history.h"

/* Gives true once the primary is complete and can have a mirror. Otherwise the history ends: no block is left for the
 * one or for the other, or a rule was broken. */
bool bring_up(struct history *history);

#endif
