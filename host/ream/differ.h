/* Where primary and mirror differ though their versions are equal: the blocks, with both entries and what their
 * merging gives, run by run. */
#ifndef DIFFER_H
#define DIFFER_H

#include "json.h"
#include "region.h"

/* Tells them. Nothing is printed, and an empty list written, where there are not one good primary and one good
 * mirror with equal versions. */
void differ_print(const struct region *region);
void differ_write(struct json *json, const struct region *region);

#endif
