/* A story as text: a line for each event. */
#ifndef TIMELINE_H
#define TIMELINE_H

#include "story.h"

void timeline_print(const struct story *story);

#endif
