/*
 * The log of a history, for comparing two hosts or two compilers: a line for each event, with a checksum of the state
 * of draw() and of the region, as they are when the event is noted.
 */
#ifndef LOG_H
#define LOG_H

#include "history.h"

void log_line(const struct history *history, const char *text);

#endif
